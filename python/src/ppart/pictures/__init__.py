"""Pictures of answers by matplotlib. Each function returns a Figure; `save` writes it as SVG, PNG or PDF.

Numbers in the pictures are the exact ones. Every function takes a `title` and, where there is an axis, what it shows
and in which unit. What is too much for a picture is left out, and the title says so.
"""
from __future__ import annotations

from collections.abc import Callable
from typing import Any

from matplotlib.figure import Figure

from ppart import answers
from ppart.errors import WrongKind
from ppart.pictures.bars import layers, schedule, shares
from ppart.pictures.curves import curve, sweep
from ppart.pictures.graphs import densest, reinforce, strength, trees
from ppart.pictures.networks import closure, network
from ppart.pictures.paper import must_be_picture, save
from ppart.pictures.tree import partition

__all__ = ["PICTURES", "closure", "curve", "densest", "layers", "must_be_picture", "network", "partition", "picture",
           "reinforce", "save", "schedule", "shares", "strength", "sweep", "trees"]

PICTURES: dict[type[answers.Answer[Any]], Callable[..., Figure]] = {
    answers.LeastCut: network,
    answers.Curve: curve,
    answers.Sweep: sweep,
    answers.CheapestClosure: closure,
    answers.Schedule: schedule,
    answers.FairShares: shares,
    answers.DensestSet: densest,
    answers.Strength: strength,
    answers.PrincipalPartition: partition,
    answers.Reinforcement: reinforce,
    answers.SpanningTrees: trees,
    answers.LayerList: layers,
}


def picture(answer: answers.Answer[Any], **words: str) -> Figure:
    """The picture of an answer; words are its title and the like. Raises WrongKind for anything else."""
    if type(answer) not in PICTURES:
        raise WrongKind(f"there is no picture of {type(answer).__name__}")
    return PICTURES[type(answer)](answer, **words)
