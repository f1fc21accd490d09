"""Makes the pictures of this folder from the examples: python3 docs/pictures/make.py [FOLDER [ENDING ..]]

The program answers, and python/ draws. FOLDER is this one, the ending is svg.
"""
from __future__ import annotations

import sys
from collections.abc import Callable
from pathlib import Path
from typing import Any, NamedTuple

HERE = Path(__file__).resolve().parent
TOP = HERE.parents[1]
sys.path.insert(0, str(TOP / "python" / "src"))

import ppart  # noqa: E402
from ppart import pictures, program, words  # noqa: E402


class Drawing(NamedTuple):
    """A picture: its name, the example with names for its numbers, what is asked, and what draws the answer."""
    name: str
    example: str
    names: str
    command: str
    argument: str | None
    draw: Callable[[Any], Any]

    def problem(self) -> ppart.problems.Problem:
        """The example, with names."""
        return ppart.read((TOP / "examples" / self.example).read_text(), self.names.split(","))


DEMAND = "market,North,South,East,A,B,P,Q,made"
SITES = "city 1,city 2,city 3,harbour 4,harbour 5,harbour 6,lighthouse,fort"
CLUB = "Anna,Ben,Clara,David,Eva,Fritz,Greta,Hans"
TOOLS = "saw,lathe,printer,bench,toys,bowl,lamp,case"
DEPOTS = "plain 1,plain 2,plain 3,port 4,port 5,quarry,dam"
VILLAGES = "valley 1,valley 2,valley 3,valley 4,mill,alp,pass"
OFFICES = "head office,harbour,airport,depot,branch,city exchange,coast exchange,backbone,data centre"
MODULES = "accounts,maps,payments,offline store,export,chat"

DRAWINGS = [
    Drawing("curve", "growing-demand.par", DEMAND, "curve", None, lambda answer: pictures.curve(
        answer, "week", "pallets a week that get through",
        "Growing demand: what gets through, and what holds the rest back")),
    Drawing("at", "growing-demand.par", DEMAND, "at", "6", lambda answer: pictures.network(
        answer, title="Growing demand in week 6: capacities in pallets a week, and the cut")),
    Drawing("sweep", "growing-demand.par", DEMAND, "sweep", "8", lambda answer: pictures.sweep(
        answer, "week", "pallets a week", "Growing demand at nine weeks")),
    Drawing("closure", "shared-tools.closure", TOOLS, "closure", None, lambda answer: pictures.closure(
        answer, "Francs a month / hours a month: saw, bench and toys have 5/3 francs for each hour")),
    Drawing("select", "shared-modules.select", MODULES, "select", None, lambda answer: pictures.schedule(
        answer, "price of a day, in thousand francs", "Which modules are worth building, up to which price of a day")),
    Drawing("share", "office-records.share", OFFICES, "share", None, lambda answer: pictures.shares(
        answer, "gigabytes an hour", "Fair shares of five offices, by staff")),
    Drawing("densest", "club.graph", CLUB, "densest", None, lambda answer: pictures.densest(
        answer, "Evenings together: the densest group, 33/4 for each dinner")),
    Drawing("strength", "eight-sites.graph", SITES, "strength", None, lambda answer: pictures.strength(
        answer, "Days of work to bring cables down: 11/3 for each further piece")),
    Drawing("partition", "eight-sites.graph", SITES, "partition", None, lambda answer: pictures.partition(
        answer, "days of work for each further piece", "Eight sites: which hold together, and how strongly")),
    Drawing("reinforce", "seven-depots.graph", DEPOTS, "reinforce", "6.5", lambda answer: pictures.reinforce(
        answer, "Days of work to block roads: what is added, for 40 thousand francs")),
    Drawing("trees", "seven-villages.graph", VILLAGES, "trees", "2", lambda answer: pictures.trees(
        answer, "Two cable networks that share no path")),
    Drawing("no-trees", "seven-villages.graph", VILLAGES, "trees", "3", lambda answer: pictures.trees(
        answer, "Three networks: 8 paths between 4 parts, and 9 are needed")),
    Drawing("layers", "club.graph", CLUB, "layers", None, lambda answer: pictures.layers(
        answer, "evenings together for the cost of a dinner", "Members of a club, layer by layer")),
]


def ask(drawing: Drawing) -> str:
    """What the program answers."""
    problem = drawing.problem()
    return program.run(words.words_for(drawing.command, problem, drawing.argument), problem.text())


def picture_of(drawing: Drawing, raw: str) -> Any:
    """The picture of what the program answered."""
    return drawing.draw(ppart.read_answer(drawing.command, drawing.problem(), raw, drawing.argument))


def main(arguments: list[str]) -> None:
    """Makes all pictures."""
    folder = Path(arguments[0]) if arguments else HERE
    for drawing in DRAWINGS:
        for ending in arguments[1:] or ["svg"]:
            pictures.save(picture_of(drawing, ask(drawing)), folder / f"{drawing.name}.{ending}")


if __name__ == "__main__":
    main(sys.argv[1:])
