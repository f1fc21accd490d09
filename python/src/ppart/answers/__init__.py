"""The answers of the program, with Fractions, in the user's units and names: a class for each command."""
from ppart.answers.answer import Answer
from ppart.answers.choices import CheapestClosure, FairShares, Schedule
from ppart.answers.graphs import DensestSet, Layer, LayerList, Reinforcement, SpanningTrees, Strength
from ppart.answers.networks import Curve, LeastCut, Piece, Point, Row, Sweep
from ppart.answers.principal import Fork, PrincipalPartition

__all__ = ["Answer", "CheapestClosure", "Curve", "DensestSet", "FairShares", "Fork", "Layer", "LayerList", "LeastCut",
           "Piece", "Point", "PrincipalPartition", "Reinforcement", "Row", "Schedule", "SpanningTrees", "Strength",
           "Sweep"]
