"""Names, decimals, pictures and a second look at certificates for the program ppart. Nothing here is proved.

Problems are objects of the classes Network, Sharing, Graph, Closure and Selection; each command of the program is a
function from a problem to its answer. `ppart.pictures` draws answers, `ppart.certificates` looks at them a second time.
"""
from ppart.commands import (at, closure, curve, densest, layers, partition, reinforce, select, share, strength, sweep,
                            trees)
from ppart.errors import Error, Failure, Unfit
from ppart.many import Outcome, solve
from ppart.problems import Closure, Graph, Network, Selection, Sharing, read
from ppart.words import read_answer

__all__ = ["Closure", "Error", "Failure", "Graph", "Network", "Outcome", "Selection", "Sharing", "Unfit", "at",
           "closure", "curve", "densest", "layers", "partition", "read", "read_answer", "reinforce", "select", "share",
           "solve", "strength", "sweep", "trees"]
