"""Problems with the user's own names and exact numbers, and the texts that the program reads of them.

Each class holds what was given, as Fractions in the user's units. `number` says which number each name has in the
text, from 1; a scale (`scale`, `cost_scale`, ..) is the factor by which all numbers of one quantity became whole there.
Whatever the program would refuse is told at once and by name, as an error below `Unfit`.
"""
from ppart.problems.closure import Closure
from ppart.problems.elements import Arc, Edge
from ppart.problems.graph import Graph
from ppart.problems.names import Name
from ppart.problems.network import Network
from ppart.problems.reading import Problem, read
from ppart.problems.selection import Selection
from ppart.problems.sharing import Sharing

__all__ = ["Arc", "Closure", "Edge", "Graph", "Name", "Network", "Problem", "Selection", "Sharing", "read"]
