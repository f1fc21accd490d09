"""What problems take from graphs of networkx. Only the graphs' own methods are used, so networkx is not imported."""
from __future__ import annotations

from collections.abc import Mapping
from typing import Any

from ppart.errors import Unreadable


def must_be_directed(graph: Any) -> None:
    """Raises Unreadable for an undirected graph."""
    if not graph.is_directed():
        raise Unreadable("the graph is not directed: use graph.to_directed()", graph)


def must_be_undirected(graph: Any) -> None:
    """Raises Unreadable for a directed graph."""
    if graph.is_directed():
        raise Unreadable("the graph is directed: use graph.to_undirected()", graph)


def attribute(data: Mapping[str, Any], name: str, owner: object) -> Any:
    """An attribute of a node or an edge. Raises Unreadable where it is missing."""
    if data.get(name) is None:
        raise Unreadable(f"{owner} has no {name!r}", owner)
    return data[name]


def edges_with(graph: Any) -> list[tuple[Any, Any, dict[str, Any]]]:
    """The edges of a graph or multigraph: both ends and the attributes."""
    return list(graph.edges(data=True))
