"""Curves, single parameters and sweeps, against minimum cuts of networkx at and between breakpoints."""
from fractions import Fraction

import pytest
import small

import ppart

networkx = pytest.importorskip("networkx")
pytestmark = pytest.mark.program


def least(network, x):
    """The least capacity of a cut by networkx, in whole numbers."""
    unit = int(network.scale * 12) * x.denominator
    g = networkx.DiGraph()
    g.add_nodes_from(list(network.number))
    for arc in network.arcs:
        old = g.get_edge_data(arc.tail, arc.head, {"capacity": 0})["capacity"]
        g.add_edge(arc.tail, arc.head, capacity=old + int(arc.at(x) * unit))
    return Fraction(networkx.minimum_cut_value(g, network.source, network.sink), unit)


def is_flow(network, x, flow, value):
    """Whether these numbers on the arcs are a flow of this value within the capacities at x."""
    gets = dict.fromkeys(network.number, Fraction(0))
    for arc, f in zip(network.arcs, flow, strict=True):
        assert 0 <= f <= arc.at(x)
        gets[arc.tail] -= f
        gets[arc.head] += f
    return [name for name, g in gets.items() if g] == [n for n in network.number if n in (network.source, network.sink)
                                                       and value] and gets[network.sink] == value


@pytest.mark.parametrize("seed", range(80))
def test_curve(seed):
    network = small.network(seed)
    curve = ppart.curve(network)
    assert curve.check()
    xs = [network.low, *curve.breakpoints, network.high]
    assert xs == [point.x for point in curve.points] == sorted(set(xs))
    for x in [*xs, *((a + b) / 2 for a, b in zip(xs, xs[1:]))]:
        value = least(network, x)
        assert curve.value(x) == value == sum(arc.at(x) for arc in curve.bottleneck(x))
        one = ppart.at(network, x)
        assert (one.value, one.x) == (value, x) and one.cut <= curve.cut(x)
        assert one.cut == curve.cut(x) or x in (network.low, network.high)
        assert is_flow(network, x, one.flow, value) and one.slope == sum(arc.slope for arc in one.bottleneck)
    assert all(is_flow(network, point.x, curve.flow(j), point.value) for j, point in enumerate(curve.points))
    for piece, after in zip(curve.pieces, curve.pieces[1:]):
        assert piece.slope > after.slope and piece.high == after.low
    for row in ppart.sweep(network, 3).rows:
        assert row.value == curve.value(row.x) and row.nodes == len(ppart.at(network, row.x).cut)


def test_names_and_decimals():
    g = networkx.DiGraph()
    g.add_edge("spring", "tank", capacity=0, slope="0.3")
    g.add_edge("tank", "house", capacity="1.2")
    g.add_edge(("odd", 1), "tank", capacity=Fraction(1, 7))
    network = ppart.Network.from_networkx(g, "spring", "house", 0, "12.5")
    curve = ppart.curve(network)
    assert curve.breakpoints == [4] and curve.value("0.5") == Fraction(3, 20) and curve.value(9) == Fraction(6, 5)
    assert [str(arc) for arc in curve.bottleneck(9)] == ["tank -> house"]
    assert curve.cut(4) == {"spring"} and curve.cut(5) == {"spring", "tank", ("odd", 1)} - {("odd", 1)}
    with pytest.raises(ValueError, match="outside"):
        curve.value(13)


def test_multigraph():
    g = networkx.MultiDiGraph()
    for capacity in (1, 2, "0.5"):
        g.add_edge("s", "t", capacity=capacity)
    assert ppart.at(ppart.Network.from_networkx(g, "s", "t", 0, 1), "1/2").value == Fraction(7, 2)
