"""Graphs, closures, selections and shares against all sets and all partitions of small problems."""
from fractions import Fraction

import pytest
import small

import ppart

pytestmark = pytest.mark.program


@pytest.mark.parametrize("seed", range(40))
def test_densest_and_layers(seed):
    g = small.graph(seed)
    found = ppart.densest(g)
    assert found.check()

    def level(chosen, taken=frozenset()):
        inside = sum(e.weight for e in g.edges if {e.first, e.second} <= chosen | taken and {e.first, e.second} & chosen)
        return Fraction(inside) / sum(g.cost[v] for v in chosen)

    taken = frozenset()
    for layer in ppart.layers(g).layers:
        left = [s for s in small.subsets(set(list(g.number)) - taken) if s]
        best = max(level(s, taken) for s in left)
        assert layer.level == best
        assert set(layer.names) == frozenset().union(*(s for s in left if level(s, taken) == best))
        if not taken:
            assert (found.density, found.vertices) == (best, set(layer.names))
        taken |= set(layer.names)
    assert taken == set(list(g.number))


@pytest.mark.parametrize("seed", range(40))
def test_closure_and_layers(seed):
    p = small.closure(seed)
    found = ppart.closure(p)
    assert found.check()
    ratio = lambda s: Fraction(sum(p.cost[i] for i in s)) / sum(p.weight[i] for i in s)
    taken = frozenset()
    for layer in ppart.layers(p).layers:
        left = [s for s in small.subsets(set(list(p.number)) - taken)
                if s and all(v in s | taken for u, v in p.needs if u in s)]
        best = min(map(ratio, left))
        assert layer.level == best
        assert set(layer.names) == frozenset().union(*(s for s in left if ratio(s) == best))
        if not taken:
            assert (found.ratio, found.items) == (best, set(layer.names))
        taken |= set(layer.names)


@pytest.mark.parametrize("seed", range(40))
def test_select(seed):
    p = small.selection(seed)
    found = ppart.select(p)
    assert found.check()
    worth = lambda s, x: sum(p.gain[g] for g in p.gained(s)) - x * sum(p.cost[i] for i in s)
    ends = [Fraction(0), *found.prices]
    for x in [*found.prices, *((a + b) / 2 for a, b in zip(ends, ends[1:])), ends[-1] + 1]:
        best = max(worth(s, x) for s in small.subsets(list(p.number)))
        assert found.worth(x) == best
        assert found.at(x) == frozenset().union(*(s for s in small.subsets(list(p.number)) if worth(s, x) == best))
    assert found.worths == [found.worth(x) for x in found.prices]


@pytest.mark.parametrize("seed", range(40))
def test_share(seed):
    """Levels rise together until a set of sources is held back by a cut; these stay, and the others rise further."""
    p = small.sharing(seed)
    found = ppart.share(p)
    assert found.check()
    room = {s: min(sum(arc.capacity for arc in p.arcs if arc.tail in side and arc.head not in side)
                   for side in small.subsets(set(list(p.number)) - {p.sink}) if s <= side)
            for s in small.subsets(p.weight)}
    shares, levels = {}, []
    while len(shares) < len(p.weight):
        free = frozenset(p.weight) - set(shares)
        level = {s: (room[s] - sum(shares[i] for i in s - free)) / sum(p.weight[i] for i in s & free)
                 for s in room if s & free}
        least = min(level.values())
        held = frozenset().union(*(s & free for s in level if level[s] == least))
        shares |= {i: least * p.weight[i] for i in held}
        levels.append(least)
    assert found.shares == shares and found.levels == sorted(set(levels))
    assert {i: level for level, group in zip(found.levels, found.groups) for i in group} == {
        i: shares[i] / p.weight[i] for i in shares}


@pytest.mark.parametrize("seed", range(40))
def test_strength_and_partition(seed):
    g = small.graph(seed, most=5)
    every = small.partitions(list(g.number))
    found = ppart.strength(g)
    assert found.check()
    assert found.strength == min(small.crossing(g, p) / (len(p) - 1) for p in every if len(p) > 1)
    assert sum(e.weight for e in found.crossing) == found.strength * (len(found.parts) - 1)

    principal = ppart.partition(g)
    assert principal.check()
    ends = [Fraction(0), *principal.levels]
    for x in [(a + b) / 2 for a, b in zip(ends, ends[1:])] + [ends[-1] + 1]:
        value = lambda p: small.crossing(g, p) - x * (len(p) - 1)
        best = min(map(value, every))
        assert [small.as_sets(p) for p in every if value(p) == best] == [small.as_sets(principal.at(x))]
    assert principal.at(0) == principal.partitions[0]

    def leaves(part):
        assert not part.pieces or sorted(part.names) == sorted(v for piece in part.pieces for v in piece.names)
        assert part.level is None or all(piece.level is None or piece.level > part.level for piece in part.pieces)
        return [v for piece in part.pieces for v in leaves(piece)] if part.pieces else part.names
    assert sorted(v for part in principal.tree() for v in leaves(part)) == sorted(list(g.number))


@pytest.mark.parametrize("seed", range(40))
def test_reinforce(seed):
    """The level is reached, and at the cost that linear programming finds."""
    g, level = small.graph(seed, most=5), Fraction(7, 3)
    found = ppart.reinforce(g, level)
    every = [p for p in small.partitions(list(g.number)) if len(p) > 1]
    assert found.possible == all(g.crossing(p) for p in every)
    if not found.possible:
        assert not g.crossing(found.components) and len(found.components) > 1 and not found.added and not found.cost
        return
    assert min(found.added) >= 0 and not found.components
    weight = [e.weight + x for e, x in zip(g.edges, found.added, strict=True)]
    assert all(small.crossing(g, p, weight) >= level * (len(p) - 1) for p in every)
    assert found.cost == sum(e.price * x for e, x in zip(g.edges, found.added)) == small.least_cost(g, level)


@pytest.mark.parametrize("seed", range(40))
def test_trees(seed):
    g = small.graph(seed, most=5)
    for count in (1, 2):
        found = ppart.trees(g, count)
        fits = all(len(g.crossing(p)) >= count * (len(p) - 1) for p in small.partitions(list(g.number)))
        assert found.possible == fits
        if fits:
            assert len(found.trees) == count and len(set(map(id, sum(found.trees, [])))) == len(sum(found.trees, []))
            for tree in found.trees:
                joined = ppart.Graph(tree, vertices=list(g.number))
                assert len(tree) == len(g.number) - 1
                assert all(joined.crossing(p) for p in small.partitions(list(g.number)) if len(p) > 1)
        else:
            assert len(g.crossing(found.parts)) < count * (len(found.parts) - 1)
