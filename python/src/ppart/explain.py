"""What a refusal of the program means, and what the line should have been (docs/FORMATS.md and docs/formats)."""
from __future__ import annotations

from collections.abc import Sequence

from ppart.errors import Refused
from ppart.words import COMMANDS

# The lines of each kind of text, by their first fields.
FORMS = {
    "par": {
        "p": "p par NODES ARCS, 2 to 1000 nodes, 0 to 10000 arcs",
        "i": "i LOW_P LOW_Q HIGH_P HIGH_Q, the interval as two fractions",
        "d": "d rising, or d falling",
        "n": "n NODE s, or n NODE t",
        "a": "a TAIL HEAD A B, for the capacity A + B x, each to 1000000000 in size",
    },
    "closure": {
        "p": "p closure ITEMS NEEDS, 1 to 1000 items, 0 to 10000 needs",
        "v": "v ITEM COST WEIGHT, -1000000 to 1000000 and 1 to 1000000",
        "r": "r ITEM NEEDED_ITEM",
    },
    "select": {
        "p": "p select PARTS PRODUCTS NEEDS, 1 to 500, 0 to 1000, 0 to 5000",
        "v": "v PART COST, 1 to 1000000",
        "g": "g PRODUCT GAIN, 1 to 1000000",
        "r": "r PRODUCT PART",
    },
    "share": {
        "p": "p share NODES ARCS, 2 to 1000 nodes, 0 to 10000 arcs",
        "n": "n NODE t",
        "w": "w NODE WEIGHT, 1 to 1000000",
        "a": "a TAIL HEAD CAPACITY, 0 to 1000000000",
    },
    "graph": {
        "p": "p graph VERTICES EDGES, 1 to 500 and 0 to 5000 for densest and layers, else 2 to 100 and 0 to 500",
        "v": "v VERTEX COST, 1 to 1000000",
        "k": "k EDGE PRICE, 1 to 1000000",
        "e": "e VERTEX VERTEX WEIGHT, 1 to 1000000",
    },
}

# What each refusal means.
CAUSES = {
    "wrong kind": "the text is of another kind than these words call for",
    "syntax": "the line has none of the forms of its kind: fields are divided by blanks, numbers are whole, without +",
    "range": "a number is outside its range",
    "count": "there are more or fewer lines of this form than the header says",
    "rule repeated": "this was given before; and a line d has to stand before the first arc",
    "rule missing": "something that has to stand before this line is not there",
    "rule ends": "source and sink would be the same node",
    "rule interval": "the low end of the interval is not below the high end",
    "rule monotone": "the slope of this arc does not fit: in a rising network arcs out of the source may rise and arcs "
                     "into the sink may fall, in a falling one the other way round, and all other arcs are constant",
    "rule negative": "the capacity of this arc is below 0 at an end of the interval",
    "rule loop": "the edge joins a vertex to itself",
    "no end": "no line `end` ends the problem",
    "too long": "the input has more than 2^29 bytes",
    "too fine": "the steps are too fine: the product of the denominators of the interval and of K is above 2^40",
    "outside": "the parameter is outside the interval",
}

# Where the line itself is wrong, its right form helps.
ABOUT_FORMS = ("syntax", "range", "wrong kind")


def explain(words: Sequence[str], refused: Refused) -> str:
    """A few lines for people: what was refused, where, why, and what would fit.

    >>> print(explain(["share"], Refused("range", 3, "w 1 0")))
    line 3: range
        w 1 0
        a number is outside its range
        expected: w NODE WEIGHT, 1 to 1000000
    """
    why = CAUSES.get(refused.cause, "docs/formats says more")
    if refused.line is None:
        return f"refused: {refused.cause}\n    {why}"
    said = [f"line {refused.line}: {refused.cause}", f"    {refused.source}", f"    {why}"]
    if refused.cause in ABOUT_FORMS:
        said += [f"    expected: {form}" for form in forms_for(words, refused.source)]
    return "\n".join(said)


def forms_for(words: Sequence[str], source: str) -> list[str]:
    """The form of a line that begins as this one, or all forms of the kind of text that these words call for."""
    command = words[-1] if words[0] == "check" else words[0]
    kinds = [FORMS[problem.kind] for problem in COMMANDS[command].takes]
    first = source.split(maxsplit=1)[:1]
    alike = [forms[first[0]] for forms in kinds if first and first[0] in forms]
    return alike or [form for forms in kinds for form in forms.values()] + ["end"]
