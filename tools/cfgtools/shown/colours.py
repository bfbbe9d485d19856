"""The colours of edges and blocks, and their second marks, for all pictures: those of Graphviz and the page of `tools/browse`."""

from __future__ import annotations

from typing import Dict, NamedTuple

from cfgtools.reports.cfg_report import GUESS


class Look(NamedTuple):
    """How an edge is drawn: its colour, as Graphviz names it and for a page; its line, for Graphviz and as the dashes of a page;
    what the legend says of it; and what tells it from others without colour."""

    colour: str
    web: str
    style: str
    dashes: str
    meaning: str
    mark: str


# By the kinds of edges, in their order.
EDGES: Dict[str, Look] = {
    "fall": Look("gray35", "#595959", "solid", "", "fall: straight on, or a branch not taken", "a plain line"),
    "taken": Look("forestgreen", "#228b22", "solid", "", "taken: a branch taken", "a square at its start"),
    "jump": Look("royalblue", "#4169e1", "solid", "", "jump", "a plain line"),
    "tail": Look("purple", "#a020f0", "bold", "", "tail: a jump that is a tail call", "bold, to a round box"),
    "call": Look("firebrick", "#b22222", "dashed", "4 3", "call", "a line of the block, underlined"),
    "after": Look("darkorange", "#ff8c00", "dashed", "12 5", "after: where a call returns to", "wide dashes"),
    "table": Look("deeppink", "#ff1493", "solid", "", "table: an entry of a jump table", "the numbers of the entries"),
    "landing": Look("saddlebrown", "#8b4513", "dashed,bold", "9 3 2 3", "landing: where what a call throws is caught", "dashes and dots"),
}
# A call or jump through a register that may lead there, by `tools/guess_calls`.
EDGES[GUESS] = Look("steelblue", "#4682b4", "dotted,bold", "1 5", "guess: a call or jump through a register that may lead there", "far dots")
NUMBERED = "table: entries of a jump table, by their numbers from 0"
UNSURE = Look("deeppink", "#ff1493", "dotted", "2 4", "not sure: outside the symbol that holds the jump", "dots, and a question mark")


class Fill(NamedTuple):
    """The colour inside a block, as Graphviz names it and for a page."""

    colour: str
    web: str


# By what a block ends with: where control leaves the function, and where it is not known.
BLOCKS: Dict[str, Fill] = {
    "return": Fill("honeydew2", "#e0eee0"), "stop": Fill("gray85", "#d9d9d9"), "unknown": Fill("mistyrose", "#ffe4e1"),
    "icall": Fill("lemonchiffon", "#fffacd"), "table-cut": Fill("mistyrose", "#ffe4e1"), "table-open": Fill("mistyrose", "#ffe4e1"),
    "branch-out": Fill("mistyrose", "#ffe4e1"),
}
# What ran, in a page.
RAN = "#1f6fd1"
