"""A small dataflow language. A program is a graph of nodes, and each arc between them is a cell that is written once.

    graph = Graph()
    a = graph.number(7)
    b = graph.choose(a < 10, lambda: a * a, lambda: a - 10)
    graph.give("b", b)

An operator on arcs makes a node. A function is a Python function of arcs: each call unfolds into nodes of its own. No
node stands before one whose arc it reads, so the order of the nodes is one in which all of them can be done.
"""
import operator
from typing import Callable, NamedTuple, Optional


class Node(NamedTuple):
    """An instruction: it reads arcs, and writes one. A node in an arm of a conditional also has a gate, the arc that
    says whether the arm is taken. If it isn't, the node reads no more, and writes `otherwise`, or nothing."""

    reads: tuple
    does: Callable[..., int]
    writes: int
    gate: Optional[int]
    otherwise: Optional[int]


class Addition(NamedTuple):
    """Adds the value of one arc to the accumulator that another one names, and then writes 1 to an arc of its own."""

    which: int
    value: int
    writes: int


class Arc:
    def __init__(self, graph, at):
        self.graph, self.at = graph, at


for name in "add sub mul floordiv mod lt le gt ge eq ne".split():
    does = getattr(operator, name)
    setattr(Arc, f"__{name}__", lambda self, other, does=does: self.graph.node(does, self, other))
    setattr(Arc, f"__r{name}__", lambda self, other, does=does: self.graph.node(does, other, self))


def with_literals(does, operands):
    """Returns the operation of an instruction, some of whose operands are numbers that stand in it."""

    def done(*values):
        came = iter(values)
        return int(does(*[next(came) if isinstance(it, Arc) else it for it in operands]))

    return done


def listed(values):
    return list(values) if isinstance(values, (tuple, list)) else [values]


def alone(arcs):
    return arcs[0] if len(arcs) == 1 else tuple(arcs)


class Graph:
    def __init__(self):
        self.nodes, self.additions, self.results = [], [], {}
        self.arcs = self.accumulators = self.arms = 0
        self.gate = None  # That of the nodes that are made now.

    def arc(self):
        self.arcs += 1
        return Arc(self, self.arcs - 1)

    def node(self, does, *operands, otherwise=None, writes=None):
        """Makes a node of an operation. Its operands are arcs, or numbers that stand in the instruction."""
        written = writes or self.arc()
        reads = tuple(it.at for it in operands if isinstance(it, Arc))
        self.nodes.append(Node(reads, with_literals(does, operands), written.at, self.gate, otherwise))
        return written

    def number(self, value):
        return self.node(operator.index, value)

    def give(self, name, arc):
        """Makes an arc a result of the program."""
        self.results[name] = arc.at

    def copied(self, values, results):
        """Copies the values of an arm to the arcs behind the conditional. Only the arm that is taken writes them."""
        results = results or [self.arc() for _ in values]
        for value, result in zip(values, results):
            self.node(operator.index, value, writes=result)
        return results

    def arm(self, test, which, body, results=None):
        """Makes an arm, whose nodes are done only if the test holds of the value that chooses."""
        gate, self.gate = self.gate, self.node(test, which, otherwise=0).at
        results = self.copied(listed(body()), results)
        self.gate = gate
        return results

    def choose(self, which, then, other):
        """Returns what `then` makes if the arc isn't 0, else what `other` makes. Only one of them is computed."""
        self.arms += 1
        results = self.arm(operator.not_, which, other, self.arm(operator.truth, which, then))
        self.arms -= 1
        return alone(results)

    def loop(self, times, bound, body, *first, goes=None):
        """Unfolds a loop that applies a body to some values: so many times, or while `goes` isn't 0 of them.

        The bound says how many iterations may be under way at once: none asks for an operand before the one that is so
        many before it has given its values (k-bounded loops; Culler, Arvind 1988)."""
        outer, given, results = self.gate, [list(first)], None
        self.arms += goes is not None
        for at in range(times):
            if goes:
                on = goes(*given[at])
                results = self.arm(operator.not_, on, lambda: given[at], results)
                self.gate = self.node(operator.truth, on, otherwise=0).at
            if at >= bound:
                self.gate = self.node(lambda *_: 1, *given[at - bound + 1], otherwise=0).at
            given.append(listed(body(*given[at])))
        results = self.copied(given[times], results) if goes else given[times]
        self.arms -= goes is not None
        self.gate = outer
        return alone(results)

    def accumulate(self, first, which, value):
        """Adds a value to one of the accumulators from `first` on (`make_accumulators`), which are M cells. The sum
        doesn't depend on the order. An arm that isn't taken would never add, so this stands outside of arms."""
        if self.arms:
            raise ValueError("an addition stands in an arm: add what the conditional gives, or 0")
        arcs = [it if isinstance(it, Arc) else self.number(it) for it in (which + first, value)]
        self.additions.append(Addition(*(it.at for it in arcs), self.arc().at))

    def make_accumulators(self, count):
        self.accumulators += count
        return self.accumulators - count
