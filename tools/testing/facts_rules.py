"""The rules of facts, as plain functions: what is known of each node of a pool at first, and after each step.

They say what definitions in `specs/` of `sf_dom` say: of one node those of `Rules`, of all nodes those of `GoingBack`,
`Passes` and `Learning`. There is no thought of speed, but that results for the same arguments are kept. An end may lie
beyond the words.

A node is a tuple, as a case writes it: ("const", C), ("neg", A), or an operation and its two operands; and ("word", W)
for a word of the input. Operands are places in the pool. A step is ("learn", NODE, TEST, NODE, SENSE), ("from", WORD,
LOW, HIGH), ("bits", WORD, MASK, VALUE) or ("push", NODE).
"""
from collections import namedtuple
from functools import cache

LAST = 0xFFFFFFFF
COUNT = 1 << 32
WORDS = [("word", place) for place in range(16)]

# What is known of a node: the ends of its interval, and the bits that are known to be 0 and 1.
Known = namedtuple("Known", "low high zeros ones")
NOTHING = Known(0, LAST, 0, 0)


class Contradiction(Exception):
    """Some node is left no number."""


def between(low, high):
    """An interval, with no bit known."""
    return Known(low, high, 0, 0)


def bits(zeros, ones):
    """Known bits alone."""
    return Known(0, LAST, zeros, ones)


def constant(number):
    """A number, known in full."""
    return Known(number, number, LAST - number, number)


def number_of(known):
    """The only number between the ends; None where there are several."""
    return known.low if known.low == known.high else None


def less_one(number):
    return max(number - 1, 0)


# ---- nodes, as a pool keeps them

VALUES = {
    "add": lambda a, b: (a + b) % COUNT,
    "sub": lambda a, b: (a - b) % COUNT,
    "mul": lambda a, b: a * b % COUNT,
    "div": lambda a, b: a // b if b else 0,
    "or": lambda a, b: a | b,
    "and": lambda a, b: a & b,
    "lsh": lambda a, b: (a << b % 32) % COUNT,
    "rsh": lambda a, b: a >> b % 32,
    "xor": lambda a, b: a ^ b,
    "neg": lambda a: -a % COUNT,
}


def folded(nodes, node):
    """The constant of a node's value where it is an operation on constants only; else the node itself."""
    name, *operands = node
    if name in VALUES and all(nodes[operand][0] == "const" for operand in operands):
        return "const", VALUES[name](*(nodes[operand][1] for operand in operands))
    return node


def pushed(nodes, node):
    """The nodes of a pool to which one is pushed: each is there once."""
    node = folded(nodes, node)
    return nodes if node in nodes else [*nodes, node]


# ---- what is known of a node by its operation

def of_sum(a, b):
    """A sum lies between the sums of the ends where none wraps, or each does."""
    low, high = a.low + b.low, a.high + b.high
    if high < COUNT:
        return between(low, high)
    return between(low - COUNT, high - COUNT) if low >= COUNT else NOTHING


def of_difference(a, b):
    """A difference lies between the differences of the ends where none wraps, or each does."""
    if b.high <= a.low:
        return between(a.low - b.high, a.high - b.low)
    return between(a.low + COUNT - b.high, a.high + COUNT - b.low) if a.high < b.low else NOTHING


def of_product(a, b):
    """A product lies between those of the ends, where the greatest is a word."""
    return between(a.low * b.low, a.high * b.high) if a.high * b.high < COUNT else NOTHING


def of_quotient(a, b):
    """A quotient lies between those of the ends where the divisor can't be 0."""
    return between(a.low // b.high, a.high // b.low) if b.low >= 1 else between(0, a.high)


def of_or(a, b):
    return Known(max(a.low, b.low), LAST, a.zeros & b.zeros, a.ones | b.ones)


def of_and(a, b):
    return Known(0, min(a.high, b.high), a.zeros | b.zeros, a.ones & b.ones)


def of_xor(a, b):
    return bits(a.zeros & b.zeros | a.ones & b.ones, a.zeros & b.ones | a.ones & b.zeros)


def of_left_shift(a, b):
    """A left shift by a number keeps both ends where the greatest is a word, and moves known bits along."""
    if number_of(b) is None:
        return NOTHING
    by = b.low % 32
    low, high = (a.low << by, a.high << by) if a.high << by < COUNT else (0, LAST)
    return Known(low, high, (a.zeros << by) % COUNT | (1 << by) - 1, (a.ones << by) % COUNT)


def of_right_shift(a, b):
    """A right shift by a number moves both ends and known bits; by any, it makes no number greater."""
    if number_of(b) is None:
        return between(0, a.high)
    by = b.low % 32
    return Known(a.low >> by, a.high >> by, a.zeros >> by | LAST - (LAST >> by), a.ones >> by)


def of_negation(a):
    """A negation lies between those of the ends where 0 isn't among the numbers, or is the only one."""
    if a.low >= 1:
        return between(COUNT - a.high, COUNT - a.low)
    return between(0, 0) if a.high == 0 else NOTHING


FORWARD = {
    "add": of_sum, "sub": of_difference, "mul": of_product, "div": of_quotient, "or": of_or, "and": of_and,
    "xor": of_xor, "lsh": of_left_shift, "rsh": of_right_shift, "neg": of_negation,
}


@cache
def forward(name, *operands):
    """What is known of an operation on nodes of which this is known."""
    return FORWARD[name](*operands)


# ---- what is left of a node

def met(a, b):
    """What two pieces of knowledge of one node say together."""
    return Known(max(a.low, b.low), min(a.high, b.high), a.zeros | b.zeros, a.ones | b.ones)


def closer(known):
    """One step: the ends move to where known bits put them, and the bits from which on the ends agree become known."""
    low, high = max(known.low, known.ones), min(known.high, LAST & ~known.zeros)
    differ = (low ^ high).bit_length()
    agreed = LAST >> differ << differ
    return Known(low, high, known.zeros | agreed & ~low, known.ones | agreed & low)


def is_possible(known):
    """Whether some number lies between the ends, and no bit is known to be both."""
    return known.low <= known.high and not known.zeros & known.ones


def has_bits(number, known):
    return number <= LAST and not number & known.zeros and number & known.ones == known.ones


def least_with_bits(low, known):
    """The least word from `low` on with the known bits: `low`, or one that is first another at a bit, where it has a 1
    in place of a 0, and has no ones below but known ones."""
    raised = (((low >> i | 1) << i) | known.ones & (1 << i) - 1 for i in range(32))
    return next((number for number in (low, *raised) if number >= low and has_bits(number, known)), None)


def greatest_with_bits(high, known):
    """The greatest word up to `high` with the known bits: `high`, or one that is first another at a bit, where it has a
    0 in place of a 1, and has no zeros below but known zeros."""
    lowered = ((high >> i & ~1) << i | (1 << i) - 1 & ~known.zeros for i in range(32))
    return next((number for number in (high, *lowered) if number <= high and has_bits(number, known)), None)


def least_left(known, excluded):
    """The least number from the low end on with the known bits that isn't excluded."""
    low = least_with_bits(known.low, known)
    while low in excluded:
        low = least_with_bits(low + 1, known)
    return low


def greatest_left(known, excluded):
    """The greatest number up to the high end with the known bits that isn't excluded."""
    high = greatest_with_bits(known.high, known)
    while high in excluded:
        high = greatest_with_bits(high - 1, known) if high else None
    return high


def tightened(known, excluded):
    """Both ends of a word move to numbers that are left for it; None where there are none."""
    low, high = least_left(known, excluded), greatest_left(known, excluded)
    return None if low is None or high is None else known._replace(low=low, high=high)


@cache
def reduced(known, excluded):
    """What is left of a node: single steps, until none changes anything. None: there is no number. Of a word `excluded`
    has the numbers that it isn't; of another node it is None."""
    while True:
        left = closer(known)
        if is_possible(left) and excluded is not None:
            left = tightened(left, excluded)
        if left is None or not is_possible(left):
            return None
        if left == known:
            return known
        known = left


@cache
def narrowed(known, more, excluded):
    """What is left of a node of which more becomes known."""
    return reduced(met(known, more), excluded)


# ---- what a test says of its two words

def past(known, other):
    """More is known of a word that isn't the number of another: an end that is this number moves past it."""
    number = number_of(other)
    low, high = known.low, known.high
    return between(low + 1 if low == number else low, less_one(high) if high == number else high)


def some_of(known, other):
    """The word has at least one bit of the number of another: where only one of them isn't known to be 0, it is 1."""
    number = number_of(other)
    if number is None:
        return NOTHING
    left = number & ~known.zeros
    if left == 0:
        return between(1, 0)
    return bits(0, left) if left & left - 1 == 0 else NOTHING


def none_of(other):
    """The word has no bit of the number of another."""
    number = number_of(other)
    return NOTHING if number is None else bits(number, 0)


# What more is known of both words of a test that is true or false, by what was known of them.
ASSUMED = {
    ("=", True): lambda v, w: (w, v),
    ("=", False): lambda v, w: (past(v, w), past(w, v)),
    (">", True): lambda v, w: (between(w.low + 1, LAST), between(0, less_one(v.high))),
    (">", False): lambda v, w: (between(0, w.high), between(v.low, LAST)),
    (">=", True): lambda v, w: (between(w.low, LAST), between(0, v.high)),
    (">=", False): lambda v, w: (between(0, less_one(w.high)), between(v.low + 1, LAST)),
    ("&", True): lambda v, w: (some_of(v, w), NOTHING),
    ("&", False): lambda v, w: (none_of(w), NOTHING),
}


# ---- what goes back from a node `x op c` to x, where c is a constant

BACK = {
    "and": lambda node, c: bits(node.zeros & c, node.ones),
    "or": lambda node, c: bits(node.zeros, node.ones & ~c),
    "xor": lambda node, c: bits(node.zeros & ~c | node.ones & c, node.ones & ~c | node.zeros & c),
}


def operand_of(nodes, place):
    """Where known bits go back from a node: the operand to which they do, and the constant that is the other one."""
    name, *operands = nodes[place]
    others = [operand for operand in operands if nodes[operand][0] != "const"] if name in BACK else []
    numbers = [nodes[operand][1] for operand in operands if nodes[operand][0] == "const"] if name in BACK else []
    return (others[0], numbers[0]) if len(others) == len(numbers) == 1 else None


# ---- all nodes of a pool

class Facts:
    """What is known of each node of a pool, and the numbers that are excluded for its words."""

    def __init__(self, nodes):
        self.nodes, self.known, self.excluded = [], [], [frozenset()] * 16
        self.grow(nodes)

    def copied(self):
        copy = Facts([])
        copy.nodes, copy.known, copy.excluded = [*self.nodes], [*self.known], [*self.excluded]
        return copy

    def is_same(self, other):
        return (self.known, self.excluded) == (other.known, other.excluded)

    def put(self, place, more):
        """More becomes known of a node."""
        excluded = self.excluded[place] if place < 16 else None
        left = narrowed(self.known[place], more, excluded)
        if left is None:
            raise Contradiction
        self.known[place] = left

    def forward_at(self, place):
        """What is known of a node by its operation, from what is known of its operands."""
        name, *rest = self.nodes[place]
        if name == "word":
            return NOTHING
        return constant(rest[0]) if name == "const" else forward(name, *(self.known[operand] for operand in rest))

    def grow(self, nodes):
        """Takes in the newer nodes of a pool, one after the other."""
        for place in range(len(self.nodes), len(nodes)):
            self.nodes.append(nodes[place])
            self.known.append(NOTHING)
            self.put(place, self.forward_at(place))

    def pass_forward(self):
        """Goes over all nodes, from the oldest to the newest, with what follows from operands as the pass left them."""
        for place in range(len(self.nodes)):
            self.put(place, self.forward_at(place))

    def go_back(self, place):
        """Known bits go back from a node, from operand to operand."""
        while found := operand_of(self.nodes, place):
            operand, number = found
            self.put(operand, BACK[self.nodes[place][0]](self.known[place], number))
            place = operand

    def exclude(self, place, other):
        """A word isn't the only number of another node."""
        if place < 16 and number_of(other) is not None:
            self.excluded[place] |= {number_of(other)}

    def learn(self, node, test, other, sense):
        """The test of two nodes has this result: it is assumed of both, known bits go back from the one and from the
        other, and a pass follows."""
        v, w = self.known[node], self.known[other]
        if (test, sense) == ("=", False):
            self.exclude(node, w)
            self.exclude(other, v)
        by_node, by_other = ASSUMED[test, sense](v, w)
        self.put(node, by_node)
        self.put(other, by_other)
        self.go_back(node)
        self.go_back(other)
        self.pass_forward()

    def take(self, kind, *rest):
        """Takes one step."""
        if kind == "learn":
            self.learn(*rest)
        elif kind == "push":
            self.grow(pushed(self.nodes, *rest))
        else:
            word, first, second = rest
            self.put(word, between(first, second) if kind == "from" else bits(first & ~second, first & second))
            self.pass_forward()

    def after(self, step):
        """The facts after a step; None where it contradicts."""
        left = self.copied()
        try:
            left.take(*step)
        except Contradiction:
            return None
        return left
