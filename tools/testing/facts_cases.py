"""Cases of facts_run: their lines, and random ones. Nodes and steps are those of facts_rules.py."""
from testing.facts_rules import LAST, WORDS, pushed

TESTS = ("=", ">", ">=", "&")
BITWISE = ("or", "and", "xor")
OPERATIONS = (*("add", "sub", "lsh") * 3, "mul", "div", "rsh", *BITWISE)

# Numbers whose bits and ends meet those of others.
NUMBERS = (
    0xF0, 0xFF, 0xFF00, 0xFFFF, 0x10000, 0x80000000, 0x7FFFFFFF, 0x55555555, 0xAAAAAAAA, 0xFFFFFFFC, 0xFFFFFF00,
    0xFFFF0000, 0xFF00FF, 0x80000001, 0x40000000, 0xC0000000,
)


# ---- lines

def text_of_node(node):
    name, *rest = node
    return f"const {rest[0]:#x}" if name == "const" else " ".join(map(str, node))


def text_of_step(step):
    kind, *rest = step
    if kind == "push":
        return f"push {text_of_node(*rest)}"
    if kind == "learn":
        return " ".join(map(str, rest)).lower()
    form = "word {} from {:#x} to {:#x}" if kind == "from" else "word {} bits {:#x} are {:#x}"
    return form.format(*rest)


def line_of(nodes, steps):
    """The line of a case that shows all."""
    return f"{'; '.join(map(text_of_node, nodes))} | {'; '.join(map(text_of_step, steps))} | all"


def node_of(words):
    return words[0], *(int(word, 0) for word in words[1:])


def step_of(words):
    if words[0] == "push":
        return "push", node_of(words[1:])
    if words[0] == "word":
        return words[2], int(words[1], 0), int(words[3], 0), int(words[5], 0)
    node, test, other, sense = words
    return "learn", int(node), test, int(other), sense == "true"


def case_of(line):
    """The nodes and the steps of a line."""
    nodes, steps = ([part.split() for part in text.split(";") if part.strip()] for text in line.split("|")[:2])
    return [*map(node_of, nodes)], [*map(step_of, steps)]


# ---- random cases

class Maker:
    """What draws a case: about half of its numbers lie near each other."""

    def __init__(self, rng):
        self.rng = rng
        self.near = self.any_number() - rng.randrange(4) if rng.randrange(3) else 0
        self.spread = 2 << rng.randrange(5)
        self.nodes = WORDS

    def any_number(self):
        """A number of any kind."""
        rng = self.rng
        small, power, last = rng.randrange(9), 1 << rng.randrange(32), LAST - rng.randrange(4)
        return rng.choice((small, small, small, power, power - 1, last, rng.choice(NUMBERS), rng.getrandbits(32)))

    def number(self):
        """One of those that lie near each other, one that differs from these by a bit, that of a constant, or any."""
        kind = self.rng.randrange(7)
        if kind > 3:
            return self.any_number() if kind < 6 or len(self.nodes) == 16 else self.nodes[self.constant()][1]
        number = self.near + self.rng.randrange(self.spread) if kind else self.near ^ 1 << self.rng.randrange(32)
        return number & LAST

    def place(self):
        """Where a node stands: among the first three words, anywhere, or among the newest nodes."""
        kind, count = self.rng.randrange(8), len(self.nodes)
        if kind < 2:
            return self.rng.randrange(3)
        return self.rng.randrange(count) if kind == 2 else count - 1 - self.rng.randrange(4)

    def constant(self):
        """Where a constant stands."""
        return self.rng.choice([place for place, node in enumerate(self.nodes) if node[0] == "const"])

    def operation(self):
        """An operation on nodes, often one on the newest node and a constant, through which known bits go back."""
        kind, newest = self.rng.randrange(9), len(self.nodes) - 1
        name = self.rng.choice(OPERATIONS if kind < 5 else BITWISE)
        if kind == 0:
            return "neg", self.place()
        if kind == 1:
            return name, self.place(), self.place()
        if kind in (2, 6):
            return name, self.constant(), self.place() if kind == 2 else newest
        return name, newest if kind > 6 else self.place(), self.constant()

    def push(self, node):
        self.nodes = pushed(self.nodes, node)
        return node

    def learn(self):
        """A test of two nodes, mostly of a word or one of the newest nodes against a constant, and its result."""
        rng = self.rng
        node = rng.choice((rng.randrange(3), len(self.nodes) - 1, self.place(), self.place()))
        other = self.constant() if rng.randrange(4) else self.place()
        return "learn", node, rng.choice(("=", "=", *TESTS)), other, rng.random() < 0.5

    def confine(self):
        """An interval of a word, now and then an empty one."""
        a, b, kind = self.number(), self.number(), self.rng.randrange(16)
        low, high = (a, b) if kind == 0 else (a, min(a + b % 8, LAST)) if kind < 4 else sorted((a, b))
        return "from", self.rng.randrange(3), low, high

    def confine_bits(self):
        """Bits of a word."""
        mask, value = self.number(), self.number()
        return "bits", self.rng.randrange(3), mask, value & mask

    def step(self):
        """A step. A node that it pushes is in the pool afterwards."""
        kind = self.rng.randrange(8)
        if kind == 2:
            return "push", self.push(self.operation() if self.rng.randrange(4) else ("const", self.number()))
        return (self.confine, self.confine_bits)[kind]() if kind < 2 else self.learn()

    def case(self):
        """Some constants and operations, and some steps."""
        nodes = [self.push(("const", self.number())) for _ in range(self.rng.randint(1, 4))]
        nodes += [self.push(self.operation()) for _ in range(self.rng.randint(1, 8))]
        return nodes, [self.step() for _ in range(self.rng.randint(3, 11))]
