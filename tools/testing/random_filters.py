"""Random filter stacks. Each kind is aimed at shortcuts of the program, which docs/SHORTCUTS.md lists.

An instruction is its code, how far it jumps where a test is true and where it is false, and its number. A filter is a
list of instructions, and a stack a list of filters, the oldest first. Few are refused: those that are too long, or whose
tests jump past what stores a scratch word.
"""
LOAD, LOAD_SCRATCH, LOAD_X_SCRATCH, STORE = 0x20, 0x60, 0x61, 0x02
JUMP, RETURN, RETURN_A, TAX, TXA, NEGATE = 0x05, 0x06, 0x16, 0x07, 0x87, 0x84
ADD, SUB, MUL, DIV, OR, AND, LSH, RSH, XOR = OPERATIONS = tuple(0x04 + 16 * i for i in (0, 1, 2, 3, 4, 5, 6, 7, 10))
EQUAL, GREATER, AT_LEAST, ANY_BIT = TESTS = 0x15, 0x25, 0x35, 0x45
BY_X = 0x08
ALLOW, KILL, ERRNO = 0x7FFF0000, 0x80000000, 0x00050000
LAST = 0xFFFFFFFF


def plain(code, number=0):
    """An instruction that goes on to the next one."""
    return (code, 0, 0, number)


def load(word):
    """Loads a word of the input, by its place."""
    return plain(LOAD, 4 * word)


def operation(rng, codes, number):
    """An operation on A and this number; but a shift is by less than six bits, and no divisor is zero."""
    code = rng.choice(codes)
    if code in (LSH, RSH):
        return plain(code, rng.randrange(6))
    return plain(code, max(number, 1) if code == DIV else number)


def encoded(code):
    """The bytes of a filter."""
    return b"".join(c.to_bytes(2, "little") + bytes((t, f)) + k.to_bytes(4, "little") for c, t, f, k in code)


# Words that are masked, kept in scratch words, narrowed until one number is left, and tested again.


def small_or_power(rng):
    """A small number, or now and then one near a power of two."""
    if rng.random() < 0.1:
        return (1 << rng.randrange(32)) + rng.randrange(-1, 2) & LAST
    return rng.randrange(16)


def mask(rng):
    """One instruction that computes a new A, mostly by a mask."""
    kind = rng.random()
    if kind < 0.75:
        code = rng.choice((AND, AND, OR, OR, XOR))
        return plain(code | (BY_X if rng.random() < 0.15 else 0), small_or_power(rng))
    if kind < 0.82:
        return plain(rng.choice((LSH, RSH)), rng.randrange(5))
    if kind < 0.93:
        return plain(rng.choice((ADD, SUB)) | (BY_X if rng.random() < 0.4 else 0), small_or_power(rng))
    if kind < 0.96:
        return plain(NEGATE)
    return plain(rng.choice((MUL, DIV)), 1 + rng.randrange(5))


def masks_kept(rng):
    """Loads a word and computes until each of four scratch words is stored."""
    code = [load(rng.choice((0, 0, 4)))]
    for k in range(4):
        code += [mask(rng) for _ in range(rng.randrange(3))]
        code.append(plain(STORE, k))
        if rng.random() < 0.07:
            code.append(load(rng.choice((0, 4, 5))))
        if rng.random() < 0.3:
            code.append(plain(TAX))
    return code


def look_again(rng, left):
    """A test, or one instruction more, with so many to come before the returns."""
    kind = rng.random()
    if kind < 0.5:
        code = rng.choice((EQUAL, GREATER, AT_LEAST, AT_LEAST, ANY_BIT)) | (BY_X if rng.random() < 0.15 else 0)
        ways = [0, left - 1 + rng.randrange(2) if rng.random() < 0.4 else rng.randrange(min(left, 3))]
        rng.shuffle(ways)
        return (code, *ways, small_or_power(rng))
    if kind < 0.85:
        return plain(LOAD_SCRATCH, rng.randrange(4))
    if kind < 0.92:
        return mask(rng)
    if kind < 0.96:
        return plain(STORE, rng.randrange(4))
    return plain(rng.choice((TAX, TXA)))


def masked_filter(rng):
    """A filter that ends with two returns, to which its tests may jump."""
    code, count = masks_kept(rng), 6 + rng.randrange(20)
    code += [look_again(rng, count - i) for i in range(count)]
    actions = (ALLOW, KILL, 0, ERRNO | 1, 0x7FFC0000)
    code.append(plain(RETURN, rng.choice(actions)))
    code.append(plain(RETURN_A) if rng.random() < 0.05 else plain(RETURN, rng.choice(actions)))
    return code


def masked(rng):
    """Words that are masked, kept in scratch words, narrowed, and tested again."""
    return [masked_filter(rng) for _ in range(rng.choice((1, 1, 1, 2)))]


# Loads, operations and tests in any order.


def any_number(rng):
    """Mostly a small number; or one near the last, a power of two, or any."""
    kind = rng.random()
    if kind < 0.75:
        return rng.randrange(12)
    if kind < 0.85:
        return LAST - rng.randrange(6)
    return 1 << rng.randrange(32) if kind < 0.93 else rng.getrandbits(32)


def some_test(rng, of_x):
    """A test that doesn't jump yet. `of_x` is how often it is one against X."""
    return plain(rng.choice(TESTS) | (BY_X if rng.random() < of_x else 0), any_number(rng))


def step(rng, stored, of_x):
    """One thing that a filter does. `stored` are its scratch words; `of_x` is how often a new X is tested at once."""
    kind = rng.choices(
        ("load", "operation", "tax", "txa", "by X", "negate", "store", "restore", "test"), (14, 28, 6, 4, 5, 3, 4, 3, 33)
    )[0]
    if kind == "load":
        return [load(rng.choice((0, 0, 4, 5)))]
    if kind == "operation":
        return [operation(rng, (AND, AND, AND, OR, OR, XOR, ADD, SUB, MUL, DIV, LSH, RSH), any_number(rng))]
    if kind == "tax":
        return [plain(TAX)] + ([some_test(rng, 1)] if rng.random() < of_x else [])
    if kind == "store":
        stored.add(k := rng.randrange(3))
        return [plain(STORE, k)]
    if kind == "restore" and stored:
        return [plain(LOAD_SCRATCH, rng.choice(sorted(stored)))]
    one = {"txa": plain(TXA), "negate": plain(NEGATE), "by X": plain(rng.choice(OPERATIONS) | BY_X)}
    return [one[kind] if kind in one else some_test(rng, 0.15)]


def way(rng, left):
    """How far a test jumps, with so many instructions to come before three returns: mostly not, or by a few."""
    kind = rng.random()
    if kind < 0.55:
        return 0
    return min(rng.randrange(4), left - 1) if kind < 0.75 else left + rng.randrange(3)


def mixed_filter(rng, of_x=0):
    """A filter whose tests jump to a later instruction or to one of three returns."""
    stored, code = set(), [load(rng.choice((0, 0, 4, 5)))]
    for _ in range(rng.randrange(6, 22)):
        code += step(rng, stored, of_x)
    code.append(plain(RETURN_A) if rng.random() < 0.12 else plain(RETURN, rng.choice((ALLOW, ERRNO | 1))))
    for i, (c, _, _, k) in enumerate(code):
        if c & ~BY_X in TESTS:
            code[i] = (c, way(rng, len(code) - i - 1), way(rng, len(code) - i - 1), k)
    return code + [plain(RETURN, action) for action in (ALLOW, KILL, ERRNO | 3)]


def mixed(rng):
    """Loads, operations and tests in any order."""
    return [mixed_filter(rng) for _ in range(rng.choice((1, 1, 2)))]


def one_word(rng):
    """The same, where many conditions have the same word on both sides."""
    return [mixed_filter(rng, 0.8) for _ in range(rng.choice((1, 1, 2)))]


def exclude(rng):
    """Tests of a word against some 60 numbers, which return where one is met."""
    count = rng.randrange(54, 76)
    numbers = rng.sample(range(1000, 5000), count)
    tests = [(EQUAL, count - i, 0, k) for i, k in enumerate(numbers)]
    return [load(rng.choice((0, 1, 4, 6))), *tests, plain(JUMP, 1), plain(RETURN, rng.choice((ALLOW, ERRNO | 7)))]


def excluded(rng):
    """The same behind a chain of tests, which excludes some 60 numbers of a word."""
    return [(exclude(rng) if rng.random() < 0.9 else []) + filter for filter in mixed(rng)]


# Many computed words.


def long_filter(rng, words, length, tests):
    """So many words that are computed from these words of the input, and so many tests between them."""
    code, stored = [load(rng.choice(words))], set()
    at = {rng.randrange(1, length) for _ in range(tests)}
    for i in range(length):
        code += tested(rng, words) if i in at else computed(rng, words, stored)
    return [*code, plain(RETURN, rng.choice((ALLOW, ERRNO | 1)))]


def tested(rng, words):
    """A test of A, or of a word. Each way goes on, at once or past one operation."""
    code = [load(rng.choice(words))] if rng.random() < 0.5 else []
    test = some_test(rng, 0.1)
    return [*code, (test[0], rng.randrange(2), rng.randrange(2), test[3]), operation(rng, OPERATIONS, any_number(rng))]


def computed(rng, words, stored):
    """One instruction that makes another A, or keeps it."""
    kind = rng.random()
    if kind < 0.12:
        return [load(rng.choice(words))]
    if kind < 0.18:
        return [plain(TAX)]
    if kind < 0.22:
        return [plain(rng.choice((ADD, SUB, MUL, OR, AND, XOR)) | BY_X)]
    if kind < 0.25:
        return [plain(NEGATE)]
    if kind < 0.29:
        stored.add(k := rng.randrange(16))
        return [plain(STORE, k)]
    if kind < 0.34 and stored:
        return [plain(LOAD_SCRATCH, rng.choice(sorted(stored)))]
    return [operation(rng, OPERATIONS, any_number(rng))]


def of_lengths(rng, lengths, tests):
    """Filters of such lengths, with so many tests. All compute from the same words of the input."""
    words = rng.sample(range(16), rng.choice((1, 2, 2, 3, 5, 16)))
    if rng.random() < 0.7 and 0 not in words:
        words[0] = 0
    count = rng.choice((1, 1, 2, 3))
    return [long_filter(rng, words, rng.choice(lengths), rng.choice(tests)) for _ in range(count)]


def hundreds(rng):
    """Hundreds of words that are computed from several words of the input, and few tests between them."""
    return of_lengths(rng, (30, 80, 150, 300, 500), (0, 2, 4, 8, 14))


def thousands(rng):
    """Thousands of such words."""
    return of_lengths(rng, (1000, 1500, 2500, 3900), (3, 5, 8, 14))


# Words that are computed far behind their operands: one operand is narrowed by a test, and then a result is tested.


def chain(rng, length, keeps_all=False):
    """Operations with numbers, one behind the other. `keeps_all`: each has as many results as its operand has numbers."""
    codes = (ADD, ADD, XOR) if keeps_all else (ADD, ADD, SUB, MUL, OR, AND, XOR, LSH, RSH)
    wide = [keeps_all or rng.random() < 0.3 for _ in range(length)]
    return [operation(rng, codes, rng.getrandbits(32) | 1 if it else rng.randrange(1, 4000)) for it in wide]


def low_mask(rng):
    return rng.choice((1, 3, 5, 7, 12, 15, 31, 60, 255))


def recipe(rng, words):
    """How an operand is computed. The same recipe gives the same word again, in each filter."""
    code = [load(rng.choice(words)), *chain(rng, rng.randrange(4))]
    return [*code, plain(AND, low_mask(rng))] if rng.random() < 0.8 else code


def kept(recipes):
    """Computes each operand, and stores it in the scratch word of its number."""
    return [instruction for k, code in enumerate(recipes) for instruction in (*code, plain(STORE, k))]


def results(rng, words, operands, between):
    """Results of two operands each, with so many words between them, and the scratch words in which they are kept."""
    code, made = [], []
    for k in range(rng.choice((1, 2, 3))):
        code += [load(rng.choice(words)), *chain(rng, rng.choice(between), rng.random() < 0.5)]
        code += [plain(LOAD_X_SCRATCH, rng.randrange(operands)), plain(LOAD_SCRATCH, rng.randrange(operands))]
        code += [plain(rng.choice((ADD, ADD, SUB, MUL, OR, AND, XOR)) | BY_X), plain(STORE, 8 + k)]
        made.append(8 + k)
        if rng.random() < 0.5:
            code += [*chain(rng, rng.choice((1, 2, *between[-1:]))), plain(STORE, 12 + k)]
            made.append(12 + k)
    return code, made


def tests_of(rng, words, operands, made):
    """Tests of operands, of words of the input and of results, in any order."""
    code = []
    for _ in range(rng.choice((2, 3, 5, 7))):
        kind = rng.random()
        word = rng.randrange(operands) if kind < 0.35 else rng.choice(made)
        code.append(load(rng.choice(words)) if 0.35 <= kind < 0.5 else plain(LOAD_SCRATCH, word))
        number = rng.choice((low_mask(rng), rng.randrange(80), 1 << rng.randrange(8)))
        code += [(rng.choice(TESTS), rng.randrange(2), rng.randrange(2), number), plain(AND, LAST)]
    return code


def behind(rng, words, recipes, between):
    """A filter that computes operands by these recipes, then results of them, and then tests both."""
    code, made = results(rng, words, len(recipes), between)
    code += [load(rng.choice(words)), *chain(rng, rng.choice((0, 40)))]
    code += tests_of(rng, words, len(recipes), made)
    return [*kept(recipes), *code, plain(RETURN, rng.choice((ALLOW, ERRNO | 1)))]


def behind_groups(rng):
    """Words that are computed some groups of 32 nodes behind their operands."""
    stack = []
    for _ in range(rng.choice((1, 1, 2))):
        words = rng.sample(range(16), rng.choice((2, 2, 3)))
        recipes = [recipe(rng, words) for _ in range(rng.choice((2, 2, 3)))]
        stack.append(behind(rng, words, recipes, (0, 20, 40, 70, 140)))
    return stack


def behind_areas(rng):
    """Words that are computed up to 30 areas of 1,024 nodes behind their operands."""
    words = rng.sample(range(16), rng.choice((2, 2, 3)))
    recipes = [recipe(rng, words) for _ in range(rng.choice((2, 3, 4)))]
    end = plain(RETURN, ALLOW)
    # the newest filter runs first: it makes the operands, and the oldest ones use them
    newest = [instruction for code in recipes for instruction in code] + [end]
    between = []
    for _ in range(rng.choice((0, 1, 2, 3, 5, 7))):
        of = words if rng.random() < 0.5 else range(16)
        start = [load(rng.choice(of)), plain(ADD, rng.getrandbits(31) | 1)]
        between.append([*start, *chain(rng, rng.choice((500, 1000, 2000, 3900)), True), end])
    oldest = [behind(rng, words, recipes, (0, 0, 30, 300, 1000)) for _ in range(rng.choice((1, 1, 2)))]
    return [*oldest, *between, newest]


# Each kind, and the budget of its audits.
KINDS = {
    masked: 2000,
    mixed: 3000,
    one_word: 3000,
    excluded: 3000,
    hundreds: 400,
    thousands: 400,
    behind_groups: 300,
    behind_areas: 200,
}
