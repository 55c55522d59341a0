"""Traces of one operation that are nearly right: rows of a run whose operands, results and witnesses are others, and go together but for
one thing or another. What a single changed cell cannot reach, since another row refuses it first, is reached so."""
import json
import struct

from damage import HEAD, counts_in
from programs import BOUND, EDGES, P, element

# Columns of the main table.
S, W, T = 30, 51, 55

# An instruction that is one operation, and how many cells it takes.
FIELD = {"not": 1, "and": 2, "or": 2, "cswap": 3, "assert": 1, "eq": 2, "inv": 1, "mem_load": 1, "cswapw": 9, "add": 2, "mul": 2}

# The same on numbers of 32 bits: what is computed of the operands, and how many limbs the row shows.
NUMBERS = {
    "u32split": (1, 4, lambda a, b, c: a), "u32overflowing_add": (2, 7, lambda a, b, c: a + b),
    "u32overflowing_sub": (2, 6, lambda a, b, c: b - a), "u32overflowing_mul": (2, 8, lambda a, b, c: a * b),
    "u32checked_divmod": (2, 10, None), "u32overflowing_add3": (3, 9, lambda a, b, c: a + b + c),
    "u32overflowing_madd": (3, 10, lambda a, b, c: a * b + c), "u32assert.2": (2, 4, None),
}


def inverse(a):
    return pow(a, P - 2, P)


def limbs_of(choice, number):
    """Two limbs that make a number: of 16 bits, or a great one, or of the number modulo 2^32."""
    if number < BOUND:
        return [number & 0xffff, number >> 16]
    low = number & 0xffff
    return choice.choice([[low, (number - low) * inverse(65536) % P], [number % BOUND & 0xffff, number % BOUND >> 16], [number, 0]])


def operand(choice):
    return choice.choice([choice.choice(EDGES), choice.choice(EDGES), choice.randrange(BOUND), element(choice)])


class Trace:
    """The rows and the statement of a run of one operation, of which all can be changed."""

    def __init__(self, table, statement):
        counts = counts_in(table)
        self.main = [list(struct.unpack_from("<65Q", table, HEAD + 520 * row)) for row in range(counts[0])]
        self.front, self.rest = table[:HEAD], table[HEAD + 520 * counts[0]:]
        self.claim = json.loads(statement)

    def before(self, cells):
        """The cells on top before the operation, which is in row 1 and was in row 0."""
        for row in (0, 1):
            self.main[row][S:S + len(cells)] = cells
        self.claim["inputs"] = self.main[0][S:S + 16]

    def behind(self, cells):
        """The cells on top behind it."""
        for row in range(2, len(self.main)):
            self.main[row][S:S + len(cells)] = cells
        self.claim["outputs"][:16] = self.main[-1][S:S + 16]

    def files(self):
        """The two files."""
        rows = b"".join(struct.pack("<65Q", *(cell % P for cell in row)) for row in self.main)
        return {"table": self.front + rows + self.rest, "statement": json.dumps(self.claim)}


def of_field(choice, name, trace):
    """Operands of an operation on elements or bits, with results that its equations allow."""
    a, b, c = (operand(choice) for _ in range(3))
    row = trace.main[1]
    if name == "eq":
        left = choice.choice([0, 1, 2, operand(choice)])
        trace.before([a, b])
        row[W] = (1 - left) * inverse(a - b) % P if a != b else choice.choice([0, 5])
        trace.behind([left])
    elif name == "inv":
        trace.before([a])
        trace.behind([inverse(a) if choice.randrange(4) else operand(choice)])
    elif name in ("not", "assert", "mem_load"):
        trace.before([a])
        trace.behind({"not": [(1 - a) % P], "assert": [], "mem_load": [operand(choice)]}[name])
    elif name == "cswap":
        trace.before([a, b, c])
        trace.behind([(b + a * (c - b)) % P, (c - a * (c - b)) % P])
    elif name == "cswapw":
        cells = [operand(choice) for _ in range(8)]
        trace.before([a, *cells])
        chosen = [(x + a * (y - x)) % P for x, y in zip(cells[:4], cells[4:])]
        trace.behind(chosen + [(y - a * (y - x)) % P for x, y in zip(cells[:4], cells[4:])])
    else:
        trace.before([a, b])
        trace.behind([{"and": a * b, "or": a + b - a * b, "add": a + b, "mul": a * b}[name] % P])


def of_numbers(choice, name, trace):
    """Operands of an operation on numbers of 32 bits, with results and limbs that go together."""
    count, limbs, computed = NUMBERS[name]
    cells = [operand(choice) for _ in range(count)]
    a, b, c = (cells + [0, 0])[:3]
    row = trace.main[1]
    trace.before(cells)
    if name == "u32checked_divmod":
        low = choice.choice([b // a if a else 0, operand(choice)])
        high = (b - a * low) % P
    elif name == "u32assert.2":
        high, low = a, b
    else:
        total = computed(a, b, c) % P
        low = choice.choice([total % BOUND, total % BOUND, operand(choice), 0])
        high = (total - low) * inverse(BOUND) % P
        if name == "u32overflowing_sub":
            high = choice.choice([int(b < a), high, 2])
            low = (b - a + BOUND * high) % P
    trace.behind([high, low])
    shown = [low, high] if name == "u32split" else cells if name == "u32assert.2" else [*cells, low, high]
    if name == "u32checked_divmod":
        shown.append((a - high - 1) % P)
    parts = [limb for number in shown for limb in limbs_of(choice, number)]
    row[T:T + limbs] = (parts + [0] * 10)[:limbs]
    row[W] = inverse(BOUND - 1 - high) if choice.randrange(4) else 0


def source(name):
    return f"begin {name} end"


def forged(choice, name, table, statement):
    """The files of a run of the operation of this name, changed together, and sometimes in one more cell."""
    trace = Trace(table, statement)
    (of_field if name in FIELD else of_numbers)(choice, name, trace)
    if choice.randrange(4) == 0:
        row = choice.choice(trace.main)
        row[choice.randrange(65)] = operand(choice)
    return trace.files()
