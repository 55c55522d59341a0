"""Random programs: sources that use all kinds of blocks, procedures, the library, kernels, memory, advice, numbers of 32 bits and dynamic
blocks, with inputs for them. Most run to their end: an instruction finds operands in front of it that it takes, and a body leaves the depth
of the stack as it found it. `wild` is how often no care is taken."""
import dataclasses
import json

P = 2**64 - 2**32 + 1
BOUND = 2**32

EDGES = [0, 1, 2, 15, 16, 31, 32, 63, 64, 2**16, BOUND - 1, BOUND, BOUND + 1, 2**63, P - 2, P - 1]

# What stands in front of an instruction's own text: it makes operands that are in order of what is on the stack.
BIT = "eq.0 "
BITS = "eq.0 swap eq.0 "
SMALL = "u32cast "
SMALLS = "u32cast swap u32cast "
THREE_SMALLS = "u32cast swap u32cast movup.2 u32cast "
NOT_ZERO = "dup eq.0 add "

# Instructions without numbers: what makes operands, the name, and how many cells more they leave than they take.
PLAIN = [
    ("", "add", -1), ("", "sub", -1), ("", "mul", -1), (NOT_ZERO, "div", -1), ("", "neg", 0), (NOT_ZERO, "inv", 0),
    ("u32cast push.63 u32checked_and ", "pow2", 0), (BIT, "not", 0), (BITS, "and", -1), (BITS, "or", -1), (BITS, "xor", -1),
    ("", "eq", -1), ("", "neq", -1), ("", "lt", -1), ("", "gt", -1), ("", "lte", -1), ("", "gte", -1), ("", "is_odd", 0), ("", "eqw", 1),
    ("push.1 ", "assert", 0), ("push.0 ", "assertz", 0), ("dup ", "assert_eq", -1), ("dupw ", "assert_eqw", -4),
    ("", "u32test", 1), (SMALL, "u32assert", 0), (SMALLS, "u32assert.2", 0), ("push.1.2.3.4 ", "u32assertw", 4), ("", "u32cast", 0),
    ("", "u32split", 1), ("push.5.7 ", "u32checked_add", 1), ("push.7.5 ", "u32checked_sub", 1), ("push.5.7 ", "u32checked_mul", 1),
    (SMALLS, "u32wrapping_add", -1), (SMALLS, "u32wrapping_sub", -1), (SMALLS, "u32wrapping_mul", -1),
    (SMALLS, "u32overflowing_add", 0), (SMALLS, "u32overflowing_sub", 0), (SMALLS, "u32overflowing_mul", 0),
    (THREE_SMALLS, "u32overflowing_add3", -1), (THREE_SMALLS, "u32wrapping_add3", -2),
    (THREE_SMALLS, "u32overflowing_madd", -1), (THREE_SMALLS, "u32wrapping_madd", -2),
    (SMALLS + NOT_ZERO, "u32checked_div", -1), (SMALLS + NOT_ZERO, "u32checked_mod", -1), (SMALLS + NOT_ZERO, "u32checked_divmod", 0),
    (SMALLS, "u32checked_and", -1), (SMALLS, "u32checked_xor", -1), (SMALLS, "u32checked_or", -1), (SMALL, "u32checked_not", 0),
    (SMALL + "push.13 ", "u32checked_shl", 0), (SMALL + "push.13 ", "u32checked_shr", 0), (SMALL + "push.13 ", "u32checked_rotl", 0),
    (SMALLS, "u32checked_lt", -1), (SMALLS, "u32checked_gte", -1), (SMALLS, "u32checked_gt", -1), (SMALLS, "u32checked_lte", -1),
    (SMALLS, "u32checked_max", -1), (SMALLS, "u32checked_min", -1),
    ("", "drop", -1), ("", "dropw", -4), ("", "padw", 4), ("", "dup", 1), ("", "dupw", 4), ("", "swap", 0), ("", "swapw", 0),
    ("", "swapdw", 0), (BIT, "cswap", -1), (BIT, "cswapw", -1), (BIT, "cdrop", -2), (BIT, "cdropw", -5), ("", "sdepth", 1), ("", "clk", 1),
    ("", "adv_loadw", 0), ("push.3 ", "mem_load", 1), ("push.3 ", "mem_loadw", 0), ("push.3 ", "mem_store", -1),
    ("push.3 ", "mem_storew", 0), ("", "hperm", 0), ("", "hmerge", -4),
]

# Instructions with one number: the same, with the first number and the one behind the last.
NUMBERED = [
    ("", "add", 0, 0, P), ("", "sub", 0, 0, P), ("", "mul", 0, 0, P), ("", "div", 0, 1, P), ("", "eq", 0, 0, P), ("", "neq", 0, 0, P),
    ("", "exp", 0, 0, P), ("drop push.255 ", "u32checked_add", 0, 0, 2**24), ("drop push.4294967295 ", "u32checked_sub", 0, 0, BOUND),
    ("drop push.255 ", "u32checked_mul", 0, 0, 2**24), (SMALL, "u32wrapping_add", 0, 0, BOUND), (SMALL, "u32wrapping_sub", 0, 0, BOUND),
    (SMALL, "u32wrapping_mul", 0, 0, BOUND), (SMALL, "u32overflowing_add", 1, 0, BOUND), (SMALL, "u32overflowing_sub", 1, 0, BOUND),
    (SMALL, "u32overflowing_mul", 1, 0, BOUND), (SMALL, "u32checked_div", 0, 1, BOUND), (SMALL, "u32checked_mod", 0, 1, BOUND),
    (SMALL, "u32checked_divmod", 1, 1, BOUND), (SMALL, "u32checked_shl", 0, 0, 32), (SMALL, "u32checked_shr", 0, 0, 32),
    (SMALL, "u32checked_rotl", 0, 0, 32), (SMALL, "u32checked_rotr", 0, 0, 32), ("", "dup", 1, 0, 16), ("", "dupw", 4, 0, 4),
    ("", "movup", 0, 2, 16), ("", "movdn", 0, 2, 16), ("", "swap", 0, 1, 16), ("", "swapw", 0, 1, 4), ("", "movupw", 0, 2, 4),
    ("", "movdnw", 0, 2, 4), ("", "mem_load", 1, 0, BOUND), ("", "mem_loadw", 0, 0, BOUND), ("", "mem_store", -1, 0, BOUND),
    ("", "mem_storew", 0, 0, BOUND),
]

# The procedures of the library, and how many cells each leaves of the four that it takes.
LIBRARY = {
    "u64_overflowing_add": 3, "u64_wrapping_add": 2, "u64_checked_add": 2, "u64_overflowing_sub": 3, "u64_wrapping_sub": 2,
    "u64_checked_sub": 2, "u64_lt": 1, "u64_gte": 1, "u64_gt": 1, "u64_lte": 1, "u64_eq": 1,
}

LOCALS = [("locaddr", 1), ("loc_load", 1), ("loc_loadw", 0), ("loc_store", -1), ("loc_storew", 0)]


def element(choice):
    """An element, often one near an edge."""
    return choice.choice([choice.choice(EDGES), choice.randrange(100), choice.randrange(BOUND), choice.randrange(P)])


def spelled(choice, number):
    """A number as sources write it."""
    return choice.choice([str(number)] * 6 + [f"0x{number:x}", f"{number:020}"])


@dataclasses.dataclass
class Program:
    """A source, the source of its kernel or None, and the text of inputs."""
    source: str
    kernel: str | None
    inputs: str


class Writer:
    """Writes one source of random bodies. A procedure uses only those before it."""

    def __init__(self, choice, wild, is_kernel, exports):
        self.choice, self.wild, self.is_kernel, self.exports = choice, wild, is_kernel, exports
        self.constants, self.procedures, self.loops, self.may_dispatch, self.referred = {}, [], 5000, False, []
        self.locals = 0
        # what the source may define itself of the library's names, and what it uses of the library, which for a kernel is nothing but for once
        # in a while
        self.own = [name for name in LIBRARY if choice.randrange(12) == 0]
        self.library = [name for name in LIBRARY if name not in self.own]
        if is_kernel:
            self.library = choice.sample(self.library, int(choice.randrange(12) == 0))

    def number(self, first, end):
        """A number of a range by its digits or as a constant."""
        names = [name for name, value in self.constants.items() if first <= value < end]
        if names and self.choice.random() < 0.2:
            return self.choice.choice(names)
        number = self.choice.choice([first, end - 1, self.choice.randrange(first, end), min(end - 1, first + self.choice.randrange(8))])
        return spelled(self.choice, number)

    def instruction(self):
        """An instruction with what it needs in front of it, and how much higher it leaves the stack."""
        choice = self.choice
        kind = choice.randrange(10)
        if kind == 0:
            count = choice.choice([1, 1, 2, 3, 4, 16])
            return "push." + ".".join(self.number(0, P) for _ in range(count)), count
        if kind == 1:
            count = choice.choice([1, 1, 2, 4])
            return f"adv_push.{count}", count
        if kind == 2 and self.locals:
            name, grows = choice.choice(LOCALS)
            return f"{name}.{self.number(0, self.locals)}", grows
        if kind == 3 and self.is_kernel:
            return "caller", 0
        if kind < 7:
            operands, name, grows = choice.choice(PLAIN)
            number = ""
        else:
            operands, name, grows, first, end = choice.choice(NUMBERED)
            fixed = name in ("dup", "dupw", "movup", "movdn", "swap", "swapw", "movupw", "movdnw")
            number = "." + (str(choice.randrange(first, end)) if fixed else self.number(first, end))
        return ("" if choice.random() < self.wild else operands) + name + number, grows

    def straight(self, count, height):
        """So many instructions on a stack that is so much higher than at the body's start, and how much higher it is then."""
        text = []
        for _ in range(count):
            instruction, grows = self.instruction()
            if height + grows < 0 and self.choice.random() >= self.wild:
                text.append("padw padw")
                height += 8
            text.append(instruction)
            height = max(height + grows, 0)
        return text, height

    def use(self):
        """A use of another procedure, which leaves the height as it is."""
        choice, uses = self.choice, []
        for name in self.procedures:
            uses += [f"exec.{name}"] if self.is_kernel else [f"exec.{name}", f"call.{name}", f"procref.{name} dropw"]
        uses += [f"syscall.{name}" for name in self.exports] * 2
        if self.may_dispatch and self.referred:
            uses += [f"procref.{name} dynexec dropw" for name in self.referred] * 2
        uses += ["library"] * (3 if self.library else 0)
        use = choice.choice(uses) if uses else "swap"
        return self.library_use() if use == "library" else use

    def library_use(self):
        """A use of a procedure of the library, most on two numbers that it takes."""
        choice, name = self.choice, self.choice.choice(self.library)
        way = "exec" if self.is_kernel else choice.choice(["exec", "exec", "exec", "call", "procref"])
        if way == "procref":
            text = "dynexec dropw" if self.may_dispatch and choice.random() < self.wild else "dropw"
            return f"procref.{name} {text}"
        a, high_a, b, high_b = (choice.choice([0, 1, BOUND - 1, choice.randrange(BOUND)]) for _ in range(4))
        if "checked" in name and choice.random() >= self.wild:
            high_b //= 2
            high_a = high_a // 2 if "add" in name else high_b + 1
        limbs = [a, high_a, b, high_b]
        if choice.random() < self.wild:
            limbs[choice.randrange(4)] = choice.choice([BOUND, P - 1])
        is_doubled = choice.randrange(4) == 0
        drops = (4 if way == "call" else LIBRARY[name]) + 2 * is_doubled
        operands = ["push." + ".".join(map(str, limbs)), *["dup.1"] * (2 * is_doubled)]
        return " ".join([*operands, f"{way}.{name}", *["drop"] * drops])

    def body(self, depth, size):
        """Statements that leave the stack as high as they found it."""
        choice, text, height = self.choice, [], 0
        for _ in range(choice.randint(1, size)):
            kind = choice.randrange(9) if depth > 0 else choice.randrange(6)
            if kind < 4:
                more, height = self.straight(choice.randint(1, 6), height)
                text += more
            elif kind < 6:
                text.append(self.use())
            else:
                text.append(self.block(kind, depth))
        drops = ["drop"] * height
        return text + (drops if choice.random() >= self.wild else drops[1:])

    def block(self, kind, depth):
        """A block that begins and ends at one height."""
        choice = self.choice
        body = " ".join(self.body(depth - 1, 3))
        if kind == 6:
            condition = choice.choice(["dup eq.0", "dup is_odd", "push.0", "push.1", "dup.1 dup.1 lt"])
            other = choice.choice([" else", " else " + " ".join(self.body(depth - 1, 2)), ""])
            return f"{condition} if.true {body}{other} end"
        if kind == 7:
            return f"repeat.{choice.choice([1, 1, 2, 3, 5])} {body} end"
        self.loops += 1
        count = f"mem_load.{self.loops} sub.1 dup mem_store.{self.loops} neq.0"
        return f"push.{choice.choice([1, 2, 3, 4])} mem_store.{self.loops} push.{choice.choice([0, 1, 1, 1])} while.true {body} {count} end"

    def text(self):
        """The whole source."""
        choice, lines = self.choice, []
        for number in range(choice.randrange(4)):
            name, value = choice.choice(["A", "LIMIT", "N1", "X_Y"]) + str(number), element(choice)
            self.constants[name] = value
            lines.append(f"const.{name}={spelled(choice, value)}")
        names = self.own + [f"f{number}" for number in range(4)]
        choice.shuffle(names)
        for name in names[:choice.randrange(5)]:
            self.locals = choice.choice([0, 0, 1, 2, 5])
            kind = choice.choice(["proc", "export"]) if self.is_kernel else "proc"
            head = f"{kind}.{name}.{self.locals}" if self.locals else f"{kind}.{name}"
            lines += [head, *self.body(2, 3), "end"]
            self.procedures.append(name)
        self.locals = 0
        if not self.is_kernel:
            self.referred = [name for name in self.procedures if choice.random() < 0.5]
            self.may_dispatch = True
            lines += ["begin", *self.body(3, 6), "end"]
        return choice.choice(["\n", "\n", " ", " # a comment\n\t"]).join(lines) + choice.choice(["\n", ""])


def exported(kernel):
    """The names that a kernel exports."""
    words = [word.split(".") for line in kernel.split("\n") for word in line.split("#")[0].split()]
    return [word[1] for word in words if word[0] == "export"]


def inputs_text(choice, stack=None):
    """The text of inputs."""
    stack = [element(choice) for _ in range(choice.choice([0, 1, 3, 16, 17, 40, choice.randrange(1025)]))] if stack is None else stack
    advice = [element(choice) for _ in range(choice.choice([0, 200, 1000, 3000, 3000, 3000, 3000, 3000]))]
    return json.dumps({"stack": stack, "advice": advice}, separators=choice.choice([(",", ":"), (", ", ": ")]))


def program(choice, wild=None):
    """A program, of which most run to their end, and the more the less wild it is."""
    if wild is None:
        wild = choice.choice([0, 0, 0, 0.02, 0.2])
    kernel = Writer(choice, wild, True, []).text() if choice.random() < 0.4 else None
    source = Writer(choice, wild, False, exported(kernel) if kernel is not None else []).text()
    return Program(source, kernel, inputs_text(choice))
