"""Sources and other files near the limits of sizes, depths, counts and names, and sources whose names lead anywhere."""
import json
import struct

from programs import BOUND, P

MOST_OPERATIONS = 524_288
MOST_HEIGHT = 1024
MOST_OPEN = 256
MOST_EXPORTS = 255
MOST_BYTES = 1_048_576

# Some names of the library, which sources may define themselves.
OF_LIBRARY = ["u64_eq", "u64_lt", "u64_checked_add"]


def near(choice, limit):
    """A number at a limit, or beside it."""
    return limit + choice.choice([-1, 0, 0, 1, 1])


def turns(count):
    """A body of so many operations of one kind."""
    thousands, ones = divmod(count, 1000)
    return f"repeat.{thousands} repeat.1000 neg end end " * (thousands > 0) + "neg " * ones


def operations(choice):
    """A tree of nearly the most operations, some of which may stand in a procedure that is used, called or dispatched to."""
    count = near(choice, MOST_OPERATIONS)
    part = choice.choice([1, 1000, count // 3])
    use, own = choice.choice([
        ("exec.f", 0), ("call.f", 0), ("push.0 if.true exec.f else call.f end", part + 1), ("procref.f dynexec", 5),
        ("exec.f exec.u64_overflowing_add", 6), ("exec.f call.u64_eq", 11), ("exec.f procref.u64_eq dynexec", 16),
    ])
    return f"proc.f {turns(part)} end begin {use} {turns(count - part - own)} end"


def targets(choice):
    """Dynamic blocks of several targets that have nearly the most operations together."""
    count, number = near(choice, MOST_OPERATIONS), choice.randint(1, 3)
    part = (count - 1) // number
    parts = [part] * (number - 1) + [count - 1 - part * (number - 1) - choice.choice([0, 4 * number])]
    procedures = " ".join(f"proc.f{i} {turns(size)} end" for i, size in enumerate(parts))
    return f"{procedures} proc.named {' '.join(f'procref.f{i}' for i in range(number))} end begin dynexec end"


def height(choice):
    """Procedures that call one another, down to nearly the greatest height."""
    count = near(choice, MOST_HEIGHT) - choice.choice([0, 1])
    way = choice.choice(["call.{0}", "push.0 if.true call.{0} end", "if.true neg else call.{0} end", "while.true call.{0} end", "exec.{0} call.{0}"])
    lines = ["proc.c0 neg end"]
    step = 1 if way.startswith("call") else 2
    if way.startswith("exec"):
        lines += [f"proc.c{i} call.c{i - 1} end" for i in range(1, count)]
    else:
        lines += [f"proc.c{i} {way.format(f'c{i - 1}')} end" for i in range(1, max(count // step, 2))]
    return " ".join(lines) + f" begin call.c{len(lines) - 1} {choice.choice(['', 'neg', 'procref.c0 dynexec'])} end"


def nested(choice):
    """Blocks within blocks, nearly as many as may be open."""
    count = near(choice, MOST_OPEN)
    blocks = [choice.choice(["if.true", "while.true", "repeat.1", "repeat.0" if choice.randrange(300) == 0 else "repeat.2"]) for _ in range(count)]
    blocks = ["if.true" if block == "repeat.2" and i > 9 else block for i, block in enumerate(blocks)]
    return f"begin {' '.join(blocks)} neg {'end ' * choice.choice([count, count, count - 1])} end"


def length(choice):
    """A source of nearly the greatest length."""
    text = choice.choice(["begin # ", "begin end # ", "begin neg end " + " " * 9])
    fill = choice.choice([" ", "x", "\u00e9"]) if "#" in text else " "
    text += fill * ((near(choice, MOST_BYTES) - len(text)) // len(fill.encode()))
    return text


def procedures(choice):
    """Procedures with uses of one another, of none that is there, and of themselves."""
    names = [choice.choice(OF_LIBRARY) if choice.randrange(8) == 0 else f"n{i}" for i in range(choice.randint(1, 6))]
    defined = [choice.choice(names) if choice.randrange(6) == 0 else name for name in names]
    words = ["exec", "call", "procref"]
    ends = [name for name in defined if choice.randrange(8)]

    def body(before):
        text = []
        for _ in range(choice.choice([0, 1, 1, 2, 3])):
            among = ends if choice.randrange(8) == 0 else [name for name in ends if name in before]
            kind = choice.randrange(12)
            if kind == 0:
                text.append("dynexec")
            elif kind == 1:
                text.append(choice.choice(["syscall.k", "syscall.n0", "syscall.u64_eq", "exec.missing", "call.missing", "procref.missing"]))
            elif kind == 2:
                text.append(f"{choice.choice(words)}.{choice.choice(OF_LIBRARY)}")
            elif among:
                text.append(f"{choice.choice(words)}.{choice.choice(among)}")
            if choice.randrange(4) == 0:
                text = ["if.true", *text, "else", "neg", "end"]
            if choice.randrange(8) == 0:
                text = ["repeat.600 repeat.900", *text, "neg end end"]
        return " ".join(text)

    constants = [f"const.{choice.choice('ABC')}={choice.randrange(9)}" for _ in range(choice.choice([0, 0, 1, 3]))]
    lines = [f"proc.{name}{choice.choice(['', '', '.2'])} {body(defined[:i])} end" for i, name in enumerate(defined)]
    lines += constants
    if choice.randrange(3) == 0:
        choice.shuffle(lines)
    return "\n".join([*lines, f"begin {body(defined)} end"])


def exports(choice):
    """A kernel that exports nearly as many procedures as it may."""
    lines = [f"export.k{i} push.{i} drop end" for i in range(near(choice, MOST_EXPORTS))]
    lines.insert(choice.randrange(len(lines)), choice.choice(["proc.k3 end", "proc.other exec.k1 end", "export.equal push.1 drop end", "", ""]))
    return " ".join(lines)


# Texts with a number in the place of `#`, which may be no greater than the one behind.
NUMBERS = [
    ("proc.f.# end begin end", 65_535), ("begin repeat.# neg end end", 10_000), ("proc.f.3 loc_load.# end begin end", 2), ("begin push.# end", P - 1),
    ("const.A=# begin push.A end", P - 1), ("begin exp.# end", P - 1), ("begin u32wrapping_add.# end", BOUND - 1), ("begin mem_load.# end", BOUND - 1),
    ("begin u32checked_shl.# end", 31), ("begin u32checked_rotr.# end", 31), ("begin dup.# end", 15), ("begin dupw.# end", 3),
    ("begin movup.# end", 15), ("begin movdn.# end", 15), ("begin swap.# end", 15), ("begin swapw.# end", 3), ("begin movupw.# end", 3),
    ("begin adv_push.# end", 16), ("begin u32assert.# end", 2),
]

# Texts with as many of a part in the place of `#`.
COUNTS = [("begin push# end", ".1", 16), ("proc.a# end begin end", "a", 99), ("const.A#=1 begin end", "A", 99), ("begin push.#1 end", "0", 19),
          ("begin push.0x#1 end", "0", 15)]


def bounded(choice):
    """A source with a number, or a count of parts, that is nearly too great."""
    if choice.randrange(3):
        text, limit = choice.choice(NUMBERS)
        return text.replace("#", str(near(choice, limit)))
    text, part, limit = choice.choice(COUNTS)
    return text.replace("#", part * near(choice, limit))


SOURCES = [operations, targets, height, nested, length, bounded, bounded, bounded]


def inputs(choice):
    """Inputs with nearly as many cells as there may be, or within nearly as many arrays."""
    if choice.randrange(2):
        return json.dumps({"stack": [0] * near(choice, 1024), "advice": []})
    depth = near(choice, 126)
    return '{"stack":[],"advice":[],"more":' + "[" * depth + "]" * depth + "}"


def statement(choice, text):
    """A statement with nearly as many inputs or words of the kernel as there may be, or as few outputs."""
    claim, kind = json.loads(text), choice.randrange(3)
    if kind == 0:
        claim["inputs"] = [0] * near(choice, 1024)
    elif kind == 1:
        claim["kernel"] = [f"{number:064x}" for number in range(near(choice, 255))]
    else:
        claim["outputs"] = [0] * near(choice, 16)
    return json.dumps(claim)


def table(choice):
    """The head of a table file, in which one count is nearly too great."""
    counts, most = [1, 1, 0, 0, 0, 0, 0], [2**19, 2**17, 2**22, 2**22, 2**19, 255, 2**20]
    number, version = choice.randrange(7), choice.choice([1, 2])
    limit = 2**19 if version == 1 and number == 6 else most[number]
    counts[number] = limit + (near(choice, 0) * choice.choice([1, 8]) if number in (2, 3) else near(choice, 0))
    return b"MDTB" + struct.pack("<8I", version, *counts)


def lines(choice):
    """Parameters and numbers, of which one file has nearly as many lines or bytes as it may."""
    kind = choice.randrange(4)
    params = "1\n" * (near(choice, 168) if kind == 0 else 168)
    numbers = "1\n" * (8 * near(choice, choice.choice([1, 1024])) if kind == 1 else 8)
    if kind == 2:
        params += "\n" * (near(choice, 4096) - len(params))
    if kind == 3:
        numbers += "\n" * (near(choice, 262_144) - len(numbers))
    return {"params": params, "numbers": numbers}


def links(choice):
    """A list of nearly as many links or bytes as it may have."""
    if choice.randrange(2):
        return "table statement\n" * near(choice, 64)
    return "table statement\n" + "x" * (near(choice, 65_536) - 16)


def words(choice):
    """Words with a number or a name that is nearly too great."""
    name, run = "a" * near(choice, 200), "run params source inputs --out new --statement other --limit"
    return choice.choice([
        f"check params table statement --evidence new --pieces {near(choice, 64)}", f"{run} {near(choice, 524_287)}", f"{run} {near(choice, 0)}",
        f"chain params list --evidence new --pieces {near(choice, 64)}", f"hash params {name}", f"hash {name} numbers",
        f"make params {near(choice, 0)} --source new --inputs other", f"make params {choice.choice([1000, 1001, 1001])} --source new --inputs other",
        f"check params table statement --evidence {name}",
    ]).split()
