"""Random words of a command line, of which many are of a command's form but for one."""

FORMS = {
    "check": (["params", "table", "statement"], ["--evidence"], ["--pieces", "--source", "--kernel"]),
    "member": (["params", "table", "statement"], ["--depth", "--evidence"], ["--pieces"]),
    "hash": (["params", "numbers"], [], []),
    "assemble": (["params", "source"], [], ["--kernel"]),
    "run": (["params", "source", "inputs"], ["--out", "--statement"], ["--kernel", "--limit"]),
    "make": (["params", "2"], ["--source", "--inputs"], []),
    "chain": (["params", "list"], ["--evidence"], ["--pieces"]),
    "runs": (["params", "list"], [], []),
}

# Options whose values are numbers, with values of which most are in order.
NUMBERS = {
    "--depth": ["1", "2", "3", "3", "64", "65", "0", "01"], "--pieces": ["1", "2", "7", "64", "65", "0", "01"],
    "--limit": ["1", "5", "40", "524287", "524288", "0", "007"],
}

NEW_FILES = ["new", "other", "new.file", "./new", "new-1"]

ODD = [
    "", "-", "--", "-x", "--x", "--x=1", "--evidence", "--out=", "--limit=0", "--pieces=65", "a b", "n\u00e4me", "a" * 200, "a" * 201, "missing",
    "no/such/file", ".", "/", "help", "--help", "-h", "--version", "0", "01", "1000", "1001", "524287", "524288", "18446744069414584321",
    "--depth=1", "--depth=0",
]


def plain(choice):
    """The words of a command with names of their own for what it writes, and these names behind them."""
    command = choice.choice(sorted(FORMS))
    positionals, needed, free = FORMS[command]
    numbers = [(option, "3") for option in needed if option in NUMBERS]
    written = [option for option in needed if option not in NUMBERS]
    options = [(option, f"new{number}") for number, option in enumerate(written)]
    if "--source" in free and choice.randrange(2):
        options.append(("--source", "source"))
    if "--kernel" in free and (command != "check" or len(options) > 1) and choice.randrange(2):
        options.append(("--kernel", "kernel"))
    return [command, *positionals, *(word for option in numbers + options for word in option)], [name for _, name in options] + positionals


def value(choice, option):
    """A value of an option, mostly in order."""
    if choice.randrange(10) == 0:
        return choice.choice(ODD)
    if option in NUMBERS:
        return choice.choice(NUMBERS[option])
    if option == "--kernel" or option == "--source" and choice.randrange(2):
        return choice.choice(["kernel", "source", "missing"])
    return choice.choice(NEW_FILES)


def words(choice):
    """The words of a command, with a change in three of four."""
    command = choice.choice(sorted(FORMS))
    positionals, needed, free = FORMS[command]
    options = needed + [option for option in free if choice.randrange(3) == 0]
    parts = [[positional] for positional in positionals]
    for option in options:
        given = value(choice, option)
        parts.append([f"{option}={given}"] if choice.randrange(2) else [option, given])
    order = positionals and choice.randrange(3) == 0
    if order:
        places = [i for i, part in enumerate(parts) if len(part) == 1 and not part[0].startswith("--")]
        names = [parts[i] for i in places]
        rest = [part for i, part in enumerate(parts) if i not in places]
        choice.shuffle(rest)
        parts = rest + [["--"]] + names if choice.randrange(2) else rest + names
    for _ in range(choice.choice([0, 1, 1, 2])):
        parts = changed(choice, parts)
    flat = [word.encode() for part in parts for word in part]
    if choice.randrange(40) == 0:
        flat.append(b"\xff\xfe")
    return [command.encode(), *flat] if choice.randrange(20) else flat


def changed(choice, parts):
    """The parts of a command line with one more, one fewer or another one."""
    kind, place = choice.randrange(5), choice.randrange(len(parts) + 1)
    if kind == 0 and parts:
        del parts[place % len(parts)]
    elif kind == 1 and parts:
        parts.insert(place, choice.choice(parts))
    elif kind == 2:
        parts.insert(place, [choice.choice(ODD)])
    elif kind == 3 and parts:
        parts[place % len(parts)] = [choice.choice(ODD)]
    elif parts:
        part = parts[place % len(parts)]
        parts[place % len(parts)] = part[:1]
    return parts
