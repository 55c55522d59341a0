"""Damage: sources, table files and texts that are changed here and there, each so that most tests of its form are met in the end."""
import json
import os
import re
import struct
import sys

from programs import BOUND, EDGES, LOCALS, NUMBERED, P, PLAIN, element, spelled

sys.path.insert(0, os.path.join(os.path.dirname(os.path.abspath(__file__)), "..", "..", "examples", "traces"))
from tables import HEAD, WIDTHS, cells_in, counts_in

NAMES = sorted({name.split(".")[0] for _, name, *_ in PLAIN + NUMBERED} | {name for name, _ in LOCALS}) + ["push", "adv_push", "caller"]

GRAMMAR = [
    "begin", "end", "else", "if.true", "while.true", "repeat.2", "proc.f0", "proc.g.3", "export.f1", "const.A=1", "exec.f0", "call.f1",
    "syscall.f0", "procref.f2", "dynexec", "exec.u64_gt", "call.u64_eq", "procref.u64_lte", "syscall.u64_lt", "proc.u64_gt",
]

UNSUPPORTED = [
    "ext2add", "ext2inv.1", "fri_ext2fold4", "rcomb_base", "mtree_get", "mem_stream", "adv_pipe", "dyncall", "breakpoint", "debug.1",
    "trace", "emit.7", "adv.x", "use.std", "exp",
]

ODD = [
    ".", "..", "add.", "push", "push.", "push..1", "if", "if.false", "if.true.", "while", "repeat", "repeat.0", "repeat.10001", "repeat.A0",
    "const.A", "const.a=1", "const.A=", "const.A=1=2", "const.A=1.2", "const.A=B", "const.A=18446744069414584321", "proc", "proc.F",
    "proc.f0.65536", "proc.f0.A0", "proc.9", "export", "begin.1", "end.1", "else.1", "dynexec.1", "exec", "exec.F", "exec.f0.1", "ADD",
    "exec.u64_neq", "exec.u64_eq.1", "u64_eq",
    "swap.0", "dup.N", "dup.16", "movup.1", "movup.16", "u32assert.1", "u32assert.3", "u32checked_rotr", "u32checked_shl.32", "adv_push.0",
    "adv_push.17", "push.0x", "push.0xG", "push.0x0123456789abcdefF", "push.+1", "push.1_0", "push.000000000000000000001",
    "push.18446744069414584321", "mem_load.4294967296", "loc_load.5", "locaddr", "push.1.2.3.4.5.6.7.8.9.10.11.12.13.14.15.16.17",
    "proc." + "a" * 100, "proc." + "a" * 101, "exp.0", "exp.", "u32wrapping_add.4294967296", "swapw.4", "movupw.1", "dupw.4",
]


def instruction(choice):
    """An instruction with a number that it may have, or an edge of these."""
    if choice.randrange(3) == 0:
        return choice.choice(PLAIN)[1]
    if choice.randrange(8) == 0:
        return f"{choice.choice(LOCALS)[0]}.{choice.randrange(9)}"
    _, name, _, first, end = choice.choice(NUMBERED)
    number = choice.choice([first, end - 1, choice.randrange(first, end), choice.randrange(first, end), first + choice.randrange(end - first) % 16])
    if choice.randrange(40) == 0:
        number = choice.choice([end, first - 1])
    return f"{name}.{number}"


def word(choice):
    """A word of a source, of which most are in order somewhere."""
    kind = choice.randrange(8)
    if kind < 3:
        name = choice.choice(NAMES)
        count = choice.choice([0, 0, 1, 1, 1, 2])
        return ".".join([name, *(spelled(choice, choice.choice([element(choice), choice.randrange(18)])) for _ in range(count))])
    if kind < 5:
        return choice.choice(GRAMMAR)
    return choice.choice(UNSUPPORTED if kind == 5 else ODD)


def source(choice, text):
    """A source with one change to three."""
    for _ in range(choice.randint(1, 3)):
        if choice.randrange(6) == 0:
            text = with_bytes(choice, text)
        else:
            text = with_words(choice, text)
    return text


def with_words(choice, content):
    """A source with another word, one more or one fewer."""
    parts = re.split(rb"(\s+)", content)
    place, kind = 2 * choice.randrange(len(parts) // 2 + 1), choice.randrange(6)
    if kind == 0:
        parts[place] = b""
    elif kind == 1:
        parts[place] += b" " + parts[2 * choice.randrange(len(parts) // 2 + 1)]
    elif kind == 2:
        other = 2 * choice.randrange(len(parts) // 2 + 1)
        parts[place], parts[other] = parts[other], parts[place]
    elif kind == 3:
        parts[place] = word(choice).encode()
    else:
        parts[place] += b" " + word(choice).encode()
    return b"".join(parts)


def with_bytes(choice, content):
    """A text with bytes replaced, put in, taken out or cut off."""
    place = choice.randrange(len(content) + 1)
    kind = choice.randrange(5)
    noise = bytes(choice.choice([choice.randrange(256), choice.choice(b" \t\r\n#.=,:[]{}\"0123456789abcxA_-")]) for _ in range(choice.randint(1, 3)))
    if kind == 0:
        return content[:place]
    if kind == 1:
        return content[:place] + noise + content[place:]
    if kind == 2:
        return content[:place] + content[place + len(noise):]
    return content[:place] + noise + content[place + len(noise):]


def table(choice, content):
    """The bytes of a table file with other bytes, other counts, or of another length."""
    kind = choice.randrange(6)
    if kind == 0:
        return with_bytes(choice, content)
    if kind == 1:
        place = choice.randrange(HEAD)
        return content[:place] + bytes([choice.randrange(256)]) + content[place + 1:]
    if kind == 2:
        return with_count(choice, content)
    if kind == 3:
        place = HEAD + 8 * choice.randrange(cells_in(content))
        bad = struct.pack("<Q", choice.choice([P, P + 1, 2**64 - 1]))
        changed = content[:place] + bad + content[place + 8:]
        return changed[:choice.choice([len(changed), choice.randrange(len(changed))])]
    if kind == 4:
        return content[:4] + struct.pack("<I", choice.choice([0, 1, 1, 1, 3])) + content[8:]
    return content[:choice.randrange(len(content))] if choice.randrange(2) else content + bytes(choice.randint(1, 9))


def with_count(choice, content):
    """Another count of a table, and rows to it where that is easy."""
    number = choice.randrange(7)
    old = counts_in(content)[number]
    step = 8 if number in (2, 3) else 1
    most = [2**19, 2**17, 2**22, 2**22, 2**19, 255, 2**20][number]
    new = choice.choice([0, old + step, max(old - step, 0), old + 1, most, most + 1, BOUND - 1])
    place = 8 + 4 * number
    changed = content[:place] + struct.pack("<I", new) + content[place + 4:]
    if choice.randrange(2) and abs(new - old) <= 8:
        end = HEAD + 8 * sum(width * count for width, count in zip(WIDTHS, counts_in(content)[:number + 1]))
        width = 8 * WIDTHS[number]
        rows = width * (new - old)
        changed = changed[:end] + bytes(rows) + changed[end:] if rows > 0 else changed[:end + rows] + changed[end:]
    return changed


def cell(choice, content):
    """The bytes of a table file with another element in one cell, often of a small table."""
    counts, number = counts_in(content), choice.choice([0, 0, 0, 1, 2, 3, 4, 5, 6])
    if counts[number] == 0:
        number = 0
    before = sum(width * count for width, count in zip(WIDTHS[:number], counts))
    row = choice.choice([0, counts[number] - 1, choice.randrange(counts[number]), choice.randrange(counts[number])])
    place = HEAD + 8 * (before + WIDTHS[number] * row + choice.randrange(WIDTHS[number]))
    old = struct.unpack_from("<Q", content, place)[0]
    new = choice.choice([(old + 1) % P, (old - 1) % P, 0, 1, 16, 1 - old % 2, element(choice)])
    return content[:place] + struct.pack("<Q", new if new != old else (old + 2) % P) + content[place + 8:]


# Of operations by their codes, the columns that no constraint of their rows fixes, but a bus: children and digests, the repeats of a loop,
# places of permutations, words of memory.
BY_BUSES = {
    29: [51], 7: [55, 56, 57], 47: [55, 56, 57], 70: range(16, 24), 71: range(16, 24), 72: [16, 51, 51], 75: range(16, 20), 76: range(16, 24),
    77: range(16, 24),
}


def by_buses(choice, content):
    """The bytes of a table file with another element in a cell that only a bus fixes, if there is one."""
    starts = [HEAD + 520 * row for row in range(counts_in(content)[0])]
    codes = [(start, sum(bit << j for j, bit in enumerate(struct.unpack_from("<7Q", content, start + 72)))) for start in starts]
    held = [(start, code) for start, code in codes if code in BY_BUSES]
    if not held:
        return cell(choice, content)
    kind = choice.choice(sorted({code for _, code in held}))
    place = choice.choice([start for start, code in held if code == kind]) + 8 * choice.choice(BY_BUSES[kind])
    old = struct.unpack_from("<Q", content, place)[0]
    return content[:place] + struct.pack("<Q", choice.choice([1 - old if old < 2 else 0, (old + 1) % P, element(choice)])) + content[place + 8:]


def operation(choice, content):
    """The bytes of a table file with another operation in a row of the main table."""
    start = HEAD + 520 * choice.randrange(counts_in(content)[0])
    row = list(struct.unpack_from("<65Q", content, start))
    code = choice.choice([choice.randrange(70, 81), choice.randrange(128)])
    row[9:16] = [code >> j & 1 for j in range(7)]
    if choice.randrange(4):
        row[24] = int(code < 70)
    if choice.randrange(2):
        row[16] = choice.choice([code, 0, row[16]])
    return content[:start] + struct.pack("<65Q", *row) + content[start + 520:]


def rows(choice, content):
    """The bytes of a table file with two rows of a table exchanged, or one row written over another."""
    counts = counts_in(content)
    number = choice.choice([table for table in range(7) if counts[table] > 1])
    start = HEAD + 8 * sum(width * count for width, count in zip(WIDTHS[:number], counts))
    width = 8 * WIDTHS[number]
    first, second = (start + width * choice.randrange(counts[number]) for _ in range(2))
    changed = bytearray(content)
    changed[first:first + width] = content[second:second + width]
    if choice.randrange(2):
        changed[second:second + width] = content[first:first + width]
    return bytes(changed)


def number(choice):
    """A JSON number, of which few are elements."""
    return choice.choice([
        str(element(choice)), str(choice.choice([P, P + 1, 2**64 - 1, 2**64, 10**30, 10**400])), "-" + str(choice.choice(EDGES)), "1.5", "1e3",
        "0.0", "1E400", "-1e999", "1e-999", "01", "1.", ".5", "+1", "1e", "0e0", "-", "1.7976931348623157e308", "1.7976931348623159e308",
    ])


def value(choice):
    """A JSON value of any kind, or what is none."""
    return choice.choice([
        number(choice), "null", "true", "false", "nul", '"text"', "\"\\u0041\"", "\"\\ud800\"", "\"\\ud83d\\ude00\"", "\"\\x\"", "[]", "{}",
        "[[]]", "[1,]", "[,]", "{\"a\":1,}", "[" * 127 + "]" * 127, "[" * 126 + "]" * 126, "[" * 200 + "]" * 200, "\"\t\"", "'1'", "NaN", "",
    ])


def text(choice, content):
    """The text of a JSON object with a change."""
    kind = choice.randrange(9)
    if kind == 0:
        return with_bytes(choice, content)
    if kind == 1:
        return choice.choice([b"\xef\xbb\xbf" + content, content + choice.choice([b" \n", b"x", b"\0", b"{}"]), b"\n\t " + content, b"", b"[]"])
    members = [f"{json.dumps(key)}:{json.dumps(member)}" for key, member in json.loads(content).items()]
    place = choice.randrange(len(members))
    if kind == 2:
        members.append(members[place])
    elif kind == 3:
        del members[place]
    elif kind == 4:
        members.append(f'"{choice.choice(["extra", "stack", "digest", "kernel"])}":{value(choice)}')
    elif kind == 5:
        members[place] = members[place].split(":")[0] + ":" + value(choice)
    else:
        return changed_items(choice, json.loads(content)).encode()
    choice.shuffle(members)
    return ("{" + choice.choice([",", " , ", ",\n"]).join(members) + "}").encode()


def changed_items(choice, claim):
    """The text of an object with an item of an array changed, or more or fewer of them."""
    key = choice.choice(sorted(claim))
    if isinstance(claim[key], str):
        claim[key] = other_digits(choice, claim[key])
        return json.dumps(claim)
    items, kind = claim[key], choice.randrange(6)
    if kind == 0 and items:
        del items[choice.randrange(len(items))]
    elif kind == 1:
        items.extend([0] * choice.choice([1, 1008, 1025]))
    elif kind == 2 and key == "kernel":
        items.append(choice.choice(items) if items else "0" * 64)
    elif kind == 3 and key == "kernel":
        items.extend(f"{number:064x}" for number in range(choice.choice([1, 255, 256])))
    elif items:
        place = choice.randrange(len(items))
        items[place] = other_digits(choice, items[place]) if isinstance(items[place], str) else "#"
    return json.dumps(claim).replace('"#"', choice.choice([number(choice), number(choice), number(choice), str(element(choice)), '"1"', "null"]))


def top_inputs(choice, content):
    """A statement with another cell among the first of its inputs, or with one more or one fewer."""
    claim = json.loads(content)
    place = choice.randrange(9)
    claim["inputs"][place:place + choice.choice([0, 1, 1])] = choice.choice([[], [element(choice)], [element(choice)]])
    return json.dumps(claim)


def other_digits(choice, digits):
    """The text of another word, or of none."""
    place = choice.randrange(len(digits))
    other = choice.choice("0123456789abcdefABCDEFg ")
    return choice.choice([digits[:place] + other + digits[place + 1:], digits.upper(), digits[1:], digits + "0", "f" * 64, ""])


def lines(choice, content):
    """A file of lines of numbers or names with a change."""
    if choice.randrange(3) == 0:
        return with_bytes(choice, content)
    parts = content.split(b"\n")
    place = choice.randrange(len(parts))
    kind = choice.randrange(4)
    if kind == 0:
        del parts[place]
    elif kind == 1:
        parts.insert(place, choice.choice(parts))
    elif kind == 2:
        parts[place] = choice.choice([str(element(choice)), str(P), "00", "01", "-1", "+1", " 1", "1 ", "1\r", "", "a", "1" * 30]).encode()
    else:
        return b"\n".join(parts[:place])
    return b"\n".join(parts)
