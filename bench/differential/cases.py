"""The kinds of cases. Each takes both sides, a choice and the files that all cases have, and compares some commands."""
import json

import damage
import limits as near_limits
import paths
import recipes
import words as command_lines
from programs import element, inputs_text, program

RUN = ["run", "params", "source", "inputs", "--out", "table", "--statement", "statement"]
CHECK = ["check", "params", "table", "statement", "--evidence", "evidence"]

# How many changes of one honest file are compared in a case.
CHANGES = 5


def files_of(made, common):
    """The files of a program."""
    files = {"params": common["params"], "source": made.source, "inputs": made.inputs}
    return files if made.kernel is None else {**files, "kernel": made.kernel}


def with_kernel(words, made):
    return words if made.kernel is None else [*words, "--kernel", "kernel"]


def honest_run(sides, kind, choice, common, most=2**18):
    """A program that ran to its end on both sides with the files of its run, whose table file is no longer than this."""
    for _ in range(20):
        made = program(choice)
        files = files_of(made, common)
        answer = sides.compare(kind, with_kernel(RUN, made), files)
        if answer.status == 0 and len(answer.files["table"]) <= most:
            return made, {**files, "table": answer.files["table"], "statement": answer.files["statement"]}
    return None, None


def path_files(choice, params, steps):
    """The files of a program that walks a path of so many steps."""
    return {"params": params, "source": paths.source(choice, steps), "inputs": paths.inputs(choice, params, steps)}


def walked(sides, kind, choice, params, steps):
    """The files of a run that walks a path of so many steps, if it ended on both sides."""
    files = {**path_files(choice, params, steps), "kernel": "export.k neg end export.other swap end"}
    answer = sides.compare(kind, RUN + choice.choice([[], [], [], ["--kernel", "kernel"]]), files)
    return {**files, "table": answer.files["table"], "statement": answer.files["statement"]} if answer.status == 0 else None


def member(steps, pieces="1"):
    """The words that have a trace judged as that of a path of so many steps."""
    return ["member", "params", "table", "statement", "--depth", str(steps), "--evidence", "evidence", "--pieces", pieces]


def members(sides, choice, common):
    """The run of a path is judged for its depth, for another one and beside its source, and with changes of its files."""
    params, steps = choice.choice([common["params"], common["params"], common["zeros"]]), paths.depth(choice)
    files = walked(sides, "members", choice, params, steps)
    if files is None:
        return
    sides.compare("members", member(steps, choice.choice(["1", "2", "64"])), files)
    # some of these are no depth
    others = [steps - 1, steps + 1, choice.randint(1, paths.MOST_DEPTH), paths.MOST_DEPTH + choice.randrange(2)]
    sides.compare("members", member(choice.choice(others)), files)
    sides.compare("members", [*CHECK, "--source", "source"], files)
    for _ in range(CHANGES):
        name = choice.choice(["table", "statement"])
        if name == "table":
            change = choice.choice([damage.table] + [damage.cell] * 4 + [damage.rows, damage.operation])
        else:
            change = choice.choice([damage.text, damage.top_inputs])
        sides.compare("members", member(steps), {**files, name: change(choice, files[name])})


def other_members(sides, choice, common):
    """Runs of other programs, and traces of a path that show two hashes of one digest, are judged as those of a path."""
    steps = paths.depth(choice)
    if choice.randrange(3) == 0:
        _, files = honest_run(sides, "other members", choice, common)
    else:
        files = path_files(choice, common["zeros"], steps)
        files = sides.made(["collisions", "params", "source", "inputs", "table", "statement", str(choice.randrange(2**32))], files)
    for depth in (steps, paths.depth(choice)) if files else ():
        sides.compare("other members", member(depth), files)


def programs(sides, choice, common):
    """A program is assembled and run, its table file checked, and checked beside its source and beside another one's."""
    made = program(choice)
    params = common["zeros"] if choice.randrange(4) == 0 else common["params"]
    files = {**files_of(made, common), "params": params}
    sides.compare("programs", with_kernel(["assemble", "params", "source"], made), files)
    limit = ["--limit", str(choice.choice([1, 10, choice.randrange(1, 300), 3000, 524287]))] if choice.randrange(3) == 0 else []
    answer = sides.compare("programs", with_kernel(RUN + limit, made), files)
    if answer.status in (0, 4):
        last = max(int(answer.said.split()[1]) + choice.choice([-1, 0, 1]), 1)
        sides.compare("programs", with_kernel([*RUN, "--limit", str(last)], made), files)
    if answer.status != 0:
        return
    files |= {"table": answer.files["table"], "statement": answer.files["statement"]}
    sides.compare("programs", CHECK + ["--pieces", str(choice.choice([1, 2, 3, 64]))], files)
    sides.compare("programs", with_kernel([*CHECK, "--source", "source"], made), files)
    if choice.randrange(4) == 0:
        other = program(choice)
        files["source"] = other.source
        sides.compare("programs", [*CHECK, "--source", "source"], files)


def sources(sides, choice, common):
    """Changes of a source and of its kernel are assembled."""
    made = program(choice)
    files = files_of(made, common)
    for _ in range(CHANGES):
        changed = dict(files)
        name = "kernel" if made.kernel is not None and choice.randrange(3) == 0 else "source"
        changed[name] = damage.source(choice, files[name].encode())
        sides.compare("damaged sources", with_kernel(["assemble", "params", "source"], made), changed)


def instructions(sides, choice, common):
    """Some words, of which most are instructions in order, are assembled in a procedure."""
    for _ in range(CHANGES):
        words = [damage.instruction(choice) for _ in range(choice.randint(1, 8))]
        if choice.randrange(2):
            words.insert(choice.randrange(len(words)), damage.word(choice))
        body = " ".join(words)
        source = f"const.A0=7 const.N=18446744069414584320 proc.f0.9 {body} end begin exec.f0 end"
        sides.compare("instructions", ["assemble", "params", "source"], {"params": common["params"], "source": source})


def limits(sides, choice, common):
    """Sources, files and words near the limits."""
    files = {"params": common["params"], **common["sum"], "list": "table statement\n", "inputs": '{"stack":[],"advice":[]}', "numbers": "1\n" * 8}

    def compare(words, **changed):
        sides.compare("limits", words, {**files, "source": "begin end", **changed})

    for source in near_limits.SOURCES:
        compare(["assemble", "params", "source"], source=source(choice))
    compare(RUN, inputs=near_limits.inputs(choice))
    compare(CHECK, statement=near_limits.statement(choice, common["sum"]["statement"]))
    compare(CHECK, table=near_limits.table(choice))
    compare(["hash", "params", "numbers"], **near_limits.lines(choice))
    compare(["chain", "params", "list", "--evidence", "evidence"], list=near_limits.links(choice))
    compare(near_limits.words(choice))
    if choice.randrange(4) == 0:
        compare([*RUN, "--kernel", "kernel"], source="begin syscall.k0 end", kernel=near_limits.exports(choice))


def names(sides, choice, common):
    """Sources whose names lead anywhere are assembled."""
    for _ in range(CHANGES):
        files = {"params": common["params"], "source": near_limits.procedures(choice)}
        sides.compare("names", ["assemble", "params", "source"], files)


def tables(sides, choice, common):
    """Changes of the bytes of a table file are checked."""
    _, files = honest_run(sides, "damaged tables", choice, common)
    for _ in range(CHANGES if files else 0):
        sides.compare("damaged tables", CHECK, {**files, "table": damage.table(choice, files["table"])})


def cells(sides, choice, common):
    """Table files with other elements in some cells, or with rows moved, are checked."""
    made, files = honest_run(sides, "forged cells", choice, common)
    for _ in range(2 * CHANGES if files else 0):
        forged = files["table"]
        for _ in range(choice.choice([1, 1, 1, 2, 3])):
            change = choice.choice([damage.cell] * 6 + [damage.by_buses] * 3 + [damage.rows, damage.operation, damage.operation])
            forged = change(choice, forged)
        more = with_kernel(["--source", "source"], made) if choice.randrange(4) == 0 else ["--pieces", choice.choice(["1", "3"])]
        sides.compare("forged cells", CHECK + more, {**files, "table": forged})


def operations(sides, choice, common):
    """Traces of one operation, in which operands, results and witnesses are changed together, are checked."""
    name = choice.choice(sorted({**recipes.FIELD, **recipes.NUMBERS}))
    files = {"params": common["params"], "source": recipes.source(name), "inputs": '{"stack":[1,1],"advice":[]}'}
    answer = sides.compare("operations", RUN, files)
    for _ in range(2 * CHANGES):
        changed = recipes.forged(choice, name, answer.files["table"], answer.files["statement"])
        sides.compare("operations", CHECK, {"params": common["params"], **changed})


def statements(sides, choice, common):
    """Changes of a statement are checked with the table file."""
    _, files = honest_run(sides, "damaged statements", choice, common)
    for _ in range(CHANGES if files else 0):
        sides.compare("damaged statements", CHECK, {**files, "statement": damage.text(choice, files["statement"])})


def inputs(sides, choice, common):
    """A program runs on changes of its inputs."""
    made = program(choice)
    files = files_of(made, common)
    for _ in range(CHANGES):
        changed = damage.text(choice, made.inputs.encode())
        sides.compare("damaged inputs", with_kernel(RUN, made), {**files, "inputs": changed})


def lines(sides, choice, common):
    """Files of numbers and of parameters are hashed."""
    count = choice.choice([8, 16, 8, 24, 0, 7, 9, 8192, 8200])
    numbers = "".join(f"{element(choice)}\n" for _ in range(count)).encode()
    files = {"params": common["params"], "numbers": numbers}
    sides.compare("numbers", ["hash", "params", "numbers"], files)
    for _ in range(CHANGES):
        name = choice.choice(["params", "numbers"])
        sides.compare("numbers", ["hash", "params", "numbers"], {**files, name: damage.lines(choice, files[name])})


def judged(sides, kind, choice, common):
    """A table file and its statement, of a path of three steps or of another program."""
    walk = walked(sides, kind, choice, common["params"], 3) if choice.randrange(2) else None
    return {name: walk[name] for name in ("table", "statement")} if walk else common["sum"]


def faults(sides, choice, common):
    """Files that are missing, folders or too long, and answers that cannot be printed."""
    made = program(choice, 0)
    files = {**files_of(made, common), "numbers": "1\n" * 8, **judged(sides, "faults", choice, common),
             "list": choice.choice(["table statement\n", "source inputs t s\n"])}
    files.setdefault("kernel", "export.k end")
    for _ in range(2 * CHANGES):
        line, names = command_lines.plain(choice)
        changed = dict(files)
        for name in choice.sample(names, choice.choice([0, 1, 1, 2])):
            kind = choice.randrange(3)
            if kind == 0 and name in changed:
                del changed[name]
            elif kind == 1 and name in ("params", "numbers", "list", "source", "kernel"):
                changed[name] = b"\n" * choice.choice([4097, 65_537, 262_145, 1_048_576, 1_048_577])
            else:
                changed[name] = None
        sides.compare("faults", line, changed, choice.randrange(4) > 0)


def words(sides, choice, common):
    """Words of all kinds, where the files that they may name are there."""
    made = program(choice)
    files = {**files_of(made, common), "numbers": "1\n2\n3\n4\n5\n6\n7\n8\n", **judged(sides, "words", choice, common),
             "list": "table statement\n"}
    files.setdefault("kernel", "export.k end")
    for _ in range(2 * CHANGES):
        sides.compare("words", command_lines.words(choice), files)


def workloads(sides, choice, common):
    """A workload is made, and run again from its files."""
    made = sides.compare("workloads", ["make", "params", str(choice.randint(1, 12)), "--source", "source", "--inputs", "inputs"],
                         {"params": common["params"]})
    sides.compare("workloads", RUN, made.files)


def collisions(sides, choice, common):
    """Traces that show two hashes of one digest are checked, as they are, as a link, and beside their source."""
    made = program(choice, 0)
    files = {**files_of(made, common), "params": common["zeros"], "list": "table statement\n"}
    files = sides.made(["collisions", "params", "source", "inputs", "table", "statement", str(choice.randrange(2**32)),
                        *(["kernel"] if made.kernel is not None else [])], files)
    if files is None:
        return
    sides.compare("collisions", CHECK, files)
    sides.compare("collisions", ["chain", "params", "list", "--evidence", "evidence"], files)
    sides.compare("collisions", with_kernel([*CHECK, "--source", "source"], made), files)


def chains(sides, choice, common):
    """Programs run as links, and what they wrote is checked as a chain; and the same with a change of a list or of a link."""
    count, files, listed = choice.randint(1, 4), {"params": common["params"]}, []
    for link in range(count):
        made = program(choice)
        stack = None if link == 0 and choice.randrange(2) else [] if choice.randrange(30) else [1]
        files |= {f"m{link}": "begin swap end" if made.kernel is not None else made.source, f"i{link}": inputs_text(choice, stack)}
        if choice.randrange(15) == 0:
            files[f"m{link}"] = f"begin repeat.{choice.choice([1007, 1008, 1009])} push.1 end end"
        listed.append(f"m{link} i{link} t{link} s{link}\n")
    files["list"] = "".join(listed).encode()
    answer = sides.compare("chains", ["runs", "params", "list"], files)
    sides.compare("chains", ["runs", "params", "list"], {**files, "list": changed_list(choice, files["list"])})
    if answer.status != 0:
        return
    files = {**answer.files, "list": "".join(" ".join(line.split()[2:]) + "\n" for line in listed).encode()}
    words = ["chain", "params", "list", "--evidence", "evidence", "--pieces", choice.choice(["1", "2"])]
    sides.compare("chains", words, files)
    for _ in range(CHANGES):
        sides.compare("chains", words, changed_chain(choice, files, count))


def changed_list(choice, content):
    """Other lines of a list, or other names in it."""
    parts = content.split(b" ")
    place, kind = choice.randrange(len(parts)), choice.randrange(4)
    if kind == 0:
        parts[place] = choice.choice([b"m0", b"t0", b"s0", b"params", b"list", b"evidence", b"-x", b"", b"a b", b"missing", b"\xff"])
    elif kind == 1:
        return content * choice.choice([2, 64, 65])
    elif kind == 2:
        return damage.with_bytes(choice, content)
    else:
        listed = content.splitlines(keepends=True)
        choice.shuffle(listed)
        return b"".join(listed)
    return b" ".join(parts)


def changed_chain(choice, files, count):
    """The files of a chain with a change of the list or of a link."""
    link, kind = choice.randrange(count), choice.randrange(4)
    if kind == 0:
        return {**files, "list": changed_list(choice, files["list"])}
    if kind == 1:
        claim = json.loads(files[f"s{link}"])
        items = claim[choice.choice(["inputs", "outputs"])]
        place = choice.randrange(len(items) + 1)
        items[place:place + choice.randrange(2)] = [element(choice)]
        return {**files, f"s{link}": json.dumps(claim)}
    if kind == 2:
        return {**files, f"t{link}": damage.cell(choice, files[f"t{link}"])}
    return {**files, f"s{link}": files[f"s{choice.randrange(count)}"]}


# Of so many cases as stand here, how many are of a kind.
KINDS = [
    (programs, 12), (sources, 6), (instructions, 4), (names, 3), (limits, 3), (tables, 3), (cells, 5), (operations, 3), (statements, 3), (inputs, 2),
    (words, 2), (faults, 2), (lines, 1), (chains, 2), (workloads, 1), (collisions, 3), (members, 3), (other_members, 2),
]
