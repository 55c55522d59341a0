#!/usr/bin/env python3
"""Whether the pages say what is so. `.ci/run` calls it behind the proofs:

    pages.py            lists by file and line what is not so, and ends with 1 if anything is not
    pages.py --write    writes what each crate says of itself to the tables of docs/ARCHITECTURE.md, and the schema, and checks nothing

The tables of crates in docs/ARCHITECTURE.md and docs/CLAUSES.md have one row for each crate of crates.txt, in its order; the second
cells of the former are what the crates say of themselves. Paths and links lead somewhere, and README.md names each page.
examples/traces/schema.json is what docs/CONSTRAINTS.md says of columns, constraints and buses, and so are the tables of
crates/show_constraints and crates/show_text. The commands of README.md and of the pages in RUN_PAGES print what is shown below them,
those of a page one after another in a folder of their own, and a table of which a cell is changed is refused, or still has evidence. These
last two need the programs that `rt ci` leaves, since nothing here builds them. Sections of a page that build something with cargo are
passed over where there is no cargo.
"""
from __future__ import annotations

import itertools
import os
import re
import select
import shlex
import shutil
import signal
import subprocess
import sys
import tempfile
import time
from collections.abc import Iterator
from dataclasses import dataclass
from pathlib import Path

import schema
import words

ROOT = Path(__file__).resolve().parent.parent
# What the pages call `./miden` and `./miden_show`.
MIDEN, SHOW = ROOT / "crates/miden_cli/out/miden_cli", ROOT / "crates/miden_show/out/miden_show"
CRATES, README, MAP, CLAUSES = "crates.txt", "README.md", "docs/ARCHITECTURE.md", "docs/CLAUSES.md"
# The pages whose commands are run, in this order.
RUN_PAGES = (
    README, "docs/GUIDE.md", "docs/COMMANDS.md", "docs/SHOW.md", "docs/DIFFERENCES.md",
    "docs/TUTORIAL-ASSEMBLERS.md", "docs/TUTORIAL-AUDITORS.md", "docs/TUTORIAL-CONSTRAINTS.md",
)

CELL_END = re.compile(r"(?<!\\)\|")
NAMED_PATH = re.compile(r"(?<![\w./-])(?:crates|docs|examples|bench|reference)/[\w./*-]*")
# A file of a crate, as the map names it: `crate/file.rt` stands in the crate's folder src/.
CRATE_FILE = re.compile(r"(?<![\w./-])(\w+)/((?:proofs|specs)/[\w/+-]+\.antt|\w[\w/]*\.rt)\b")
# In a path: parts that stand for others, and the folders that builds leave.
NOT_MEANT = re.compile(r"\.\.|(?:^|/)(?:[A-Z_]+|out|target)(?:/|$)")
LINK_TARGET = re.compile(r"\]\((?![a-z]+:|#)([^()\s#]+)(?:#[^()\s]*)?\)")
COMMAND = re.compile(r"( {4}|)\$ (\S.*)")

# The first words of commands that a page may show and that are not run.
NOT_RUN = (
    "rt",  # proves for an hour, and has done so before this script is called
    "git",  # fetches from elsewhere
    "cd",  # leads to the top of the repository, where each page's commands begin
)
# The first words of commands that build something with cargo.
BUILD_WITH_CARGO = ("cargo", "bench/differential.sh")
SECONDS_FOR_A_COMMAND = 120
NO_END = f"does not end in {SECONDS_FOR_A_COMMAND} seconds, or ends the shell; no command below it was run"
END_OF_COMMAND = "\n-- the command has ended --\n"

# The forged run uses most of the tables; the same cells are changed each time.
FORGER, CELLS, SEED = "examples/traces/forge_many.py", 50, 1
TALLY = "examples/programs/tally.masm examples/programs/tally.json --kernel examples/programs/tally.kernel.masm"


def lines_of(name: str) -> list[str]:
    return (ROOT / name).read_text(encoding="utf-8").splitlines()


def at(name: str, line: int, message: str) -> str:
    """A finding, in the form that editors follow."""
    return f"{name}:{line}: {message}"


def crates_in_order() -> dict[str, int]:
    """The crates of crates.txt, each with its line there."""
    named = ((number, re.match(r"(\w+)(?: \w+=\S+)*:", line)) for number, line in enumerate(lines_of(CRATES), 1))
    return {match[1]: number for number, match in named if match}


def head_of(crate: str) -> str:
    """What a crate says of itself at the head of its first file, as the cell of a table has it."""
    first = "lib.rt" if (ROOT / f"crates/{crate}/src/lib.rt").exists() else "main.rt"
    head = itertools.takewhile(lambda line: line.startswith("//!"), lines_of(f"crates/{crate}/src/{first}"))
    return " ".join(filter(None, (line[3:].strip() for line in head))).replace("|", r"\|")


def crate_rows(page: str) -> Iterator[tuple[int, str]]:
    """The line and the first cell of each row of a page's tables of crates: those whose header's first cell is `crate`."""
    header = ""
    for number, line in enumerate(lines_of(page), 1):
        if not line.startswith("|"):
            header = ""
            continue
        cell = CELL_END.split(line)[1].strip()
        if header == "crate" and cell.strip(":-"):
            yield number, cell
        header = header or cell


def table_findings(page: str, crates: dict[str, int]) -> Iterator[str]:
    """Crates that have no row of their own in a page, and rows that are out of order or of no crate."""
    if not (ROOT / page).exists():
        yield at(page, 1, "there is no such page")
        return
    rows: dict[str, int] = {}
    before = next(iter(crates))
    for number, cell in crate_rows(page):
        crate = cell.strip("`")
        if crate not in crates or cell != f"`{crate}`":
            yield at(page, number, f"{cell} is not a crate of {CRATES}")
        elif crate in rows:
            yield at(page, number, f"`{crate}` has a row already, in line {rows[crate]}")
        else:
            if crates[crate] < crates[before]:
                yield at(page, number, f"`{crate}` stands before `{before}` in {CRATES}")
            rows[crate], before = number, crate
    yield from (at(CRATES, crates[crate], f"`{crate}` has no row in {page}") for crate in crates if crate not in rows)


def map_as_said(crates: dict[str, int]) -> list[str]:
    """The lines of the map, where each row says of its crate what the crate says of itself."""
    lines = lines_of(MAP)
    for number, cell in crate_rows(MAP):
        crate = cell.strip("`")
        if crate in crates:
            parts = CELL_END.split(lines[number - 1])
            lines[number - 1] = "|".join([*parts[:2], f" {head_of(crate)} ", *(parts[3:] or [""])])
    return lines


def cell_findings(crates: dict[str, int]) -> Iterator[str]:
    """Rows of the map that say of a crate something else than the crate does."""
    for number, (line, meant) in enumerate(zip(lines_of(MAP), map_as_said(crates)), 1):
        if line != meant:
            yield at(MAP, number, "the second cell is not what the crate says of itself; `.ci/pages.py --write` makes it so")


def path_findings(page: str) -> Iterator[str]:
    """Paths and links of a page that lead nowhere; a path with a `*` leads to what it fits."""
    for number, line in enumerate(lines_of(page), 1):
        for path in (found.rstrip("./*") for found in NAMED_PATH.findall(line)):
            if not NOT_MEANT.search(path) and not any(ROOT.glob(path)):
                yield at(page, number, f"there is no {path}")
        for crate, file in CRATE_FILE.findall(line):
            folder = ROOT / "crates" / crate
            if folder.is_dir() and not any(path.exists() for path in (folder / file, folder / "src" / file)):
                yield at(page, number, f"there is no {crate}/{file}")
        for target in LINK_TARGET.findall(line):
            if not (ROOT / page).parent.joinpath(target).exists():
                yield at(page, number, f"a link leads nowhere: {target}")


@dataclass
class Command:
    """A command that a page shows at a line, with what is shown below it."""

    line: int
    text: str
    shown: str = ""
    section: str = ""


def commands_of(page: str) -> list[Command]:
    """The commands of a page that are run, from indented and fenced blocks; a backslash at the end of a line goes on with one."""
    commands: list[Command] = []
    in_block, margin, section = False, "", ""
    for number, line in enumerate(lines_of(page), 1):
        section = line if line.startswith("#") else section
        begun = COMMAND.match(line)
        if begun:
            in_block, margin = True, begun[1]
            commands.append(Command(number, begun[2], section=section))
        elif line.startswith("```") or (line and not line.startswith(margin)):
            in_block = False
        elif in_block and commands[-1].text.endswith("\\"):
            commands[-1].text += f"\n{line}"
        elif in_block:
            commands[-1].shown += line[len(margin):] + "\n"
    with_cargo = {command.section for command in commands if command.text.split()[0] in BUILD_WITH_CARGO}
    passed_over = set() if shutil.which("cargo") else with_cargo
    return [command for command in commands if command.text.split()[0] not in NOT_RUN and command.section not in passed_over]


def agrees(said: str, shown: str) -> bool:
    """Whether a command said what is shown, where `..` stands for any lines, and empty lines at the end for nothing."""
    lines = (f"{line}\n" for line in shown.rstrip("\n").split("\n"))
    pattern = "".join("(?:.*\n)*" if line == "..\n" else re.escape(line) for line in lines)
    return re.fullmatch(pattern, said.rstrip("\n") + "\n") is not None


def answers(commands: list[Command], folder: str) -> Iterator[str | None]:
    """What each command says, all in one bash, so that `$?` is the status of the one before; None for one that does not end."""
    ended = f"ended() {{ local status=$?; printf %s {shlex.quote(END_OF_COMMAND)}; return $status; }}\n"
    script = ended + "".join(f"eval {shlex.quote(command.text)}\nended\n" for command in commands)
    bash = subprocess.Popen(["bash", "-c", script], cwd=folder, start_new_session=True, stdin=subprocess.DEVNULL,
                            stdout=subprocess.PIPE, stderr=subprocess.STDOUT)
    try:
        for _ in commands:
            said, limit = b"", time.monotonic() + SECONDS_FOR_A_COMMAND
            while not said.endswith(END_OF_COMMAND.encode()):
                ready = select.select([bash.stdout], [], [], max(0, limit - time.monotonic()))[0]
                byte = os.read(bash.stdout.fileno(), 1) if ready else b""
                if not byte:
                    yield None
                    return
                said += byte
            yield said.decode(errors="replace")[:-len(END_OF_COMMAND)]
    finally:
        os.killpg(bash.pid, signal.SIGKILL)
        bash.communicate()


def command_findings(page: str, commands: list[Command]) -> Iterator[str]:
    """Commands of a page that say something else than is shown, in a folder that looks like the top of the repository."""
    with tempfile.TemporaryDirectory() as folder:
        shutil.copytree(ROOT / "examples", Path(folder, "examples"))
        for name in ("bench", "crates", "docs", "reference"):
            Path(folder, name).symlink_to(ROOT / name)
        for program in (MIDEN, SHOW):
            Path(folder, program.name.removesuffix("_cli")).symlink_to(program)
        for said, command in zip(answers(commands, folder), commands):
            if said is None:
                yield at(page, command.line, f"`{command.text}` {NO_END}")
            elif not agrees(said, command.shown):
                printed = "".join(f"\n    {line}" for line in said.splitlines())
                yield at(page, command.line, f"`{command.text}` prints{printed or ' nothing'}")


def forging_findings() -> Iterator[str]:
    """The same of commands of our own: an honest table is accepted, and no forged one without consistent evidence."""
    run = Command(1, f"./miden run examples/params/derived {TALLY} --out table --statement statement", "..")
    check = Command(1, "./miden check examples/params/derived table statement --evidence evidence", "accepted run")
    forge = f"{FORGER} ./miden examples/params/derived table statement {CELLS} {SEED}"
    forged = Command(1, f'{forge} >said 2>&1 || {{ echo "status $?"; cat said; }}')
    return command_findings(FORGER, [run, check, forged])


def is_built(program: Path) -> bool:
    """Whether a program is there and no source is newer, which is what the script `miden` asks before it builds."""
    built = program.stat().st_mtime_ns if os.access(program, os.X_OK) else 0
    files = [ROOT / CRATES, *(path for path in ROOT.glob("crates/**/*") if "out" not in path.relative_to(ROOT).parts)]
    return all(file.stat().st_mtime_ns <= built for file in files if file.suffix in (".rt", ".antt") or file.name == CRATES)


def main() -> int:
    if sys.argv[1:] not in ([], ["--write"]):
        print("usage: pages.py [--write]", file=sys.stderr)
        return 2
    crates = crates_in_order()
    if sys.argv[1:]:
        (ROOT / MAP).write_text("".join(f"{line}\n" for line in map_as_said(crates)), encoding="utf-8")
        schema.write()
        words.write()
        return 0
    pages = sorted(f"docs/{page.name}" for page in (ROOT / "docs").glob("*.md"))
    findings = [*table_findings(MAP, crates), *cell_findings(crates), *table_findings(CLAUSES, crates)]
    findings += [at(page, 1, f"{README} does not name this page") for page in pages if page not in "\n".join(lines_of(README))]
    findings += [finding for page in [README, *pages] for finding in path_findings(page)]
    findings += schema.schema_findings()
    findings += words.words_findings()
    seen = f"{len(crates)} crates"
    if is_built(MIDEN) and is_built(SHOW):
        commands = {page: commands_of(page) for page in RUN_PAGES}
        findings += [finding for page in commands for finding in command_findings(page, commands[page])]
        findings += forging_findings()
        seen = f"{seen}, {sum(map(len, commands.values()))} commands and {CELLS} forged cells"
    else:
        print("pages: miden or miden_show is not built, so no command was run")
    print("\n".join(findings) or f"pages: {seen} are as written")
    return 1 if findings else 0


if __name__ == "__main__":
    sys.exit(main())
