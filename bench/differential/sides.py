"""Has both programs do the same in folders of their own, and compares how each ended: the status, what was printed, and every file."""
import collections
import dataclasses
import os
import shutil
import subprocess
import tempfile

SECONDS = 120


@dataclasses.dataclass
class Answer:
    """How a program ended, with all files of its folder behind it."""
    status: int
    said: bytes
    told: bytes
    files: dict

    def kind(self):
        """What the answers of a kind have in common."""
        words = self.said.decode(errors="replace").split()
        while words[:1] == ["link"]:
            words = words[2:]
        causes = {1: words[:3], 3: words[-1:], 4: words[-1:], 10: words[-1:]}
        return " ".join([str(self.status), *causes.get(self.status, words[:2] if words[:1] == ["accepted"] else words[:1])])


class Sides:
    """The two programs, and what they were compared on."""

    def __init__(self, programs, tools):
        self.programs = programs
        self.tools = tools
        self.work = tempfile.mkdtemp(prefix="differential.")
        self.answers = collections.defaultdict(collections.Counter)
        self.cases = collections.Counter()
        self.differences = 0

    def compare(self, kind, words, files, is_heard=True):
        """Has both do what the words ask for, where their folders have these files. The answer is the first one's. Where nobody is to hear
        it, what is printed goes to a device that is full."""
        words = [word if isinstance(word, bytes) else word.encode() for word in words]
        folders = [os.path.join(self.work, side) for side in self.programs]
        for folder in folders:
            prepare(folder, files)
        children = [start(program, words, folder, is_heard) for program, folder in zip(self.programs.values(), folders)]
        ends = [end(child) for child in children]
        answers = [Answer(*ended, contents(folder)) for ended, folder in zip(ends, folders)]
        self.answers[kind][answers[0].kind()] += 1
        if answers[0] != answers[1]:
            self.keep(kind, words, answers, folders)
        return answers[0]

    def made(self, words, files):
        """The files of a folder in which a tool has made some of its own, if it is there and could."""
        tool = os.path.join(self.tools, words[0])
        if not os.path.exists(tool):
            return None
        folder = os.path.join(self.work, "made")
        prepare(folder, files)
        status, _, _ = end(start(tool, [word.encode() for word in words[1:]], folder))
        return contents(folder) if status == 0 else None

    def count(self, case):
        """A case was compared."""
        self.cases[case.__name__] += 1

    def keep(self, kind, words, answers, folders):
        """Keeps the files of a difference, and tells of it."""
        self.differences += 1
        kept = os.path.join(self.work, f"difference{self.differences}")
        os.mkdir(kept)
        for folder in folders:
            shutil.copytree(folder, os.path.join(kept, os.path.basename(folder)))
        names = sorted(set(answers[0].files) | set(answers[1].files))
        apart = [name for name in names if answers[0].files.get(name) != answers[1].files.get(name)]
        with open(os.path.join(kept, "words"), "wb") as file:
            file.write(b"\n".join(words) + b"\n")
        print(f"DIFFERENCE in {kind}: {b' '.join(words).decode(errors='replace')}")
        for side, answer in zip(self.programs, answers):
            print(f"    {side}: status {answer.status}, {answer.said[:300]!r} {answer.told[:300]!r}")
        print(f"    files that differ: {' '.join(apart) or 'none'}; all are in {kept}", flush=True)

    def summary(self):
        """Prints what was compared, and removes the folders where nothing differed."""
        for kind, answers in self.answers.items():
            said = ", ".join(f"{count} {answer}" for answer, count in sorted(answers.items()))
            print(f"{kind}: {sum(answers.values())} commands: {said}")
        print(", ".join(f"{count} {name}" for name, count in sorted(self.cases.items())))
        if self.differences == 0:
            shutil.rmtree(self.work)
        else:
            for side in self.programs:
                shutil.rmtree(os.path.join(self.work, side), ignore_errors=True)


def prepare(folder, files):
    """Makes a folder that has these files alone, and folders of the names that have no content."""
    shutil.rmtree(folder, ignore_errors=True)
    os.mkdir(folder)
    for name, content in files.items():
        if content is None:
            os.mkdir(os.path.join(folder, name))
            continue
        with open(os.path.join(folder, name), "wb") as file:
            file.write(content if isinstance(content, bytes) else content.encode())


def start(program, words, folder, is_heard=True):
    """Starts a program with these words in a folder."""
    words, pipe = [program.encode(), *words], subprocess.PIPE
    if is_heard:
        return subprocess.Popen(words, cwd=folder, stdin=subprocess.DEVNULL, stdout=pipe, stderr=pipe)
    with open("/dev/full", "wb") as full:
        return subprocess.Popen(words, cwd=folder, stdin=subprocess.DEVNULL, stdout=full, stderr=pipe)


def end(child):
    """The status and what was printed to both outputs."""
    try:
        said, told = child.communicate(timeout=SECONDS)
    except subprocess.TimeoutExpired:
        child.kill()
        said, told = child.communicate()
        told += b"no end"
    return child.returncode, said or b"", told


def contents(folder):
    """The files of a folder by their names."""
    found = {}
    for entry in os.scandir(folder):
        if entry.is_file(follow_symlinks=False):
            with open(entry.path, "rb") as file:
                found[entry.name] = file.read()
        else:
            found[entry.name] = None
    return found
