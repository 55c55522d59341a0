"""Times a command of the program and plain Rust that does the same, in turn, for `run.sh`, `check.sh`, `make.sh` and `dynamic.sh`
(`source.sh` uses its functions):

    command.py NAME TIMES MEMORY FILE RUNS OURS -- PLAIN -- PAIR ..

NAME is the command's name. OURS and PLAIN are the words of the two sides. Each PAIR is one word `A B` of two files, which must be
the same, and so must be what both sides print. The ratio of the times is to be at most TIMES, and the program's peak memory at most
MEMORY times FILE. Which side runs first changes from time to time. Prints the least of RUNS times, by the clock and of the processor,
the parts that plain Rust tells on standard error in microseconds, and the load of the machine, without which no time means much. Where
INSTRUCTIONS is set, what is compared is how many instructions valgrind counts, once. Where LARGE_PAGES is `ours`, the program has large
pages, for which the script `miden` asks the C library and no other caller does; where it is `both`, plain Rust has them as well.
"""
import filecmp
import os
import re
import subprocess
import sys
import tempfile
import time


def parts_of(words):
    """The words between the lines `--`."""
    parts = [[]]
    for word in words:
        if word == "--":
            parts.append([])
        else:
            parts[-1].append(word)
    return parts


def setting(side):
    """The environment of one side."""
    has_large_pages = {"the program": ("ours", "both"), "plain Rust": ("both",)}
    if os.environ.get("LARGE_PAGES") in has_large_pages[side]:
        return {**os.environ, "GLIBC_TUNABLES": "glibc.malloc.hugetlb=1"}
    return None


def run(words, environment=None):
    """Seconds by the clock and of the processor, kilobytes, and what is printed to both outputs."""
    with tempfile.TemporaryFile("w+") as out, tempfile.TemporaryFile("w+") as told:
        start = time.monotonic()
        child = subprocess.Popen(words, stdout=out, stderr=told, env=environment)
        _, status, usage = os.wait4(child.pid, 0)
        seconds = time.monotonic() - start
        child.returncode = status
        out.seek(0)
        told.seek(0)
        printed = out.read()
        if status != 0:
            sys.exit(f"{words} did not end well: {printed[:200]} {told.read()[-2000:]}")
        return seconds, usage.ru_utime + usage.ru_stime, usage.ru_maxrss, printed, told.read()


def instructions(words):
    told = run(["valgrind", "--tool=callgrind", "--callgrind-out-file=/dev/null", *words])[4]
    return int(re.search(r"Collected : (\d+)", told)[1])


def same(pairs, printed):
    for pair in pairs:
        if not filecmp.cmp(*pair.split(), shallow=False):
            sys.exit(f"the files differ: {pair}")
    if len(set(printed)) != 1:
        sys.exit(f"what is printed differs: {[text[:200] for text in printed]}")


def main():
    (name, most, memory, file, runs, *ours), plain, pairs = parts_of(sys.argv[1:])
    sides = {"plain Rust": plain, "the program": ours}
    came = {side: [run(words, setting(side))] for side, words in sides.items()}
    same(pairs, [results[0][3] for results in came.values()])
    if "INSTRUCTIONS" in os.environ:
        counts = {side: instructions(words) for side, words in sides.items()}
        text = ", ".join(f"{side} {count / 1e6:.0f} million" for side, count in counts.items())
        print(f"{name}: instructions: {text}, ratio {counts['the program'] / counts['plain Rust']:.2f} of at most {most}")
        return
    order = list(sides)
    for _ in range(int(runs) - 1):
        order.reverse()
        for side in order:
            came[side].append(run(sides[side], setting(side)))
    for kind, place in ("by the clock", 0), ("of the processor", 1):
        least = {side: min(result[place] for result in results) for side, results in came.items()}
        text = ", ".join(f"{side} {1000 * seconds:.0f} ms" for side, seconds in least.items())
        print(f"{name}: {kind}: {text}, ratio {least['the program'] / least['plain Rust']:.2f} of at most {most}")
    told = [[int(number) for number in result[4].split()] for result in came["plain Rust"]]
    print(f"{name}: parts of plain Rust in ms, least of each: {' '.join(f'{min(part) / 1000:.0f}' for part in zip(*told))}")
    kilobytes = os.path.getsize(file) / 1024
    peaks = {side: max(result[2] for result in results) for side, results in came.items()}
    text = ", ".join(f"{side} {peak / 1024:.0f} MB, {peak / kilobytes:.2f} times the file" for side, peak in peaks.items())
    print(f"{name}: peak memory: {text}, of at most {memory}; the file has {kilobytes / 1024:.0f} MB")
    print(f"{name}: load {os.getloadavg()[0]:.1f} on {os.cpu_count()} processors")


if __name__ == "__main__":
    main()
