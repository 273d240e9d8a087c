#!/usr/bin/env python3
"""Times the program on an index of random codes: adding them, searches, and range searches.

    python3 bench/index.py                                 # 100,000 codes of 256 bits in a BFlat
    python3 bench/index.py --codes 1000000 --bits 512 --k 1000
    python3 bench/index.py --index BHash16x16 --set "nflip 1" --radius 32
    python3 bench/index.py --index BIVF1024 --set "nprobe 16"
    python3 bench/index.py --script > searches.faissb      # only writes the script with the searches

The program is proved and built first, if that has not been done. Each script runs a few times, and the
least time counts. Times are processor times of whole runs, with the reading of the script; the time of the
queries is what a script with queries takes longer than one without. Every run with the same options does
the same work. A query is one of the codes with up to 31 of its bits flipped, so that indexes by keys have
something to find. The centroids of a BIVF are random codes.
"""

import argparse
import os
import random
import re
import subprocess
import sys
import tempfile
import time

TOP = os.path.dirname(os.path.dirname(os.path.abspath(__file__)))
LINE = 1_048_576  # the most bytes of a line


def main():
    options = read_options()
    if options.script:
        sys.stdout.writelines(f"{line}\n" for line in lines_of(options, "search", options.k))
        return
    program = options.program or built_program()
    radius = options.radius if options.radius is not None else near_radius(options.bits)
    print(f"{options.codes:,} codes of {options.bits:,} bits in a {options.index}, {options.queries:,} queries")
    adding, memory = measure(program, options, lines_of(options, None, 0))
    show("add", adding, options.codes, "code", memory)
    for name, number in [("search", options.k), ("range", radius)]:
        taken, memory = measure(program, options, lines_of(options, name, number))
        show(f"{name} {number}", taken - adding, options.queries, "query", memory)


def read_options():
    parser = argparse.ArgumentParser(description=__doc__, formatter_class=argparse.RawDescriptionHelpFormatter)
    parser.add_argument("--index", default="BFlat", help="a factory text")
    parser.add_argument("--set", action="append", default=[], help='a setting, as "nflip 1"; may be given again')
    parser.add_argument("--codes", type=int, default=100_000)
    parser.add_argument("--bits", type=int, default=256)
    parser.add_argument("--queries", type=int, default=200)
    parser.add_argument("--k", type=int, default=10)
    parser.add_argument("--radius", type=int, help="without it, one that about 1 code in 4,000 lies below")
    parser.add_argument("--runs", type=int, default=3)
    parser.add_argument("--program", help="a program to time in place of the one of this repository")
    parser.add_argument("--script", action="store_true", help="write the script with the searches to standard output")
    return parser.parse_args()


def built_program():
    subprocess.run([os.path.join(TOP, "faissb"), "script"], stdin=subprocess.DEVNULL, check=True)
    return os.path.join(TOP, "crates", "faissb", "out", "faissb")


def near_radius(bits):
    """The distances of random codes have the mean bits / 2 and the deviation sqrt(bits) / 2."""
    return max(1, round(bits / 2 - 3.5 * bits**0.5 / 2))


def lines_of(options, query, number):
    """The lines of a script: an index, its codes, and the queries if there are any."""
    numbers = random.Random(1)
    digits = options.bits // 4

    def code():
        return f"{numbers.getrandbits(options.bits):0{digits}x}"

    def near(word):
        places = numbers.sample(range(options.bits), numbers.randrange(min(32, options.bits)))
        return f"{int(word, 16) ^ sum(1 << place for place in places):0{digits}x}"

    yield f"new {options.bits} {options.index}"
    lists = re.search(r"BIVF(\d+)$", options.index)
    if lists:
        yield from long_lines("centroids", [code() for _ in range(int(lists[1]))])
    yield from options.set
    codes = [code() for _ in range(options.codes)]
    if options.index.startswith("IDMap"):
        yield from long_lines("addids", [f"{at}:{word}" for at, word in enumerate(codes)])
    else:
        yield from long_lines("add", codes)
    if query:
        for _ in range(options.queries):
            yield f"{query} {number} {near(numbers.choice(codes))}"


def long_lines(name, words):
    """A command with many words, on as many lines as it takes."""
    line = [name]
    size = len(name)
    for word in words:
        if size + 1 + len(word) > LINE:
            yield " ".join(line)
            line = [name]
            size = len(name)
        line.append(word)
        size += 1 + len(word)
    yield " ".join(line)


def measure(program, options, lines):
    """The least time of some runs in seconds, and the most memory that one further run held, in bytes."""
    with tempfile.TemporaryFile() as script:
        script.writelines(f"{line}\n".encode() for line in lines)
        return min(time_of(program, script) for _ in range(options.runs)), memory_of(program, script)


def start(program, script):
    script.seek(0)
    return subprocess.Popen([program, "script"], stdin=script, stdout=subprocess.DEVNULL)


def time_of(program, script):
    """The processor time of a run, which depends little on what else the machine does."""
    child = start(program, script)  # named, since a `Popen` that is dropped asks for the status itself
    _, status, used = os.wait4(child.pid, 0)
    if status != 0:
        sys.exit(f"the program failed: {os.waitstatus_to_exitcode(status)}")
    return used.ru_utime + used.ru_stime


def memory_of(program, script):
    """Linux tells the most memory of a process while it runs. (What it tells afterwards counts this process too.)"""
    child = start(program, script)
    most = 0
    while child.poll() is None:
        with open(f"/proc/{child.pid}/status") as about:
            most = max([most, *(int(line.split()[1]) * 1024 for line in about if line.startswith("VmHWM"))])
        time.sleep(0.002)
    return most


def show(name, taken, count, unit, memory):
    print(f"  {name:<16} {taken:>9.3f} s {taken / count * 1e6:>11.3f} µs a {unit:<6} {memory / 1e6:>9.1f} MB")


if __name__ == "__main__":
    main()
