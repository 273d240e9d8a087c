#!/usr/bin/env python3
"""Runs faissb on hostile input and under hostile conditions, and says what it saw.

    python3 tests/hostile/run.py PROGRAM [WORD ..]

PROGRAM is a built faissb. With words, only the cases whose name has one of them are run. Each case
has the statuses that docs/SCRIPT.md allows; the last line counts the cases that ended otherwise,
and the status is 1 if there are any. This is no part of the gate: it needs a shell, ulimit and
/dev/full, and some cases take a minute.
"""

import os
import random
import resource
import shutil
import signal
import subprocess
import sys
import tempfile
import time

PROGRAM = None
BAD = []
LIMIT_SECONDS = 600

FILE_A = bytes.fromhex(
    "49427846 08000000 01000000 0100000000000000 01 01000000 0100000000000000 ab")


def show_status(status):
    if status < 0:
        return "signal " + signal.Signals(-status).name
    return "status %d" % status


def report(name, status, wanted, note=""):
    good = status in wanted
    if not good:
        BAD.append(name)
    print("%-4s %-52s %s%s" % ("ok" if good else "BAD", name, show_status(status),
                               "; " + note if note else ""), flush=True)


def demand(name, holds, note=""):
    """A fact about what a case left behind."""
    if not holds:
        BAD.append(name)
    print("%-4s %-52s %s" % ("ok" if holds else "BAD", name, note), flush=True)


def faissb(script=b"", words=("script",), cwd=None, stdin=None, stdout=subprocess.PIPE,
           before=None):
    """The exit status and the output; `script` may be any bytes."""
    run = subprocess.run([PROGRAM, *words], input=None if stdin is not None else script,
                         stdin=stdin, stdout=stdout, stderr=subprocess.DEVNULL, cwd=cwd,
                         preexec_fn=before, timeout=LIMIT_SECONDS)
    return run.returncode, run.stdout


def shell(command, cwd=None):
    """The status of the program in `command`, where it stands as $P. The shell is bash with
    pipefail off, and the command ends with an exit of the status of faissb."""
    run = subprocess.run(["bash", "-c", command], cwd=cwd, env=dict(os.environ, P=PROGRAM),
                         stdout=subprocess.PIPE, stderr=subprocess.DEVNULL,
                         timeout=LIMIT_SECONDS)
    # A shell tells a signal as 128 and its number.
    status = run.returncode
    return 128 - status if status > 128 else status


def codes(count, size, seed):
    numbers = random.Random(seed)
    return [numbers.randbytes(size).hex() for _ in range(count)]


def adding(count, size, seed, line=1000):
    some = codes(count, size, seed)
    return "".join("add %s\n" % " ".join(some[at:at + line]) for at in range(0, count, line))


EVERY_KIND = ["BFlat", "BIVF4", "BHash8", "BHash4x8", "IDMap,BFlat", "IDMap2,BIVF4",
              "IDMap,BHash8", "IDMap2,BHash4x8"]


def script_for(factory, count, seed):
    """A script that makes an index of 64 bits, asks it, and saves it under the name `f`."""
    lines = ["new 64 " + factory]
    if "IVF" in factory:
        lines.append("centroids " + " ".join(codes(4, 8, 1)))
    some = codes(count, 8, seed)
    if factory.startswith("IDMap"):
        lines.append("addids " + " ".join("%d:%s" % (7 * i - 3, c) for i, c in enumerate(some)))
    else:
        lines.append("add " + " ".join(some))
    lines.append("search 3 " + some[0])
    lines.append("range 9 " + some[-1])
    lines.append("save f")
    return ("\n".join(lines) + "\n").encode()


# ---- devices


def devices(folder):
    long_script = ("new 64 BFlat\n" + adding(20_000, 8, 1)
                   + "range 64 0000000000000000\n" * 20).encode()
    name = os.path.join(folder, "script")
    with open(name, "wb") as file:
        file.write(long_script)
    report("standard output is full", shell("$P script <script >/dev/full", folder), {4})
    report("standard output is closed", shell("$P script <script >&-", folder), {4})
    report("standard output is a file opened to be read",
           shell("$P script <script 1</dev/null", folder), {4})
    report("the reader of the output leaves",
           shell("$P script <script | head -1 >/dev/null; exit ${PIPESTATUS[0]}", folder), {4})
    report("standard input is a folder", shell("$P script </", folder), {3})
    report("standard input is closed", shell("$P script <&-", folder), {3})
    report("standard input is empty", faissb(b"")[0], {0})
    report("no words", faissb(words=())[0], {2})
    report("words that are not UTF-8", faissb(words=(b"script", b"\xff"))[0], {2})
    report("a word of 100,000 bytes", faissb(words=("x" * 100_000,))[0], {2})
    report("10,000 words", faissb(words=("script",) * 10_000)[0], {2})


# ---- endless and long input


def endless(folder):
    start = time.time()
    report("a source that gives comments without end", shell("yes '#' | $P script >out; exit ${PIPESTATUS[1]}",
                                                              folder), {7},
           "%.0f s" % (time.time() - start))
    demand("it wrote nothing", os.path.getsize(os.path.join(folder, "out")) == 0)
    start = time.time()
    report("a source that gives zero bytes without end",
           shell("$P script </dev/zero >out", folder), {7}, "%.0f s" % (time.time() - start))
    demand("it wrote nothing again", os.path.getsize(os.path.join(folder, "out")) == 0)
    report("one line of a gigabyte",
           shell("head -c 1073741824 /dev/zero | $P script >out; exit ${PIPESTATUS[1]}", folder), {1})
    with open(os.path.join(folder, "out"), "rb") as file:
        demand("it was refused as long", file.read() == b"refused long\n")
    report("a gigabyte of empty lines",
           shell("yes '' | head -c 1073741824 | $P script; exit ${PIPESTATUS[2]}", folder), {0})
    report("a line of a gigabyte under 64 MB of memory",
           shell("ulimit -v 65536; head -c 1073741824 /dev/zero | $P script; exit ${PIPESTATUS[1]}",
                 folder), {1, 6})


# ---- memory


def memory(folder):
    parts = ["new 256 BFlat\n" + adding(20_000, 32, 1) + "search 1000 " + "00" * 32 + "\n",
             "range 256 " + "00" * 32 + "\nsave f\nload f\n",
             "new 256 BHash16x16\n" + adding(5_000, 32, 2) + "nearest 10 " + "ff" * 32 + "\n",
             "save g\nload g\nshow\n"]
    script = os.path.join(folder, "script")
    with open(script, "w", encoding="ascii") as file:
        file.write("".join(parts))
    seen = {}
    least = 4_000
    # The least size at which the program starts at all.
    while shell("ulimit -v %d; $P script </dev/null" % least, folder) != 0:
        least += 500
    for i in range(30):
        size = least + int(1.2 ** i * 200)
        status = shell("ulimit -v %d; $P script <script >out" % size, folder)
        seen[status] = seen.get(status, 0) + 1
        if status not in (0, 6):
            report("memory limit of %d KB" % size, status, {0, 6})
        for left in os.listdir(folder):
            if left in ("f", "g"):
                whole = faissb(("load %s\n" % left).encode(), cwd=folder)[1]
                demand_whole(left, whole)
    demand("thirty memory limits from %d KB on" % least, set(seen) <= {0, 6},
           ", ".join("%d with %s" % (n, show_status(s)) for s, n in sorted(seen.items())))


def demand_whole(name, output):
    if not output.startswith(b"loaded "):
        demand("the file %s is whole" % name, False, output.decode(errors="replace"))


# ---- files that are hostile


def loads(folder, name, data):
    with open(os.path.join(folder, name), "wb") as file:
        file.write(data)
    before = lambda: resource.setrlimit(resource.RLIMIT_AS, (1 << 30, 1 << 30))
    return faissb(("load %s\n" % name).encode(), cwd=folder, before=before)


def hostile_files(folder):
    numbers = random.Random(7)
    for factory in EVERY_KIND:
        status, _ = faissb(script_for(factory, 40, 3), cwd=folder)
        if status != 0:
            report("making a file of " + factory, status, {0})
            continue
        with open(os.path.join(folder, "f"), "rb") as file:
            whole = file.read()
        refused = accepted = 0
        for _ in range(300):
            data = bytearray(whole)
            for _ in range(numbers.choice([1, 1, 1, 2, 8])):
                at = numbers.randrange(len(data))
                data[at] = numbers.choice([0, 1, 0x7f, 0x80, 0xff, numbers.randrange(256)])
            if numbers.random() < 0.2:
                data = data[:numbers.randrange(len(data) + 1)]
            elif numbers.random() < 0.1:
                data += numbers.randbytes(5)
            status, output = loads(folder, "h", bytes(data))
            if output.startswith(b"refused file ") and status == 1:
                refused += 1
            elif output.startswith(b"loaded ") and status == 0:
                accepted += 1
            else:
                report("a changed file of " + factory, status, set(), repr(output[:60]))
        demand("300 changed files of " + factory, refused + accepted == 300,
               "%d refused, %d loaded" % (refused, accepted))
    # Counts that name more than the file holds, in every field of eight bytes of every kind.
    for factory in EVERY_KIND:
        faissb(script_for(factory, 5, 3), cwd=folder)
        with open(os.path.join(folder, "f"), "rb") as file:
            whole = file.read()
        worst = 0
        for at in range(0, len(whole) - 8):
            for count in (1 << 62, 1 << 40, (1 << 63) - 1, (1 << 64) - 1, 1 << 25):
                data = whole[:at] + count.to_bytes(8, "little") + whole[at + 8:]
                with open(os.path.join(folder, "h"), "wb") as file:
                    file.write(data)
                before = lambda: resource.setrlimit(resource.RLIMIT_AS, (1 << 29, 1 << 29))
                status, output = faissb(b"load h\n", cwd=folder, before=before)
                worst = max(worst, status)
                if not (status in (0, 1) and output[:8] in (b"refused ", b"loaded 5", b"loaded 0")):
                    report("a huge count in a file of " + factory, status, set(),
                           "%d at %d: %r" % (count, at, output[:60]))
        demand("huge counts at each byte of a file of " + factory, worst <= 1)
    report("a file of random bytes", loads(folder, "h", numbers.randbytes(100_000))[0], {1})
    report("an empty file", loads(folder, "h", b"")[0], {1})


# ---- files in the way


def files_in_the_way(folder):
    save = b"new 8 BFlat\nadd ab\nsave f\n"
    report("a file is saved", faissb(save, cwd=folder)[0], {0})
    with open(os.path.join(folder, "f"), "rb") as file:
        demand("it has the bytes of its layout", file.read() == FILE_A)
    os.remove(os.path.join(folder, "f"))
    os.mkdir(os.path.join(folder, "f"))
    report("a folder stands under the name of a save", faissb(save, cwd=folder)[0], {5})
    report("a folder stands under the name of a load", faissb(b"load f\n", cwd=folder)[0], {5})
    os.rmdir(os.path.join(folder, "f"))
    part = os.path.join(folder, ".faissb-part")
    if os.path.exists(part):
        os.remove(part)
    os.mkdir(part)
    report("a folder stands in the way of the new file", faissb(save, cwd=folder)[0], {5})
    demand("there is no half file", not os.path.exists(os.path.join(folder, "f")))
    os.rmdir(part)
    report("the current folder is gone",
           shell("mkdir gone; cd gone; rmdir ../gone; printf 'new 8 BFlat\\nsave f\\n' | $P script; "
                 "exit ${PIPESTATUS[1]}", folder), {5})
    report("a folder in which no file can be made",
           shell("cd /proc/self; printf 'new 8 BFlat\\nsave f\\n' | $P script; exit ${PIPESTATUS[1]}"),
           {5})
    for name in ("../f", "/tmp/f", ".f", "a/b", "", "a" * 65, "a b", "f\\0"):
        status, output = faissb(b"new 8 BFlat\nsave " + name.encode() + b"\n", cwd=folder)
        report("save under the name %r" % name[:20], status, {1})
        if output != b"ok\nrefused line\n":
            demand("it is refused as line", False, repr(output))
    # An old file stays whole while a new one is written.
    big = ("new 256 BFlat\n" + adding(30_000, 32, 5) + "save f\n").encode()
    faissb(save, cwd=folder)
    with open(os.path.join(folder, "big"), "wb") as file:
        file.write(big)
    # Where the signal is not ignored, the system ends the program by it.
    status = shell("ulimit -f 100; trap '' XFSZ; $P script <big >/dev/null", folder)
    report("a save past the limit on the size of a file", status, {5})
    with open(os.path.join(folder, "f"), "rb") as file:
        demand("the old file is whole", file.read() == FILE_A)
    for wait in (0.01, 0.03, 0.06, 0.1, 0.2, 0.4):
        child = subprocess.Popen([PROGRAM, "script"], stdin=open(os.path.join(folder, "big"), "rb"),
                                 stdout=subprocess.DEVNULL, cwd=folder)
        time.sleep(wait)
        child.kill()
        child.wait()
        with open(os.path.join(folder, "f"), "rb") as file:
            data = file.read()
        demand("killed after %.2f s: the old file or the new one" % wait,
               data == FILE_A or len(data) == 33 + 30_000 * 32)


# ---- scripts that are hostile


def hostile_scripts(folder):
    numbers = random.Random(11)
    report("a megabyte of random bytes", faissb(numbers.randbytes(1 << 20), cwd=folder)[0], {0, 1})
    words = [b"new", b"add", b"addids", b"centroids", b"search", b"range", b"nearest", b"save",
             b"load", b"show", b"nprobe", b"nflip", b"maxcodes", b"directmap", b"reconstruct",
             b"remove", b"keep", b"removerange", b"shard", b"unshard", b"shardsearch",
             b"shardrange", b"on", b"off", b"0", b"1", b"8", b"16", b"9999999999999999999",
             b"-1", b"-9223372036854775808", b"00", b"ff", b"0000", b"ffff", b"1:00", b"-1:ffff",
             b"BFlat", b"BIVF2", b"BHash4", b"BHash2x4", b"IDMap,BFlat", b"IDMap2,BHash8", b"f",
             b"g", b"", b"x" * 300, b"\x00", b"\xff"]
    for i in range(200):
        lines = []
        for _ in range(200):
            lines.append(b" ".join(numbers.choice(words) for _ in range(numbers.randrange(1, 5))))
        status, _ = faissb(b"\n".join(lines), cwd=folder)
        if status not in (0, 1):
            report("a random script", status, {0, 1}, "number %d" % i)
    demand("200 random scripts ended with status 0 or 1", True)
    report("4,194,304 lists of a code of 8 bits",
           faissb(b"new 8 BIVF4194304\nshow\n", cwd=folder)[0], {0})
    report("1,024 maps", faissb(b"new 1024 BHash1024x1\nadd " + b"00" * 128 + b"\nnflip 1\nrange 9 "
                                + b"01" * 128 + b"\n", cwd=folder)[0], {0})
    start = time.time()
    report("flips without end", faissb(b"new 64 BHash64\nadd " + b"00" * 8 + b"\nnflip 64\nrange 65 "
                                       + b"ff" * 8 + b"\n", cwd=folder)[0], {0},
           "%.1f s" % (time.time() - start))


CASES = [("devices", devices), ("scripts", hostile_scripts), ("files", hostile_files),
         ("names", files_in_the_way), ("memory", memory), ("endless", endless)]


def main():
    global PROGRAM
    if len(sys.argv) < 2:
        sys.exit(__doc__)
    PROGRAM = os.path.abspath(sys.argv[1])
    for name, case in CASES:
        if len(sys.argv) > 2 and name not in sys.argv[2:]:
            continue
        print("---- " + name, flush=True)
        folder = tempfile.mkdtemp(prefix="faissb-hostile-")
        try:
            case(folder)
        finally:
            shutil.rmtree(folder, ignore_errors=True)
    print("%d cases ended otherwise%s" % (len(BAD), ": " + ", ".join(BAD) if BAD else ""))
    sys.exit(1 if BAD else 0)


if __name__ == "__main__":
    main()
