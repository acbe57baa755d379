#!/usr/bin/env python3
"""What people do to ptu, and what it does then: folders, pipes, streams, limits, signals, and greatest plans.

  bench/hostile.py [-o REGEX] PROGRAM

Each use below is tried once, and its status, its standard output and its standard error must be as docs/formats.md
says; what is printed for a file and a plan must be what bench/brute.py prints. A line is printed for each use, and
the least stack that suffices. Ends with status 1 where one is not as it should be. -o takes the uses whose names
match. It needs Linux, python 3.11, 2 GB of memory, some room in /tmp for a sparse file of 3 GB, and root for the
use of a file without permission, which is left out else.
"""

import getopt
import os
import re
import resource
import shutil
import signal
import struct
import subprocess
import sys
import tempfile
import threading
import time
from collections.abc import Callable, Iterator
from typing import Any

import brute

ROOT = os.path.dirname(os.path.dirname(os.path.abspath(__file__)))
BENCH = os.path.join(ROOT, "examples", "bench.ptu")
BENCH_PLAN = os.path.join(ROOT, "examples", "bench.toml")
SCAN = os.path.join(ROOT, "examples", "scan.ptu")
MEBIBYTE = 1 << 20
PROGRAM = FOLDER = ""


def path(name: Any) -> Any:
    return os.path.join(FOLDER, name)


def write(name: Any, data: Any) -> Any:
    with open(path(name), "wb") as file:
        file.write(data)
    return path(name)


def limited(limits: Any) -> Any:
    """What is done in the new process before the program begins."""

    def limit() -> None:
        for which, most in limits.items():
            resource.setrlimit(which, (most, most))

    return limit


def ptu(*words: Any, limits: Any = None, **rest: Any) -> Any:
    """Status, standard output and standard error."""
    options: dict[str, Any] = {"stdin": subprocess.DEVNULL, "stdout": subprocess.PIPE, "stderr": subprocess.PIPE} | rest
    done = subprocess.run([PROGRAM, *words], preexec_fn=limited(limits or {}), timeout=600, **options, check=False)
    return done.returncode, done.stdout, done.stderr


def shell(text: Any, *words: Any) -> Any:
    """The same of a line of the shell, in which $ptu is the program and $1 and on are words."""
    done = subprocess.run(["bash", "-c", text, "bash", *words], env=os.environ | {"ptu": PROGRAM}, capture_output=True, timeout=600, check=False)
    return done.returncode, done.stdout, done.stderr


def line(status: Any, text: Any) -> Any:
    return status, b"", f"ptu: {text}\n".encode()


def as_brute(*words: Any) -> Any:
    return brute.answer([os.fsencode(word) for word in words])


COUNT = None
USES = []


def use(function: Any) -> Any:
    USES.append(function)
    return function


# Each use gives pairs: what came, and what should come.


@use
def a_folder() -> Iterator[Any]:
    yield ptu("count", "/"), line(3, "cannot read the data")
    yield ptu("run", "/", BENCH), line(3, "cannot read the plan")
    yield ptu("run", BENCH_PLAN, "/"), line(3, "cannot read the data")


@use
def no_such_file() -> Iterator[Any]:
    yield ptu("count", path("none")), line(2, "cannot open the data")
    yield ptu("run", path("none"), path("none")), line(2, "cannot open the plan")
    yield ptu("count", ""), line(2, "cannot open the data")
    yield ptu("count", BENCH + "/x"), line(2, "cannot open the data")


@use
def a_loop_of_links() -> Iterator[Any]:
    os.symlink("loop_b", path("loop_a"))
    os.symlink("loop_a", path("loop_b"))
    yield ptu("count", path("loop_a")), line(2, "cannot open the data")
    os.symlink(BENCH, path("link"))
    yield ptu("count", path("link")), as_brute("count", BENCH)


@use
def no_permission() -> Iterator[Any]:
    if os.getuid() != 0:
        return
    secret = write("secret", open(BENCH, "rb").read())
    os.chmod(secret, 0)
    os.chmod(FOLDER, 0o755)
    shutil.copy(PROGRAM, path("ptu"))
    os.chmod(path("ptu"), 0o755)
    done = subprocess.run([path("ptu"), "count", secret], capture_output=True, user=65534, group=65534, extra_groups=[], check=False)
    yield (done.returncode, done.stdout, done.stderr), line(2, "cannot open the data")
    done = subprocess.run([path("ptu"), "run", secret, secret], capture_output=True, user=65534, group=65534, extra_groups=[], check=False)
    yield (done.returncode, done.stdout, done.stderr), line(2, "cannot open the plan")


def feed(fifo: Any, data: Any, piece: Any = None, pause: float = 0.0) -> Any:
    """Writes the data into a named pipe, in pieces, beside what runs."""

    def writes() -> None:
        with open(fifo, "wb", buffering=0) as pipe:
            for at in range(0, len(data), piece or len(data)):
                pipe.write(data[at : at + (piece or len(data))])
                time.sleep(pause)

    thread = threading.Thread(target=writes, daemon=True)
    thread.start()
    return thread


def fifo(name: Any) -> Any:
    os.mkfifo(path(name))
    return path(name)


@use
def a_named_pipe() -> Iterator[Any]:
    pipe, data, plan = fifo("pipe"), open(BENCH, "rb").read(), open(BENCH_PLAN, "rb").read()
    feed(pipe, data, 7, 0.001)
    yield ptu("run", BENCH_PLAN, pipe), as_brute("run", BENCH_PLAN, BENCH)
    feed(pipe, plan, 1)
    yield ptu("run", pipe, BENCH), as_brute("run", BENCH_PLAN, BENCH)


@use
def one_named_pipe_as_both() -> Iterator[Any]:
    """It is opened twice: the first writer's text is the plan, and the next one's is the data."""
    pipe, data, plan = fifo("both"), open(BENCH, "rb").read(), open(BENCH_PLAN, "rb").read()
    first = feed(pipe, plan)

    def then() -> None:
        first.join()
        time.sleep(0.2)
        feed(pipe, data)

    threading.Thread(target=then, daemon=True).start()
    yield ptu("run", pipe, pipe), as_brute("run", BENCH_PLAN, BENCH)


@use
def standard_input() -> Iterator[Any]:
    yield shell('"$ptu" count /dev/stdin <"$1"', BENCH), as_brute("count", BENCH)
    yield shell('cat "$1" | "$ptu" count /dev/stdin', BENCH), as_brute("count", BENCH)
    yield shell('cat "$1" | "$ptu" run /dev/stdin "$2"', BENCH_PLAN, BENCH), as_brute("run", BENCH_PLAN, BENCH)
    yield shell('"$ptu" run <(cat "$1") <(cat "$2")', BENCH_PLAN, BENCH), as_brute("run", BENCH_PLAN, BENCH)
    yield shell('"$ptu" count /dev/stdin <&-'), line(2, "cannot open the data")
    yield ptu("count", "/dev/stdin"), line(11, "header cut after 0 bytes")


@use
def one_file_as_both() -> Iterator[Any]:
    yield ptu("run", BENCH, BENCH), line(7, "plan is not TOML")
    yield ptu("run", BENCH_PLAN, BENCH_PLAN), line(10, "not a PTU file")
    # A pipe is read by the plan to its end, and nothing is left for the data.
    yield shell('cat "$1" | "$ptu" run /dev/stdin /dev/stdin', BENCH_PLAN), line(11, "header cut after 0 bytes")


@use
def devices() -> Iterator[Any]:
    yield ptu("count", "/dev/null"), line(11, "header cut after 0 bytes")
    yield ptu("run", "/dev/null", BENCH), as_brute("run", "/dev/null", BENCH)
    yield ptu("count", "/dev/zero"), line(10, "not a PTU file")
    yield ptu("run", "/dev/zero", BENCH), line(6, "plan longer than 65536 bytes")
    yield ptu("count", "/proc/self/mem"), line(3, "cannot read the data")


@use
def standard_output_that_takes_nothing() -> Iterator[Any]:
    for words in (("count", BENCH), ("header", BENCH), ("events", SCAN), ("run", BENCH_PLAN, BENCH), ("demo", "0", "1")):
        with open("/dev/full", "wb") as full:
            status, _, error = ptu(*words, stdout=full)
        yield (status, b"", error), line(4, "cannot write")
        yield shell('"$ptu" "$@" >&-', *words), line(4, "cannot write")
    # What is refused before anything was to be written is told as ever.
    yield shell('"$ptu" count "$1" >&-', path("none")), line(2, "cannot open the data")
    yield shell('"$ptu" events "$1" | head -c 10; exit ${PIPESTATUS[0]}', SCAN), (4, b"1 marker 3", b"ptu: cannot write\n")


@use
def standard_error_that_takes_nothing() -> Iterator[Any]:
    yield shell('"$ptu" count "$1" 2>&-', path("none")), (2, b"", b"")
    yield shell('"$ptu" count "$1" 2>/dev/full', path("none")), (2, b"", b"")
    yield shell('"$ptu" count "$1" <&- 2>&-', BENCH), as_brute("count", BENCH)


@use
def long_names() -> Iterator[Any]:
    yield ptu("count", "n" * 100_000), line(2, "cannot open the data")
    yield ptu("run", "n" * 100_000, BENCH), line(2, "cannot open the plan")
    yield ptu("count", "./" * 50_000 + "n"), line(2, "cannot open the data")
    yield ptu(*["count"] * 20_000), line(1, "bad command line")


@use
def odd_names() -> Iterator[Any]:
    """Names are texts of UTF-8. A file of another name is given by standard input, or by a link."""
    odd = os.fsencode(path("")) + b"\xff\xfe.ptu"
    shutil.copy(os.fsencode(BENCH), odd)
    yield ptu("count", odd), line(1, "bad command line")
    yield ptu("run", odd, BENCH), line(1, "bad command line")
    yield shell('"$ptu" count /dev/stdin <"$1"', odd), as_brute("count", BENCH)
    os.symlink(odd, path("straight"))
    yield ptu("count", path("straight")), as_brute("count", BENCH)
    strange = path(" é\n'\"\t-$x")
    shutil.copy(BENCH, strange)
    yield ptu("count", strange), as_brute("count", BENCH)
    shutil.copy(BENCH, path("-n"))
    yield ptu("count", "-n", cwd=FOLDER), as_brute("count", BENCH)


# Memory and stack.


def plan_of(groups: Any, **parts: Any) -> Any:
    """A plan of so many equal tables of each kind."""
    tables = [f"[[group]]\ninputs = {inputs}\n" for inputs in groups]
    for kind, (number, keys) in parts.items():
        tables += [f"[[{kind}]]\n" + "".join(f"{key} = {value}\n" for key, value in keys.items())] * number
    return "".join(tables).encode()


REACH = {"first": 1, "second": 2, "reach": 2**20, "width": 1}
TRACE = {"group": 1, "width": 3, "bins": 2**20}
LAGS = {"first": 1, "second": 2, "lags": 128, "levels": 40}


@use
def too_little_memory() -> Iterator[Any]:
    """A plan of 788 MB: 13 coincidences of the greatest reach, and 3 traces of the most bins."""
    plan = write("large.toml", plan_of(["[0, 1]", "[1, 2]"], coincidence=(13, REACH), trace=(3, TRACE)))
    data = write("pairs.ptu", brute.minimal_file(0x01010204, [time << 3 | (time % 3) << 25 for time in range(60)]))
    for most in (100, 400, 740):
        yield ptu("run", plan, data, limits={resource.RLIMIT_AS: most * MEBIBYTE}), line(5, "out of memory")
    yield ptu("run", plan, data, limits={resource.RLIMIT_AS: 780 * MEBIBYTE}), as_brute("run", plan, data)
    # Other commands take no memory, however little there is.
    yield ptu("count", BENCH, limits={resource.RLIMIT_AS: 8 * MEBIBYTE}), as_brute("count", BENCH)


@use
def the_greatest_plans() -> Iterator[Any]:
    """Each mode's plan of the most tables, each of the greatest settings, in each of which something is counted."""
    spread = [time << 12 | (time % 3) << 25 for time in range(0, 2000, 41)] + [0xFE000001, 5, 1 << 25 | 7]
    data = write("spread_t2.ptu", brute.minimal_file(0x01010204, spread))
    bins = {"width": 5, "bins": 32768}
    plan = write("greatest_t2.toml", plan_of(["[0, 1]", "[1, 2]"], trace=(32, TRACE), startstop=(16, {"start": 1, "stop": 2} | bins),
                                             coincidence=(16, REACH), correlation=(16, LAGS)))
    yield ptu("run", plan, data), as_brute("run", plan, data)
    image = {"group": 1, "width": 2048, "height": 2048, "dwell": 3, "line": 1}
    words = [word for n in range(120) for word in (0x82000000 | n, 0xFE000001, n << 12 | n, 2 << 25 | n << 10 | (7 * n) % 1000 + n)]
    data = write("spread_t3.ptu", brute.minimal_file(0x01010304, words))
    plan = write("greatest_t3.toml", plan_of(["[0, 1]", "[1, 2]"], histogram=(32, {"group": 1} | bins), trace=(32, TRACE),
                                             image=(8, image), correlation=(16, LAGS)))
    yield ptu("run", plan, data), as_brute("run", plan, data)
    both = write("greatest.toml", plan_of(["[0, 1]", "[1, 2]"], histogram=(32, {"group": 1} | bins), trace=(32, TRACE), startstop=(16, {"start": 1, "stop": 2} | bins),
                                          coincidence=(16, REACH), image=(8, image), correlation=(16, LAGS)))
    yield ptu("run", both, data), line(9, "startstop 1 does not suit T3")


@use
def plans_of_the_greatest_length() -> Iterator[Any]:
    for text in (b"#" * 65536, b"\n" * 65536, b"# a line of 16.\n" * 4095 + b"limits.records=7", b"# a line of 16.\n" * 4095 + b"limits.records=0",
                 b"# a line of 16.\n" * 4095 + b"version = 1 = 2 ", b"[[group]]\n" * 6553 + b"[\n", b"a=1\n" * 16384, b"a." * 32000 + b"a = 1\n"):
        plan = write("long.toml", text)
        try:
            yield ptu("run", plan, BENCH), as_brute("run", plan, BENCH)
        except brute.NotCompared:
            yield ptu("run", plan, BENCH), line(7, "plan is not TOML")


def deep_plans() -> Iterator[Any]:
    """Documents that nest as deep as ptu reads, and deeper: 80 parts of a key, 80 brackets, and what both make together."""
    key: Callable[[str, int], str] = lambda letter, parts: ".".join([letter] * parts)
    for parts in (80, 81, 16000):
        yield f"a = {'[' * parts}{']' * parts}", 8 if parts == 80 else 7
        yield f"a = {'{a=' * parts}1{'}' * parts}", 8 if parts == 80 else 7
        yield f"{key('a', parts)} = 1", 8 if parts == 80 else 7
        yield f"[{key('a', parts)}]", 8 if parts == 80 else 7
    value = "{ " + " , ".join(f"{key(letter, 80)} = {'[' * 79}{']' * 79}" for letter in "bc") + " }"
    yield f"[{key('a', 80)}]\n{key('a', 80)} = {value}\n", 8
    inner = "1"
    for _ in range(80):
        inner = "{ " + key("a", 80) + " = " + inner + " }"
    yield f"[[{key('a', 80)}]]\n{key('b', 80)} = {inner}\n", 8


@use
def plans_that_nest() -> Iterator[Any]:
    for text, status in deep_plans():
        plan = write("deep.toml", text.encode())
        got = ptu("run", plan, BENCH)
        yield got, line(8, "plan breaks rule 1 at 0") if status == 8 else line(7, "plan is not TOML")


def least_stack(words: Any, want: Any) -> Any:
    """The least stack in KiB, a multiple of 4, with which the program says what it should."""
    low, high = 0, 8192
    while high - low > 4:
        middle = (low + high) // 8 * 4
        try:
            good = ptu(*words, limits={resource.RLIMIT_STACK: middle * 1024}) == want
        except (OSError, subprocess.SubprocessError):
            good = False
        low, high = (low, middle) if good else (middle, high)
    return high


@use
def the_stack() -> Iterator[Any]:
    """Each command is run with half of the usual 8 MiB, and then with less and less."""
    rows = [
        ("count", ("count", BENCH), as_brute("count", BENCH)),
        ("events", ("events", BENCH), as_brute("events", BENCH)),
        ("run", ("run", BENCH_PLAN, BENCH), as_brute("run", BENCH_PLAN, BENCH)),
    ]
    for at, (text, status) in enumerate(deep_plans()):
        plan = write(f"deep_{at}.toml", text.encode())
        want = line(8, "plan breaks rule 1 at 0") if status == 8 else line(7, "plan is not TOML")
        rows.append((f"plan {at + 1} that nests", ("run", plan, BENCH), want))
    for _, words, want in rows:
        yield ptu(*words, limits={resource.RLIMIT_STACK: 4 * MEBIBYTE}), want
    print("  least stack in KiB: " + ", ".join(f"{name} {least_stack(words, want)}" for name, words, want in rows))


# Files that change, and signals.


@use
def signals() -> Iterator[Any]:
    """A signal ends it as it ends any program. Stopped and woken, it goes on."""
    pipe, data = fifo("slow"), open(BENCH, "rb").read()
    for number in (signal.SIGINT, signal.SIGTERM, signal.SIGHUP, signal.SIGKILL):
        running = subprocess.Popen([PROGRAM, "count", pipe], stdout=subprocess.PIPE, stderr=subprocess.PIPE)
        with open(pipe, "wb", buffering=0) as writer:
            writer.write(data[:300])
            time.sleep(0.05)
            running.send_signal(number)
            out, err = running.communicate()
        yield (running.returncode, out, err), (-number, b"", b"")
    running = subprocess.Popen([PROGRAM, "run", BENCH_PLAN, pipe], stdout=subprocess.PIPE, stderr=subprocess.PIPE)
    with open(pipe, "wb", buffering=0) as writer:
        for at in range(0, len(data), 100):
            running.send_signal(signal.SIGSTOP)
            time.sleep(0.01)
            running.send_signal(signal.SIGCONT)
            writer.write(data[at : at + 100])
            time.sleep(0.01)
    out, err = running.communicate()
    yield (running.returncode, out, err), as_brute("run", BENCH_PLAN, BENCH)


@use
def a_file_that_grows() -> Iterator[Any]:
    """It is read to the end that it has when the end is reached. What is appended meanwhile may be seen in part."""
    front = brute.minimal_file(0x01010304, [])
    grown = write("grows.ptu", front + bytes(4 * 2_000_000))
    running = subprocess.Popen([PROGRAM, "count", grown], stdout=subprocess.PIPE, stderr=subprocess.PIPE)
    with open(grown, "ab", buffering=0) as file:
        for _ in range(200):
            if running.poll() is not None:
                break
            file.write(bytes(4 * 10_000))
    out, err = running.communicate()
    records = int(re.findall(rb"records (\d+)", out)[0])
    yield (running.returncode, err, 2_000_000 <= records <= 4_000_000), (0, b"", True)
    # What is taken away before it is read is missing.
    running = subprocess.Popen([PROGRAM, "count", fifo("cut")], stdout=subprocess.PIPE, stderr=subprocess.PIPE)
    feed(path("cut"), front[:100])
    out, err = running.communicate()
    yield (running.returncode, out, err), line(11, "header cut after 100 bytes")


@use
def a_sparse_file_of_3_gb() -> Iterator[Any]:
    """Its zeros are photons of input 0 at time 0."""
    front = brute.minimal_file(0x01010304, [])
    sparse = write("sparse.ptu", front)
    os.truncate(sparse, 3 << 30)
    records = ((3 << 30) - len(front)) // 4
    text = f"type HydraHarp2T3\nannounced -\nrecords {records}\nphotons {records}\nmarkers 0\nwraps 0\nreserved 0\n"
    yield ptu("count", sparse), (0, text.encode(), b"")
    plan = write("one.toml", plan_of(["[0]"], trace=(1, {"group": 1, "width": 1, "bins": 1})))
    status, out, err = ptu("run", plan, sparse)
    yield (status, out.split(b"\n")[-5:], err), (0, [b"trace 1 origin 0 width 1 bins 1", f"0 {records}".encode(), b"before 0", b"beyond 0", b""], b"")
    os.truncate(sparse, (3 << 30) + 1)
    yield ptu("count", sparse), line(17, "1 bytes of a record at the end")
    blob = struct.pack("<32siIq", b"Blob", -1, 0xFFFFFFFF, 2**62)
    sparse = write("header.ptu", front[:16] + blob)
    os.truncate(sparse, 3 << 30)
    yield ptu("count", sparse), line(16, "header longer than 16777216 bytes")


@use
def a_file_limit() -> Iterator[Any]:
    """Where a file may grow no further, a signal of the system ends it, and where that is turned off status 4."""
    with open(path("short_out"), "wb") as out:
        status, _, _ = ptu("events", SCAN, stdout=out, limits={resource.RLIMIT_FSIZE: 5000})
    yield (status, os.path.getsize(path("short_out"))), (-signal.SIGXFSZ, 5000)
    yield shell('trap "" XFSZ; ulimit -f 4; "$ptu" events "$1" >"$2"', SCAN, path("short_out")), line(4, "cannot write")


def shown(value: Any) -> Any:
    text = repr(value)
    return text if len(text) < 300 else text[:140] + " .. " + text[-140:]


def main() -> None:
    global PROGRAM, FOLDER
    options, rest = getopt.getopt(sys.argv[1:], "o:")
    if len(rest) != 1:
        sys.exit(__doc__)
    only, wrong = dict(options).get("-o", "."), 0
    PROGRAM = os.path.abspath(rest[0])
    for number in (signal.SIGINT, signal.SIGTERM, signal.SIGHUP):  # a program begun in the background of a shell may have them ignored
        signal.signal(number, signal.SIG_DFL)
    for try_it in USES:
        if not re.search(only, try_it.__name__):
            continue
        FOLDER = tempfile.mkdtemp(prefix="ptu_hostile.")
        began, tried = time.time(), 0
        try:
            for came, should in try_it():
                tried += 1
                if came != should:
                    wrong += 1
                    print(f"WRONG {try_it.__name__}, number {tried}: {shown(came)}\n  in place of {shown(should)}")
        finally:
            shutil.rmtree(FOLDER, ignore_errors=True)
        print(f"{try_it.__name__.replace('_', ' ')}: {tried} tried, {time.time() - began:.1f} s", flush=True)
    sys.exit(1 if wrong else 0)


if __name__ == "__main__":
    main()
