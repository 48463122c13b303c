#!/usr/bin/env python3
"""Every request for memory refused in turn: the program ends with status 7 and no output, or as it does with ample memory.

    refused.py PROGRAM [--rows NAME,..] [--every N] [--jobs J] [--seconds S]

Each row is a command over files of examples/ or of bench/networks.py: of `review`, or of `rollout` where PROGRAM's name begins so.
The rows of many requests stand there with --every alone. It is run once with all memory; then for each number N, from 1 on
until a run makes fewer requests, once with the Nth request refused alone and once with all from the Nth on refused. A thread that
can't be started is a request that is refused, too. With --every N each Nth number is tried alone. No run may end in another way, take
longer than S seconds (60), or end by a signal. The last line is 'N passed, M failed'.

Wants a C compiler (cc, or $CC) for tests/refused.c, which is loaded before the program.
"""
import multiprocessing
import os
import struct
import subprocess
import sys
import tempfile

TESTS = os.path.dirname(os.path.abspath(__file__))
TOP = os.path.dirname(TESTS)
EXAMPLES = os.path.join(TOP, "examples")


def compare(example, *more):
    return ["compare", f"{EXAMPLES}/{example}/old", f"{EXAMPLES}/{example}/new", f"{EXAMPLES}/{example}/links", *more]


def asked(net, questions, *more):
    return ["ask", f"{EXAMPLES}/{net}/net", f"{EXAMPLES}/{net}/links", f"{EXAMPLES}/{questions}", *more]


def rows(scratch, every):
    """The words of each row, by its name. Those that work with several workers stand there once for each number."""
    found = {}
    for workers in ("1", "2"):
        by = ["--workers", workers]
        found[f"nat-there-and-back-{workers}"] = compare("nat-there-and-back", *by)
        found[f"nat-of-two-routers-{workers}"] = compare("nat-of-two-routers", *by)
        found[f"lan-end-shut-down-{workers}"] = compare("lan-end-shut-down", *by)
        found[f"ask-{workers}"] = asked("traces/two-defaults", "questions/two-defaults", *by)
        found[f"gen-{workers}"] = ["gen", "7", "3", *by]
        found[f"fabric-{workers}"] = ["compare", f"{scratch}/old", f"{scratch}/new", f"{scratch}/links", *by]
    if every > 1:
        # So many routes that workers make them functions, by 140,000 requests.
        for workers in ("2", "4"):
            by = ["--workers", workers]
            found[f"leaves-{workers}"] = ["compare", f"{scratch}/leaves/old", f"{scratch}/leaves/new", f"{scratch}/leaves/links", *by]
    rewired = f"{EXAMPLES}/rewired"
    found["rewired"] = ["compare", f"{rewired}/old", f"{rewired}/new", f"{rewired}/links", f"{rewired}/newlinks"]
    with open(f"{EXAMPLES}/traces/nat-of-two-routers.words") as words:
        found["trace"] = ["trace", *(resolved(word) for word in words.read().split())]
    found["read"] = ["read", f"{EXAMPLES}/edge-list/old"]
    # Refusals, each with its line.
    refused = f"{scratch}/refused"
    found["refused"] = ["read", refused]
    found["absent"] = ["read", f"{scratch}/none"]
    found["usage"] = ["read"]
    return found


def rollout_rows():
    """The same of the program `rollout`."""
    window = f"{EXAMPLES}/rollout"
    found = {
        f"rollout{order}": ["rollout", f"{window}/net", f"{window}/links", f"{window}/questions", f"{window}/steps{order}"] for order in ("", "-leak")
    }
    found["edits"] = ["edits", f"{EXAMPLES}/list-entry/old", f"{EXAMPLES}/list-entry/links", f"{EXAMPLES}/edits/edits"]
    found["audit"] = ["audit", f"{EXAMPLES}/audit/net"]
    found["variants"] = ["variants", f"{window}/net", f"{window}/links", f"{window}/variants"]
    return found


def resolved(word):
    return os.path.join(TOP, word) if word.startswith("examples/") else word


def made(scratch):
    """What the rows need besides the examples, and the library."""
    networks = os.path.join(TOP, "bench", "networks.py")
    subprocess.run([sys.executable, networks, "fabric", scratch, "2", "16"], check=True)
    subprocess.run([sys.executable, networks, "leaves", f"{scratch}/leaves", "4", "64"], check=True)
    os.mkdir(f"{scratch}/refused")
    with open(f"{scratch}/refused/R1.cfg", "w") as file:
        file.write("hostname R1\nrouter ospf 1\n")
    library = f"{scratch}/refused.so"
    compiler = os.environ.get("CC", "cc")
    source = os.path.join(TESTS, "refused.c")
    subprocess.run([compiler, "-O2", "-shared", "-fPIC", source, "-o", library, "-ldl", "-lpthread"], check=True)
    return library


class Runs:
    """Runs of one program under the library."""

    def __init__(self, program, library, scratch, seconds):
        self.program, self.library, self.seconds = program, library, seconds
        self.counts = f"{scratch}/counts-{os.getpid()}"

    def run(self, words, at, rest):
        """How a run ends: status, output, error output; its requests, its threads, how many requests were refused."""
        with open(self.counts, "wb") as file:
            file.write(bytes(24))
        env = {"LD_PRELOAD": self.library, "REFUSED_AT": str(at), "REFUSED_TO": self.counts}
        if rest:
            env["REFUSED_ALL"] = "1"
        try:
            # (paths of steps are read from the top)
            it = subprocess.run([self.program, *words], cwd=TOP, env=env, stdin=subprocess.DEVNULL, capture_output=True, timeout=self.seconds)
            ended = (it.returncode, it.stdout, it.stderr)
        except subprocess.TimeoutExpired:
            ended = ("no end", b"", b"")
        with open(self.counts, "rb") as file:
            return ended, *struct.unpack("QQQ", file.read(24))


def try_numbers(task):
    """Tries the numbers of one row from `first` on in steps. Answers how many ended each way, and what is wrong."""
    program, library, scratch, seconds, name, words, wanted, first, step, last = task
    runs = Runs(program, library, scratch, seconds)
    without, whole, wrong = 0, 0, []
    for at in range(first, last + 1, step):
        for rest in (False, True):
            ended, _, _, refused = runs.run(words, at, rest)
            if ended == (7, b"", b"no memory\n") and refused:
                without += 1
            elif ended == wanted:
                whole += 1
            else:
                wrong.append(f"FAILED {name}, request {at}{' and later ones' if rest else ''}: {ended}")
    return without, whole, wrong


def try_row(pool, jobs, every, start, name, words):
    """Tries a row. Answers its requests and threads, how many runs ended each way, and what is wrong."""
    wanted, requests, threads, _ = Runs(*start).run(words, 0, False)
    # The numbers of requests of two runs may differ where there are threads.
    last = requests + requests // 20 * (threads > 0)
    tasks = [(*start, name, words, wanted, 1 + every * job, every * jobs, last) for job in range(jobs)]
    without, whole, wrong = 0, 0, []
    for some, others, failures in pool.imap_unordered(try_numbers, tasks):
        without, whole, wrong = without + some, whole + others, wrong + failures
    status = wanted[0]
    print(f"{name}: status {status}, {requests} requests, {threads} threads; {without} without memory, {whole} whole, {len(wrong)} wrong", flush=True)
    for line in wrong[:10]:
        print(line)
    return without + whole, len(wrong), isinstance(status, int) and status >= 0 and status != 7


def main():
    words = sys.argv[1:]
    every, jobs, seconds, only = 1, os.cpu_count(), 60.0, None
    while len(words) > 2:
        *words, option, value = words
        if option == "--every":
            every = int(value)
        elif option == "--jobs":
            jobs = int(value)
        elif option == "--seconds":
            seconds = float(value)
        elif option == "--rows":
            only = value.split(",")
    program = os.path.abspath(words[0])
    passed = failed = 0
    with tempfile.TemporaryDirectory(prefix="refused") as scratch:
        start = (program, made(scratch), scratch, seconds)
        with multiprocessing.Pool(jobs) as pool:
            of_rollout = os.path.basename(program).startswith("rollout")
            for name, row in (rollout_rows() if of_rollout else rows(scratch, every)).items():
                if only and name not in only:
                    continue
                right, wrong, is_row = try_row(pool, jobs, every, start, name, row)
                passed += right
                failed += wrong + (not is_row)
    print(f"{passed} passed, {failed} failed")
    # A run of nothing shows nothing.
    sys.exit(failed > 0 or passed == 0)


if __name__ == "__main__":
    main()
