#!/usr/bin/env python3
"""Runs `sweep` as its users do: by GNU parallel, over ssh on the loopback address, and by Slurm or a stand-in for its sbatch.

What can't be tried on this machine is told in a line that begins with `skipped`. DIQENYU_REVIEW, DIQENYU_VIEW and DIQENYU_ROLLOUT name
other programs than those that `./review`, `./view` and `./rollout` build.
"""
import glob
import os
import shlex
import shutil
import signal
import socket
import subprocess
import sys
import tempfile
import time
import unittest

TOP = os.path.dirname(os.path.dirname(os.path.abspath(__file__)))
sys.path.insert(0, os.path.join(TOP, "sweeping"))
sys.dont_write_bytecode = True

import failures  # noqa: E402
import windows  # noqa: E402

EXAMPLE = "examples/sweep-branch"
COMPARE = ["compare", EXAMPLE + "/old", EXAMPLE + "/new", EXAMPLE + "/links"]
UPLINK = "link CORE1 GigabitEthernet0/2 BRANCH GigabitEthernet0/0"

# Two routers and a link, and the answer for each two failures that aren't one within the other: R2 has the one interface.
SMALL = ["compare", "examples/rewired/old", "examples/rewired/new", "examples/rewired/links"]
SMALL_PAIRS = b"""without failure: groups 0

failure link R1 Ethernet1 R2 Ethernet0
failure device R1
failure device R2
failure link R1 Ethernet1 R2 Ethernet0 + device R1
failure device R1 + device R2
  nothing else

failures 5 differ 0
"""
SMALL_ANSWER = b"".join(line for line in SMALL_PAIRS.splitlines(True) if b" + " not in line).replace(b"failures 5", b"failures 3")


# A sweep to which no window is too dear, whatever else the machine does.
SETTINGS = "import sys; sys.path.insert(0, 'sweeping'); import sweep, windows; windows.TIMED, windows.MOST_COST = 1, 1e9; sys.exit(sweep.main())"
ALL_WINDOWS = (sys.executable, "-BS", "-c", SETTINGS)
# How many random networks are asked in both ways.
RANDOM_NETWORKS = 6


def ask_words(version):
    return ["ask", EXAMPLE + "/" + version, EXAMPLE + "/links", EXAMPLE + "/questions"]


def read(path):
    with open(path, "rb") as stream:
        return stream.read()


def write(path, text, mode=0o644):
    os.makedirs(os.path.dirname(path), exist_ok=True)
    with open(path, "w", encoding="latin-1", newline="") as stream:
        stream.write(text)
    os.chmod(path, mode)
    return path


def has(*programs):
    return all(shutil.which(program, path=os.environ["PATH"] + ":/usr/sbin:/sbin") for program in programs)


def free_port():
    with socket.socket() as taken:
        taken.bind(("127.0.0.1", 0))
        return taken.getsockname()[1]


def until(is_so, seconds=30):
    """Waits for something; tells whether it came."""
    end = time.monotonic() + seconds
    while not is_so():
        if time.monotonic() > end:
            return False
        time.sleep(0.1)
    return True


class Sweeps(unittest.TestCase):
    """A scratch folder, in which the caches of the sweeps are too, and calls of `sweep`."""

    def setUp(self):
        self.scratch = tempfile.mkdtemp(prefix="diqenyu-test-")
        self.addCleanup(shutil.rmtree, self.scratch)
        self.folder = os.path.join(self.scratch, "folder")
        self.environment = dict(os.environ, XDG_CACHE_HOME=os.path.join(self.scratch, "cache"), TMPDIR=self.scratch)

    def sweep(self, *words, command=("./sweep",)):
        """The status, the output and the error lines."""
        done = subprocess.run([*command, *words], cwd=TOP, env=self.environment, stdin=subprocess.DEVNULL,
                              stdout=subprocess.PIPE, stderr=subprocess.PIPE)
        return done.returncode, done.stdout, done.stderr

    def has_answer(self, expected, *words):
        """The sweep writes this file, and its status tells whether a failure differs."""
        status, output, errors = self.sweep(*words)
        self.assertEqual(output, read(os.path.join(TOP, expected)), errors)
        self.assertEqual(status, 0 if output.endswith(b"differ 0\n") else 1)

    def stand_in(self, name, script):
        """Puts a script in the place of a program of the kit, or on the PATH."""
        return write(os.path.join(self.scratch, "programs", name), "#!/bin/bash\n" + script, 0o755)


class ByParallel(Sweeps):
    def test_example(self):
        self.has_answer(EXAMPLE + "/failures", *COMPARE)
        self.assertEqual(os.listdir(self.environment["XDG_CACHE_HOME"] + "/diqenyu"), [])

    def test_example_asked(self):
        for version in failures.VERSIONS:
            self.has_answer("%s/failures-%s" % (EXAMPLE, version), *ask_words(version))

    def test_nothing_changes(self):
        self.assertEqual(self.sweep(*SMALL, "--pairs"), (0, SMALL_PAIRS, b""))

    def test_on_two_machines(self):
        self.has_answer(EXAMPLE + "/failures", *COMPARE, "--folder", self.folder, "--jobs", "1", "--sshlogin", "1/:", "--sshlogin", "1/:")

    def test_shown(self):
        status, command, _ = self.sweep("--show", UPLINK, *COMPARE, "--folder", self.folder)
        self.assertEqual(status, 0)
        words = shlex.split(command.decode())
        first = "interface GigabitEthernet0/0\n description first uplink, to CORE1\n ip address 10.0.0.7 255.255.255.254\n"
        self.assertIn(first + " shutdown\n", read(words[2] + "/BRANCH.cfg").decode())
        self.assertTrue(os.path.islink(words[2] + "/DC1.cfg"))
        done = subprocess.run(words, cwd=TOP, stdout=subprocess.PIPE)
        self.assertEqual((done.returncode, done.stdout.splitlines()[-1]), (1, b"affected 15"))
        self.assertEqual(self.sweep("--show", "device NONE", *COMPARE)[0], 2)

    def worded(self, text=None):
        """The words of the example's sweep, whose questions have words for numbers."""
        text = text or read(os.path.join(TOP, EXAMPLE, "questions")).decode("latin-1")
        text = text.replace("proto 6 dport 443", "proto tcp dport https")
        return ask_words("new")[:3] + [write(os.path.join(self.scratch, "questions"), text)]

    def test_questions_in_words(self):
        words = self.worded()
        self.assertIn("proto tcp dport https", read(words[3]).decode())
        self.has_answer(EXAMPLE + "/failures-new", *words)
        self.has_answer(EXAMPLE + "/failures-new", *words, "--jobs-only")

    def test_questions_in_words_that_are_shown(self):
        status, command, errors = self.sweep("--show", UPLINK, *self.worded(), "--folder", self.folder)
        self.assertEqual(status, 0, errors)
        done = subprocess.run(shlex.split(command.decode()), cwd=TOP, stdout=subprocess.PIPE)
        self.assertEqual((done.returncode, done.stdout.splitlines()[-1][:7]), (1, b"failed "))

    def test_word_of_a_question_that_nobody_knows(self):
        words = self.worded("! a comment\nreach BRANCH Vlan40 to DC1 Vlan30 proto tcp dport httpx\n")
        self.assertEqual(self.sweep(*words), (3, b"", b"refused %s line 2 BadWord httpx\n" % words[3].encode()))

    def test_parts_of_the_ingresses(self):
        links = "examples/campus/links"
        for parts in "1", "3", "9":
            words = ["compare", "examples/campus/old", "examples/campus/new", links, "--by-ingress", parts]
            self.assertEqual(self.sweep(*words)[:2], (1, read(os.path.join(TOP, "examples/campus/expected"))))

    def test_interrupted(self):
        slow = "sleep 1; exec %s \"$@\"\n" % shlex.quote(program("review"))
        self.environment["DIQENYU_REVIEW"] = self.stand_in("review", slow)
        words = ["./sweep", *COMPARE, "--folder", self.folder, "--jobs", "2"]
        running = subprocess.Popen(words, cwd=TOP, env=self.environment, start_new_session=True, stdout=subprocess.PIPE, stderr=subprocess.PIPE)
        self.assertTrue(until(lambda: len(glob.glob(self.folder + "/results/*.seq")) >= 3))
        beside = self.sweep(*COMPARE, "--folder", self.folder)
        self.assertEqual(beside, (4, b"", b"sweep: another sweep is at work in %s\n" % self.folder.encode()))
        os.killpg(running.pid, signal.SIGINT)
        output, errors = running.communicate()
        self.assertEqual((running.returncode, output), (130, b""), errors)
        kept = {path: os.stat(path).st_mtime_ns for path in whole_results(self.folder)}
        self.assertTrue(0 < len(kept) < 9)
        self.has_answer(EXAMPLE + "/failures", *COMPARE, "--folder", self.folder)
        self.assertEqual(kept, {path: os.stat(path).st_mtime_ns for path in kept})


class ByWindows(Sweeps):
    """Questions that hold without failure, of many failures by one run of `rollout`, and once more by a job for each failure."""

    def setUp(self):
        self.program = os.environ.get("DIQENYU_ROLLOUT") or built("rollout")
        if not self.program:
            self.skipTest("many failures by one run: rollout isn't built")
        super().setUp()

    def counts(self, folder):
        """How many results jobs gave, and how many windows."""
        log = read(folder + "/joblog").splitlines()[1:]
        return sum(b"job.py " in line for line in log), sum(b"\trollout " in line for line in log)

    def both(self, network, questions="questions", version="old"):
        """Asks in both ways, which write the same; gives the status, and how many results jobs and windows gave, in the first way."""
        folders = [tempfile.mkdtemp(dir=self.scratch) for _ in range(2)]
        words = ["ask"] + [os.path.join(network, name) for name in (version, "links", questions)]
        told = self.sweep(*words, "--folder", folders[0], command=ALL_WINDOWS)
        self.assertEqual(told, self.sweep(*words, "--jobs-only", "--folder", folders[1]))
        if told[0] not in (0, 1):
            return told[0], 0, 0
        jobs, held = self.counts(folders[0])
        self.assertEqual(self.counts(folders[1]), (jobs + held, 0))
        for path in glob.glob(folders[1] + "/results/*[0-9]"):
            self.assertEqual(read(path), read(path.replace(folders[1], folders[0])))
        return told[0], jobs, held

    def make(self, script, *words):
        subprocess.run([sys.executable, os.path.join(TOP, script), *map(str, words)], check=True, timeout=60)

    def test_random_networks(self):
        asked = jobs = held = 0
        for seed in range(1, 60):
            network = os.path.join(self.scratch, str(seed))
            self.make("tests/random_networks.py", network, seed)
            try:
                self.make("tests/random_windows.py", network, seed)
            except (subprocess.CalledProcessError, subprocess.TimeoutExpired):
                # What the second opinion can't judge, or not soon.
                continue
            with self.subTest(seed=seed):
                status, by_jobs, by_windows = self.both(network, "held")
            asked, jobs, held = asked + (status in (0, 1)), jobs + by_jobs, held + by_windows
            if asked == RANDOM_NETWORKS:
                break
        print("random networks: %d, %d failures by jobs, %d by windows" % (asked, jobs, held), file=sys.stderr)
        self.assertEqual(asked, RANDOM_NETWORKS)
        self.assertGreater(held, RANDOM_NETWORKS)

    def test_fabric(self):
        network = os.path.join(self.scratch, "fabric")
        self.make("bench/networks.py", "fabric", network, 3, 6)
        self.make("bench/rollout.py", network, 6, 0)
        status, jobs, held = self.both(network)
        print("fabric: %d failures by jobs, %d by windows" % (jobs, held), file=sys.stderr)
        # Each leaf that fails is missed, and nothing else is.
        self.assertEqual((status, jobs + held), (1, 27))
        self.assertLess(jobs, 16)

    def test_fails_between(self):
        # Where one end of an uplink alone is down, its other end goes on sending to it; the network of the failure has another way.
        for version in failures.VERSIONS:
            status, jobs, held = self.both(EXAMPLE, version=version)
            self.assertEqual((status, jobs + held), (1, 9))

    def test_cannot_fail_and_no_section(self):
        links = read(os.path.join(TOP, EXAMPLE, "links")).decode() + "p2p CORE1 Ethernet7 DC1 Ethernet8\n"
        network = os.path.join(self.scratch, "network")
        shutil.copytree(os.path.join(TOP, EXAMPLE), network)
        write(network + "/links", links)
        self.assertEqual(self.both(network)[0], 1)
        write(network + "/questions", "reach NONE E0 to DC1 Ethernet8\n")
        self.assertEqual(self.both(network), (3, 0, 0))

    def test_resumed_by_either_way(self):
        network = os.path.join(self.scratch, "fabric")
        self.make("bench/networks.py", "fabric", network, 2, 4)
        self.make("bench/rollout.py", network, 4, 0)
        words = ["ask"] + [os.path.join(network, name) for name in ("old", "links", "questions")] + ["--folder", self.folder]
        first = self.sweep(*words, command=ALL_WINDOWS)
        held = [line.rsplit(" ", 1)[1] for line in read(self.folder + "/joblog").decode().splitlines() if "\trollout " in line]
        self.assertGreater(len(held), 2)
        for more in ["--jobs-only"], []:
            kept = [os.path.join(self.folder, "results", identity) for identity in held[2:]]
            before = [os.stat(path).st_mtime_ns for path in kept]
            for identity in held[:2]:
                os.remove(os.path.join(self.folder, "results", identity))
            self.assertEqual(self.sweep(*words, *more), first)
            self.assertEqual([os.stat(path).st_mtime_ns for path in kept], before)

    def test_interrupted(self):
        once, real = shlex.quote(self.scratch + "/once"), shlex.quote(os.path.abspath(self.program))
        script = "mkdir %s 2>/dev/null && exec sleep 60\nexec %s \"$@\"\n" % (once, real)
        self.environment["DIQENYU_ROLLOUT"] = self.stand_in("rollout", script)
        words = [*ask_words("new"), "--folder", self.folder]
        running = subprocess.Popen(["./sweep", *words], cwd=TOP, env=self.environment, stdout=subprocess.PIPE, stderr=subprocess.PIPE)
        self.assertTrue(until(lambda: os.path.exists(self.scratch + "/once")))
        # The signal goes to the script alone, which ends what it runs.
        running.terminate()
        output, errors = running.communicate(timeout=20)
        self.assertEqual((running.returncode, output), (130, b""), errors)
        self.assertEqual(glob.glob(self.scratch + "/diqenyu-sweep-*"), [])
        kept = os.stat(self.folder + "/results/1").st_mtime_ns
        self.has_answer(EXAMPLE + "/failures-new", *words)
        self.assertEqual(kept, os.stat(self.folder + "/results/1").st_mtime_ns)

    def test_no_answer_of_rollout(self):
        expected = read(os.path.join(TOP, EXAMPLE, "failures-new"))
        for script in "exit 7", "kill -9 $$", "echo networks 2; echo rollout holds", "echo networks 2; exit 1", "echo; exit 1":
            self.environment["DIQENYU_ROLLOUT"] = self.stand_in("rollout", script + "\n")
            self.assertEqual(self.sweep(*ask_words("new")), (1, expected, b""))

    def test_what_windows_do_not_tell(self):
        self.environment["DIQENYU_ROLLOUT"] = self.stand_in("rollout", "touch %s\nexit 7\n" % shlex.quote(self.scratch + "/ran"))
        failing = write(self.scratch + "/questions", "isolate BRANCH Vlan40 to DC1 Vlan30\n")
        small = ["ask", "examples/rewired/old", "examples/rewired/links", write(self.scratch + "/small", "noloop R1 Ethernet0\n"), "--pairs"]
        for words in [*ask_words("new"), "--jobs-only"], [*ask_words("new"), "--ttl", "9"], [*ask_words("new")[:3], failing], \
                [*ask_words("new"), "--sshlogin", "2/:"], small:
            self.assertIn(self.sweep(*words)[0], (0, 1), words)
            self.assertFalse(os.path.exists(self.scratch + "/ran"), words)
        self.sweep(*ask_words("new"))
        self.assertTrue(os.path.exists(self.scratch + "/ran"))


class NoAnswer(Sweeps):
    """A sweep that has no whole answer writes none."""

    def test_usage(self):
        for words in [], ["compare"], COMPARE + ["--ttl", "0"], COMPARE + ["--pair"], ask_words("old") + ["--by-ingress", "2"]:
            status, output, errors = self.sweep(*words)
            self.assertEqual((status, output, errors.split(b"\n")[0]), (2, b"", b"usage:"))

    def test_first_refusal_as_review_tells_it(self):
        network = os.path.join(self.scratch, "net")
        write(network + "/R1.cfg", "hostname R1\nrouter ospf 1\n")
        told = b"refused %s/R1.cfg line 2 NotCovered router\n" % network.encode()
        for more in [], ["--by-ingress", "2"]:
            self.assertEqual(self.sweep("compare", network, COMPARE[2], COMPARE[3], *more), (3, b"", told))
        none = os.path.join(self.scratch, "none")
        self.assertEqual(self.sweep("compare", COMPARE[1], none, COMPARE[3]), (8, b"", b"not found %s\n" % none.encode()))

    def test_another_sweep_in_the_folder(self):
        self.assertEqual(self.sweep(*COMPARE, "--folder", self.folder)[0], 1)
        status, output, errors = self.sweep(*COMPARE, "--folder", self.folder, "--ttl", "9")
        self.assertEqual((status, output), (2, b""), errors)

    def test_dies(self):
        self.stand_ins("kill -9 $$")
        words = [*ask_words("new"), "--folder", self.folder]
        self.assertEqual(self.sweep(*words), (137, b"", b"status 137 %s\n" % UPLINK.encode()))
        # What is whole is kept, and the job that died is done again.
        self.has_answer(EXAMPLE + "/failures-new", *words)

    def test_no_memory(self):
        self.stand_ins("echo 'no memory' >&2; exit 7")
        self.assertEqual(self.sweep(*ask_words("new")), (7, b"", b"no memory\nstatus 7 %s\n" % UPLINK.encode()))

    def test_job_is_killed(self):
        self.stand_ins("kill -9 $PPID; sleep 5")
        self.assertEqual(self.sweep(*ask_words("new")), (70, b"", b"no result %s\n" % UPLINK.encode()))

    def test_refused_by_a_size(self):
        self.stand_ins("echo \"too long $2\" >&2; exit 5")
        told = b"too long %s/new\nstatus 5 %s\n" % (EXAMPLE.encode(), UPLINK.encode())
        self.assertEqual(self.sweep(*ask_words("new")), (5, b"", told))

    def test_result_or_kit_is_cut(self):
        words = [*ask_words("new"), "--folder", self.folder]
        self.has_answer(EXAMPLE + "/failures-new", *words)
        for path, size in (self.folder + "/results/3", 90), (glob.glob(self.folder + "/kit-*/old/DC1.cfg")[0], 40):
            with open(path, "r+b") as stream:
                stream.truncate(size)
            if path.endswith("3"):
                self.has_answer(EXAMPLE + "/failures-new", *words)
        os.remove(self.folder + "/results/3")
        self.assertEqual(self.sweep(*words)[:2], (70, b""))

    def stand_ins(self, what):
        """The first time that the uplink alone is down, `review` does something else."""
        once, network = shlex.quote(os.path.join(self.scratch, "once")), "$2/BRANCH.cfg"
        is_down = "grep -A4 'interface %s' " + network + " | grep -q shutdown"
        down = is_down % "GigabitEthernet0/0" + " && ! " + is_down % "Vlan40"
        script = 'if [ $# -gt 3 ] && %s && mkdir %s 2>/dev/null; then %s; fi\nexec %s "$@"\n'
        self.environment["DIQENYU_REVIEW"] = self.stand_in("review", script % (down, once, what, shlex.quote(program("review"))))


def program(name):
    """The program that a stand-in runs."""
    return os.path.abspath(os.environ.get("DIQENYU_" + name.upper()) or os.path.join(TOP, name))


def built(name):
    """The program of the sources, where it is built."""
    told = subprocess.run([os.path.join(TOP, "launch"), "--state", name], stdout=subprocess.PIPE).stdout.decode().split("\n")
    return told[1] if len(told) > 1 else ""


def whole_results(folder):
    log = read(folder + "/joblog").decode("latin-1").splitlines()[1:]
    return [os.path.join(folder, "results", line.rsplit(" ", 1)[1]) for line in log]


class Failures(unittest.TestCase):
    """What is shut down, and where it is written."""

    def shut(self, text, *interfaces):
        return failures.Configuration(text).shut(interfaces)

    def test_last_section_of_an_interface(self):
        text = "hostname R1\ninterface E0\n ip address 10.0.0.1 255.0.0.0\n!\ninterface E1\n!\ninterface E0\n no shutdown\n!\n ip nat inside\nend\n"
        wanted = text.replace(" ip nat inside\n", " ip nat inside\n shutdown\n")
        self.assertEqual(self.shut(text, "E0"), wanted)
        self.assertEqual(self.shut(text, "E1"), text.replace("interface E1\n", "interface E1\n shutdown\n"))

    def test_banner_is_no_section(self):
        text = "banner motd ^C\ninterface E9\n shut\n^C\nhostname R1\ninterface E0 point-to-point\n"
        configuration = failures.Configuration(text)
        self.assertEqual((configuration.hostname, list(configuration.ends)), ("R1", ["E0"]))
        self.assertEqual(configuration.shut(["E0"]), text + " shutdown\n")
        self.assertEqual(list(failures.Configuration("banner x #a# b\ninterface E0").ends), ["E0"])

    def test_bytes_stay(self):
        text = "hostname R1\r\ninterface\tE\xe9 \r\n\tdescription \xff\r\ninterface Null0\n x"
        self.assertEqual(self.shut(text, "E\xe9"), text.replace("\xff\r\n", "\xff\r\n shutdown\n"))

    def test_order_and_pairs(self):
        new = {"1.cfg": "hostname A\ninterface E0\ninterface E1\n", "2.cfg": "hostname B\ninterface E0\n", "3.cfg": "hostname Z\n"}
        devices = failures.Devices({"old": {"1.cfg": new["1.cfg"]}, "new": new})
        table = "p2p B E0 A E0\n! x\nlan A E1 B E7\ningress C E0\n"
        found = failures.single_failures(devices, table)
        names = ["link B E0 A E0", "end A E1", "end B E7", "device B", "device A", "device C", "device Z"]
        self.assertEqual([failure.name for failure in found], names)
        self.assertEqual(found[0].changes, {"old": {"1.cfg": ["E0"]}, "new": {"2.cfg": ["E0"], "1.cfg": ["E0"]}})
        possible = [number for number, failure in enumerate(found) if failure.is_possible()]
        self.assertEqual(possible, [0, 1, 3, 4])
        self.assertEqual(list(failures.missing_sections(devices, table)), [("new", "2.cfg", "E7")])
        # A device takes its links' ends down, so it is no pair with one of its own ends alone.
        self.assertEqual(list(failures.pairs_of(found, possible)), [(0, 1), (0, 4), (1, 3), (3, 4)])
        self.assertEqual(failures.both(found[0].changes, found[1].changes)["old"], {"1.cfg": ["E0", "E1"]})


class Steps(unittest.TestCase):
    """The way of a window through the networks of failures."""

    def setUp(self):
        self.scratch = tempfile.mkdtemp(prefix="diqenyu-test-")
        self.addCleanup(shutil.rmtree, self.scratch)
        self.texts = {name + ".cfg": "hostname %s\ninterface E0\ninterface E1\n" % name for name in "ABC"}
        for file, text in self.texts.items():
            write(os.path.join(self.scratch, "net", file), text)
        self.window = windows.Window(self.scratch, os.path.join(self.scratch, "net"))

    def shut(self, file, *interfaces):
        return failures.Configuration(self.texts[file]).shut(interfaces)

    def test_there_and_back(self):
        for changes in {"A.cfg": ["E0"], "B.cfg": ["E0"]}, {"C.cfg": ["E0"], "A.cfg": ["E1"]}, {"B.cfg": ["E0", "E1"]}:
            self.assertTrue(self.window.add(changes))
        ways = [("A.cfg", "E0"), ("B.cfg", "E0"), ("B.cfg",), ("A.cfg", "E1"), ("C.cfg", "E0"), ("C.cfg",), ("A.cfg",), ("B.cfg", "E0", "E1")]
        wanted = [self.shut(*way) for way in ways]
        self.assertEqual([read(os.path.join(self.scratch, str(step + 1))).decode() for step in range(self.window.steps)], wanted)
        self.assertEqual((self.window.places, self.window.bytes), ([2, 5, 8], sum(map(len, wanted))))

    def test_as_much_as_a_window_may_have(self):
        for name, most in ("MOST_STEPS", 4), ("MOST_BYTES", 4 * len(self.texts["A.cfg"]) + 30):
            self.addCleanup(setattr, windows, name, getattr(windows, name))
            setattr(windows, name, most)
            window = windows.Window(self.scratch, self.window.network)
            added = [window.add(changes) for changes in ({"A.cfg": ["E0"], "B.cfg": ["E0"]}, {"C.cfg": ["E0"], "B.cfg": ["E1"]}, {"A.cfg": ["E1"]})]
            self.assertEqual((added, window.places), ([True, False, True], [2, 4]))
            setattr(windows, name, 1 << 26)


class OverSsh(Sweeps):
    """A machine of its own is an sshd on the loopback address with another home folder."""

    def setUp(self):
        if not has("sshd", "ssh", "ssh-keygen", "rsync"):
            self.skipTest("jobs over ssh: openssh-server, openssh-client and rsync aren't installed")
        super().setUp()
        self.home = os.path.join(self.scratch, "home")
        self.start_sshd()

    def start_sshd(self):
        where, port = self.scratch, free_port()
        for key in "host", "key":
            subprocess.run(["ssh-keygen", "-q", "-t", "ed25519", "-N", "", "-f", os.path.join(where, key)], check=True)
        os.mkdir(self.home)
        other = self.stand_in("at-home", 'cd %s && export HOME=$PWD && exec bash -c "$SSH_ORIGINAL_COMMAND"\n' % shlex.quote(self.home))
        settings = ["Port %d" % port, "ListenAddress 127.0.0.1", "HostKey %s/host" % where, "PidFile none", "UsePAM no", "StrictModes no",
                    "PasswordAuthentication no", "PermitRootLogin prohibit-password", "AuthorizedKeysFile %s/key.pub" % where,
                    "ForceCommand " + other]
        write(where + "/sshd_config", "\n".join(settings) + "\n")
        if os.getuid() == 0:
            os.makedirs("/run/sshd", exist_ok=True)
        daemon = subprocess.Popen([shutil.which("sshd", path="/usr/sbin:/sbin:" + os.environ["PATH"]), "-D", "-f", where + "/sshd_config"],
                                  stdin=subprocess.DEVNULL, stdout=subprocess.DEVNULL, stderr=subprocess.DEVNULL)
        self.addCleanup(daemon.wait)
        self.addCleanup(daemon.terminate)
        self.environment["PARALLEL_SSH"] = "ssh -p %d -i %s/key -o BatchMode=yes -o StrictHostKeyChecking=no " \
            "-o UserKnownHostsFile=/dev/null -o LogLevel=ERROR" % (port, where)
        call = shlex.split(self.environment["PARALLEL_SSH"]) + ["127.0.0.1", "true"]
        if not until(lambda: subprocess.run(call, stdin=subprocess.DEVNULL, stderr=subprocess.DEVNULL).returncode == 0, 10):
            self.skipTest("jobs over ssh: no login at an sshd on the loopback address")

    def test_without_a_copy_and_with_one(self):
        # A folder below the home folder is one below that of the other machine, to which the kit is copied.
        self.environment["HOME"] = os.path.join(self.scratch, "here")
        folder = os.path.join(self.environment["HOME"], "swept")
        words = [*SMALL, "--folder", folder, "--jobs", "2", "--sshlogin", "127.0.0.1"]
        status, output, errors = self.sweep(*words)
        self.assertEqual((status, output), (70, b""), errors)
        self.assertEqual(self.sweep(*words, "--copy")[:2], (0, SMALL_ANSWER))
        self.assertEqual({line.split("\t")[1] for line in read(folder + "/joblog").decode().splitlines()[1:]}, {"127.0.0.1"})
        self.assertTrue(glob.glob(self.home + "/swept/kit-*/old/R1.cfg"))

    def test_both_machines_see_the_folder(self):
        words = ["--folder", self.folder, "--jobs", "2", "--sshlogin", ":", "--sshlogin", "127.0.0.1"]
        self.assertEqual(self.sweep(*SMALL, *words)[:2], (0, SMALL_ANSWER))


class BySlurm(Sweeps):
    """Slurm's own daemons on this machine; where they can't run, a script that does what sbatch is told, one task after the other."""

    def setUp(self):
        super().setUp()
        self.daemons = []
        self.addCleanup(self.stop)
        if not self.start_slurm():
            self.stop()
            print("stand-in for sbatch: Slurm's daemons don't run here (packages slurm-wlm and munge)", file=sys.stderr)
            self.stand_in("sbatch", STAND_IN)
            self.environment["PATH"] = os.path.join(self.scratch, "programs") + ":" + self.environment["PATH"]

    def daemon(self, *words):
        where = shutil.which(words[0], path="/usr/sbin:/sbin:" + os.environ["PATH"])
        self.daemons.append(subprocess.Popen([where, *words[1:]], env=self.environment, stdin=subprocess.DEVNULL,
                                             stdout=subprocess.DEVNULL, stderr=subprocess.DEVNULL))

    def stop(self):
        for daemon in reversed(self.daemons):
            daemon.terminate()
            daemon.wait()
        self.daemons = []

    def start_slurm(self):
        """Starts munged, slurmctld and slurmd with settings of their own; tells whether the one machine takes jobs."""
        if not has("munged", "slurmctld", "slurmd", "sbatch", "sinfo") or os.getuid() != 0:
            return False
        where = self.scratch
        os.chmod(where, 0o755)
        write(where + "/munge/key", os.urandom(64).hex(), 0o400)
        names = [(name, "%s/munge/%s" % (where, name)) for name in ("key-file", "socket", "pid-file", "log-file", "seed-file")]
        self.daemon("munged", "--force", "--foreground", *("--%s=%s" % (n, p.replace("key-file", "key")) for n, p in names))
        for name in "state", "spool":
            os.mkdir(os.path.join(where, name))
        self.environment["SLURM_CONF"] = write(where + "/slurm.conf", slurm_settings(where, free_port(), free_port()))
        until(lambda: os.path.exists(where + "/munge/socket"), 5)
        self.daemon("slurmctld", "-D")
        self.daemon("slurmd", "-D")
        return until(self.is_idle, 20)

    def is_idle(self):
        done = subprocess.run(["sinfo", "-h", "-o", "%T"], env=self.environment, stdout=subprocess.PIPE, stderr=subprocess.DEVNULL)
        return done.stdout.strip() == b"idle"

    def test_array_and_gathering(self):
        self.has_answer(EXAMPLE + "/failures", *COMPARE, "--slurm", "--folder", self.folder)
        # A job that died is done again, behind the others.
        os.remove(self.folder + "/results/3")
        self.has_answer(EXAMPLE + "/failures", *COMPARE, "--slurm", "--folder", self.folder)


STAND_IN = """# sbatch for a machine without Slurm: a task of an array after the other, at once.
array=none
for word in "$@"; do
    [ "$before" = --array ] && array=$word
    [ "$before" = --chdir ] && cd "$word"
    before=$word
done
if [ "$array" = none ]; then
    sh "$before" || exit 1
else
    for task in $(seq "${array%-*}" "${array#*-}"); do SLURM_ARRAY_TASK_ID=$task sh "$before"; done
fi
echo 17
"""


def slurm_settings(where, control, node):
    host = socket.gethostname().split(".")[0]
    return """ClusterName=one
SlurmctldHost=%s(127.0.0.1)
SlurmUser=root
SlurmdUser=root
AuthType=auth/munge
AuthInfo=socket=%s/munge/socket
SlurmctldPort=%d
SlurmdPort=%d
StateSaveLocation=%s/state
SlurmdSpoolDir=%s/spool
SlurmctldPidFile=%s/slurmctld.pid
SlurmdPidFile=%s/slurmd.pid
SlurmctldLogFile=%s/slurmctld.log
SlurmdLogFile=%s/slurmd.log
ProctrackType=proctrack/linuxproc
TaskPlugin=task/none
SwitchType=switch/none
MpiDefault=none
ReturnToService=2
SelectType=select/cons_tres
SelectTypeParameters=CR_Core
SchedulerParameters=batch_sched_delay=0,sched_interval=1
NodeName=%s NodeAddr=127.0.0.1 CPUs=%d State=UNKNOWN
PartitionName=all Nodes=ALL Default=YES MaxTime=INFINITE State=UP
""" % (host, where, control, node, where, where, where, where, where, where, host, os.cpu_count())


def main():
    # Words choose classes or cases, as `BySlurm`.
    os.chdir(TOP)
    if not has("parallel"):
        print("skipped: failures of links and devices: GNU parallel isn't installed (Debian: apt-get install parallel)")
        return 0
    here, loader = sys.modules["__main__"], unittest.defaultTestLoader
    suite = loader.loadTestsFromNames(sys.argv[1:], here) if sys.argv[1:] else loader.loadTestsFromModule(here)
    result = unittest.TextTestRunner(stream=sys.stderr, verbosity=0).run(suite)
    for _, reason in result.skipped:
        print("skipped: " + reason)
    return 0 if result.wasSuccessful() else 1


if __name__ == "__main__":
    sys.exit(main())
