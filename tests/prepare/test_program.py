"""The program as its users call it: words, statuses, what is written, and what a new user tries."""
import io
import os
import shutil
import signal
import subprocess
import unittest
from unittest import mock

import helpers

from launching import progress
from preparing import preparation, processes
from preparing.command_line import PrepareWords
from preparing.faults import Fault, Faults, ProcessDied

USAGE = """usage:
  prepare CONFIGS OUT [--routes FOLDER] [--vrf NAME] [--keep-static] [--active FILE] [--waivers FILE]
          [--as-written] [--check]
  prepare --apply TICKETS OLD NEW [--check]
"""
R1 = ["hostname R1", "interface Ethernet0", " ip address 10.0.0.1 255.255.255.0"]


class Words(helpers.Folders):
    """The words of the command line."""

    def test_outside_the_usage(self):
        self.write("raw/R1.cfg", R1)
        for words in ([], ["raw"], ["raw", "out", "more"], ["raw", ""], ["--help"], ["raw", "out", "--vrf"], ["raw", "out", "--vrf="],
                      ["raw", "out", "--check=1"], ["raw", "out", "--check", "--check"], ["raw", "out", "--keep-static"],
                      ["raw", "out", "--vrf", "--check"], ["--apply", "raw", "out"], ["--apply", "t", "raw", "out", "--vrf", "A"],
                      ["raw", "out", "-x"]):
            with self.subTest(words=words):
                self.assert_refused(2, USAGE.rstrip("\n").split("\n"), *words)
        self.assert_refused(2, ["usage:", "  collect INVENTORY OUT"], "inventory", program="collect")

    def test_words_after_the_end_of_options(self):
        self.write("--raw/R1.cfg", R1)
        self.assertEqual(self.run_program("prepare", "--", "--raw", "out")[0], 0)
        self.assertEqual(self.read("out/R1.cfg"), self.read("--raw/R1.cfg"))


class Statuses(helpers.Folders):
    """What is refused, and that nothing is written then."""

    def test_not_there(self):
        self.assert_refused(8, ["not found raw"], "raw", "out")
        os.mkdir(self.path("raw"))
        self.assert_refused(8, ["not found raw/*.cfg"], "raw", "out")
        self.write("raw/R1.txt", R1)
        self.assert_refused(8, ["not found raw/*.cfg"], "raw", "out")
        self.write("raw/R1.cfg", R1)
        self.assert_refused(8, ["not found routes"], "raw", "out", "--routes", "routes")
        os.mkdir(self.path("routes"))
        self.assert_refused(8, ["not found routes/R1.txt"], "raw", "out", "--routes", "routes")
        self.assert_refused(8, ["not found active"], "raw", "out", "--active", "active")

    def test_cannot_read(self):
        os.makedirs(self.path("raw/R1.cfg"))
        self.assert_refused(4, ["cannot read raw/R1.cfg"], "raw", "out")
        self.write("file", ["x"])
        self.assert_refused(4, ["cannot read file"], "file", "out")

    def test_cannot_write(self):
        self.write("raw/R1.cfg", R1)
        self.write("full/file", ["x"])
        self.write("file", ["x"])
        self.assert_refused(6, ["cannot write full: it is there and not an empty folder"], "raw", "full", out="out")
        self.assert_refused(6, ["cannot write file: it is there and not an empty folder"], "raw", "file", out="out")
        self.assert_refused(6, ["cannot write raw: it is there and not an empty folder"], "raw", "raw", out="out")
        status, told = self.run_program("prepare", "raw", "no/out")
        self.assertEqual((status, told.startswith("cannot write no/out: there is no folder ")), (6, True))

    def test_empty_folder_takes_it(self):
        self.write("raw/R1.cfg", R1)
        os.mkdir(self.path("out"))
        self.assertEqual(self.run_program("prepare", "raw", "out/")[0], 0)
        self.assertEqual(sorted(os.listdir(self.folder)), ["out", "raw"])

    def test_first_faults_of_all_files(self):
        self.write("raw/A.cfg", ["hostname A", "access-list 101 permit ip object-group X any", "access-list 101 permit ip object-group Y any"])
        self.write("raw/B.cfg", ["!"])
        self.write("raw/C.cfg", ["hostname C", "banner motd #", "never closed"])
        self.write("routes/A.txt", ["what is this"])
        self.write("routes/B.txt", [])
        self.write("routes/C.txt", [])
        self.assert_refused(3, [
            "refused raw/A.cfg line 2 UnknownGroup X", "refused raw/B.cfg line 0 NoHostname", "refused raw/C.cfg line 2 BannerOpen",
            "refused routes/A.txt line 1 UnknownLine what", "refused routes/B.txt line 0 NoTable", "refused routes/C.txt line 0 NoTable",
        ], "raw", "out", "--routes", "routes")

    def test_hostname_twice(self):
        self.write("raw/A.cfg", ["hostname R1"])
        self.write("raw/B.cfg", ["hostname R1"])
        self.assert_refused(3, ["refused raw/B.cfg hostname taken by raw/A.cfg"], "raw", "out")


class Texts(helpers.Folders):
    """Texts as they come."""

    def test_windows(self):
        self.write("raw/R1.cfg", b"\xef\xbb\xbf" + "".join(line + "\r\n" for line in R1).encode())
        status, told = self.run_program("prepare", "raw", "out")
        self.assertEqual((status, self.read("out/R1.cfg").split("\n")[:-1]), (0, R1))
        self.assertEqual(told.split("\n")[1:3], [
            "  all  left out  a byte order mark before the first line: the verifier's lines end at a line feed",
            "  all  left out  the carriage returns at the ends of 3 lines: the verifier's lines end at a line feed"])

    def test_pager_and_controls(self):
        for content, wanted in (
            (b"hostname R1\n --More-- interface Ethernet0\n", "line 2 Paged --More--"),
            (b"hostname R1\n<--- More ---> interface Ethernet0\n", "line 2 Paged --- More ---"),
            (b"hostname R1\n interface --More-- \n", "line 2 Paged --More--"),
            (b"hostname R1\n\x08\x08 interface Ethernet0\n", "line 2 ControlCharacter 0x08"),
            ("hostname R1\n".encode("utf-16"), "line 1 ControlCharacter 0x00"),
        ):
            self.write("raw/R1.cfg", content)
            self.assert_refused(3, ["refused raw/R1.cfg " + wanted], "raw", "out")

    def test_pagers_that_are_wiped(self):
        """What a terminal shows of a pager is cut out, where it is wiped or stands alone; lines keep their numbers."""
        backs = b"\x08" * 9
        for content in (b" --More-- " + backs + b"        " + backs + R1[2].encode() + b"\n", b" --More-- \r         \r" + R1[2].encode() + b"\n",
                        b"--More--\r\x1b[K" + R1[2].encode() + b"\n", b"<--- More --->\n" + R1[2].encode() + b"\n",
                        b" --More-- \n" + backs + b"         " + backs + R1[2].encode() + b"\n"):
            self.write("raw/R1.cfg", (R1[0] + "\n" + R1[1] + "\n").encode() + content)
            shutil.rmtree(self.path("out"), ignore_errors=True)
            status, told = self.run_program("prepare", "raw", "out")
            self.assertEqual((status, self.read("out/R1.cfg").split("\n")[:-1]), (0, R1), content)
            self.assertRegex(told.split("\n")[1], "  3  left out  -+ ?More ?-+: a pager's mark")

    def test_other_bytes_and_names(self):
        content = b"hostname R1\ninterface Ethernet0\n description caf\xe9 \xc2\xa0 \xe2\x80\xa8 x\n ip address 10.0.0.1 255.255.255.0\n"
        self.write("raw/R 1 \u00e9.cfg", content)
        self.write("raw/notes.txt", ["x"])
        status, told = self.run_program("prepare", "raw", "out")
        self.assertEqual((status, told), (0, "raw/R 1 \u00e9.cfg, R1\n  nothing was changed\nraw/notes.txt: not read, its name doesn't end in .cfg\n"))
        with open(self.path("out/R 1 \u00e9.cfg"), "rb") as file:
            self.assertEqual(file.read(), content)
        with open(os.path.join(os.fsencode(self.folder), b"raw", b"R\xff.cfg"), "wb") as file:
            file.write(b"hostname R2\naccess-list 101 permit ip object-group \xe9 any\n")
        done = subprocess.run([os.path.join(helpers.TOP, "prepare"), "raw", "more"], cwd=self.folder, capture_output=True, check=False)
        self.assertEqual((done.returncode, done.stderr), (3, b"refused raw/R\xff.cfg line 2 UnknownGroup \xe9\n"))

    def test_banner_is_no_command(self):
        lines = ["hostname R1", "banner motd ^C", "router ospf 1", "interface Ethernet9", " switchport", "^C"] + R1[1:]
        self.write("raw/R1.cfg", lines)
        status, told = self.run_program("prepare", "raw", "out")
        self.assertEqual((status, told, self.read("out/R1.cfg").split("\n")[:-1]), (0, "raw/R1.cfg, R1\n  nothing was changed\n", lines))

    def test_examples_stay(self):
        """What the verifier accepts already is written as it was, byte for byte, where nothing is written as a router runs it."""
        folder = os.path.join(helpers.TOP, "examples")
        for name in sorted(os.listdir(folder)):
            old = os.path.join(folder, name, "old")
            if name != "ospf" and os.path.isdir(old):
                self.assertEqual(self.run_program("prepare", old, name, "--as-written")[0], 0)
                for file in os.listdir(old):
                    with open(os.path.join(old, file), "rb") as one, open(self.path(name, file), "rb") as two:
                        self.assertEqual(one.read(), two.read())

    def test_error_output_that_is_closed(self):
        self.write("raw/R1.cfg", R1)
        done = subprocess.run("%s raw out 2>&-" % os.path.join(helpers.TOP, "prepare"), cwd=self.folder, shell=True, check=False)
        self.assertEqual((done.returncode, os.listdir(self.path("out"))), (0, ["R1.cfg"]))


class Example(helpers.Folders):
    """The six routers of the example."""

    def setUp(self):
        super().setUp()
        self.example = os.path.join(helpers.TOP, "examples", "ospf")
        shutil.copytree(self.example, self.path("examples/ospf"))
        helpers.set_day(self.path("examples/ospf/routes"))

    def assert_same(self, one, two):
        self.assertEqual(sorted(os.listdir(one)), sorted(os.listdir(two)))
        for name in os.listdir(one):
            with open(os.path.join(one, name), "rb") as first, open(os.path.join(two, name), "rb") as second:
                self.assertEqual(first.read(), second.read(), name)

    def told(self, name):
        with open(os.path.join(self.example, name), encoding="utf-8") as file:
            return file.read()

    def test_tickets(self):
        found = self.run_program("prepare", "--apply", "examples/ospf/tickets", "examples/ospf/devices/old", "devices")
        self.assertEqual(found, (0, self.told("told-tickets")))
        self.assert_same(self.path("devices"), os.path.join(self.example, "devices/new"))

    def test_prepared(self):
        for version in ("old", "new"):
            found = self.run_program("prepare", "examples/ospf/devices/" + version, version, "--routes", "examples/ospf/routes")
            self.assertEqual(found, (0, self.told("told-" + version)))
            self.assert_same(self.path(version), os.path.join(self.example, version))

    @helpers.needs_review
    def test_report(self):
        words = [os.path.join(self.example, name) for name in ("old", "new", "links")]
        done = subprocess.run([helpers.BUILT, "compare"] + words, capture_output=True, check=False)
        self.assertEqual((done.returncode, done.stdout.decode()), (1, self.told("expected")))

    def test_second_opinion(self):
        words = [os.path.join(self.example, name) for name in ("old", "new", "links")]
        done = subprocess.run(["/usr/bin/python3", os.path.join(helpers.TOP, "tests/rules.py")] + words, capture_output=True, check=True)
        self.assertEqual(done.stdout.decode(), self.told("expected"))


@helpers.needs_review
class Check(helpers.Folders):
    """What the verifier still refuses is told at the places of the texts that were given."""

    def test_all_files(self):
        self.write("raw/R1.cfg", R1 + [
            "ipv6 unicast-routing", "interface Ethernet1", " ipv6 enable", " ip pim sparse-mode", "router ospf 1", " shutdown"])
        self.write("raw/R2.cfg", [
            "!", "hostname R2", "object-group network A", " host 10.0.0.1", "ip access-list extended L", " permit ip object-group A any fragments"])
        self.write("raw/R3.cfg", ["hostname R3"])
        self.assert_refused(3, [
            "refused raw/R1.cfg line 7 NotCovered pim",
            "refused raw/R1.cfg line 8 NotCovered router", "refused raw/R2.cfg line 6 NotCovered fragments"], "raw", "out", "--check")
        self.assertEqual(self.run_program("prepare", "raw", "out")[0], 0)

    def test_place_in_a_table(self):
        self.write("raw/R1.cfg", R1)
        self.write("routes/R1.txt", [
            "Gateway of last resort is not set", "C    192.168.0.0/16 is directly connected, Ethernet0", "S    10.0.0.0/8 [1/0] via 10.0.0.2"])
        self.write("raw/R1.cfg", ["hostname R1", "interface Ethernet0", " ip address 192.168.0.1 255.255.0.0", "interface Ethernet1",
                                  " ip address 192.168.7.1 255.255.255.0"])
        self.assert_refused(3, ["refused raw/R1.cfg line 5 OverlapOnDevice 192.168.7.1"], "raw", "out", "--check", "--routes", "routes")

    def test_a_program_that_is_not_there(self):
        self.write("raw/R1.cfg", R1)
        status, told = self.run_program("prepare", "raw", "out", "--check", environment={})
        self.assertEqual(status, 0, told)
        done = subprocess.run([os.path.join(helpers.TOP, "prepare"), "raw", "more", "--check"], cwd=self.folder, capture_output=True, check=False,
                              env=dict(os.environ, DIQENYU_REVIEW="/no/such/program"))
        self.assertEqual((done.returncode, done.stderr), (70, b"review: no program /no/such/program\n"))


class SideBySide(helpers.Folders):
    """Many files are prepared by several processes: the same is written and told, in the same order."""

    def prepared(self, processors, out, **options):
        """The lines that are told, or those of the faults, and the files that are written, by so many processors."""
        here = self.path(out)
        with mock.patch.object(processes, "LONG", 0), mock.patch.object(processes, "processors", lambda: processors):
            try:
                told = preparation.prepare(PrepareWords(self.path("raw"), here, **options))
            except Faults as several:
                return [fault.line() for fault in several.faults], None
            except Fault as fault:
                return [fault.line()], None
        written = []
        for name in sorted(os.listdir(here)):
            with open(os.path.join(here, name), "rb") as file:
                written.append((name, file.read()))
        return told, written

    def assert_same(self, count, **options):
        """One processor and several do the same; what that is."""
        found = self.prepared(1, "one", **options), self.prepared(count, "several", **options)
        helpers.remove_folder(self.path("one"))
        helpers.remove_folder(self.path("several"))
        self.assertEqual(found[0], found[1])
        return found[1]

    def setUp(self):
        super().setUp()
        for number in range(40):
            self.write("raw/R%d.cfg" % number, ["hostname R%d" % number, "interface Ethernet0", " ip address 10.0.%d.1 255.255.255.0" % number,
                                                "ip route 0.0.0.0 0.0.0.0 10.0.%d.2" % number, "ipv6 unicast-routing"])

    def test_texts(self):
        told, written = self.assert_same(3)
        self.assertEqual(len(written), 40)
        self.assertEqual([line for line in told if not line.startswith(" ")],
                         ["%s, %s" % (self.path("raw", name + ".cfg"), name) for name in sorted("R%d" % number for number in range(40))])
        self.assertIn(("R7.cfg", b"hostname R7\ninterface Ethernet0\n ip address 10.0.7.1 255.255.255.0\n"
                       b"ip route 0.0.0.0 0.0.0.0 Ethernet0 10.0.7.2\n"), written)

    def test_progress(self):
        """A terminal is told how far it is where that takes a while; nothing of it stays."""
        for is_terminal, patience in ((True, -1), (True, 60), (False, -1)):
            told = io.StringIO()
            told.isatty = lambda is_terminal=is_terminal: is_terminal
            with mock.patch.object(progress, "PATIENCE", patience), mock.patch.object(progress.sys, "stderr", told):
                self.assertEqual(len(self.prepared(3, "out")[1]), 40)
            helpers.remove_folder(self.path("out"))
            seen = is_terminal and patience < 0
            self.assertEqual("\rpreparing: 40 of 40 files, " in told.getvalue(), seen)
            self.assertEqual(told.getvalue()[-4:], "\r\033[K" if seen else "")

    def test_process_that_is_killed(self):
        def work(item):
            if item == 20:
                os.kill(os.getpid(), signal.SIGKILL)
            return item

        with mock.patch.object(processes, "processors", lambda: 3):
            with self.assertRaises(ProcessDied) as caught:
                processes.for_each(list(range(40)), work, processes.LONG)
        self.assertEqual((caught.exception.status, caught.exception.line()), (7, "no memory: a process that prepared files died"))

    def test_faults(self):
        self.write("raw/R31.cfg", ["!"])
        self.write("raw/R5.cfg", ["hostname R5", "ip access-list extended L", " permit ip object-group X any"])
        told, _ = self.assert_same(3)
        self.assertEqual(told, ["refused %s line 0 NoHostname" % self.path("raw/R31.cfg"), "refused %s line 3 UnknownGroup X" % self.path("raw/R5.cfg")])
        self.write("raw/R31.cfg", ["hostname R6"])
        self.write("raw/R5.cfg", ["hostname R5"])
        told, _ = self.assert_same(3)
        self.assertEqual(told, ["refused %s hostname taken by %s" % (self.path("raw/R6.cfg"), self.path("raw/R31.cfg"))])

    def test_a_step_that_fails(self):
        """No file of tables is wrong, but two of them are of other devices: both are told, and the hostname that stands twice before them."""
        for number in range(40):
            self.write("routes/R%d.txt" % number, ["Gateway of last resort is not set", "C    10.0.%d.0/24 is directly connected, Ethernet0"
                                                   % (number if number not in (3, 9) else 200)])
        told, _ = self.assert_same(3, routes=self.path("routes"))
        self.assertEqual(told, ["refused %s line 2 OtherDevice R%d" % (self.path("routes/R%d.txt" % number), number) for number in (3, 9)])
        self.write("raw/R31.cfg", ["!"])
        told, _ = self.assert_same(3, routes=self.path("routes"))
        self.assertEqual(told, ["refused %s line 0 NoHostname" % self.path("raw/R31.cfg")])
        self.write("raw/R31.cfg", ["hostname R6", "interface Ethernet0", " ip address 10.0.31.1 255.255.255.0"])
        told, _ = self.assert_same(3, routes=self.path("routes"))
        self.assertEqual(told, ["refused %s hostname taken by %s" % (self.path("raw/R6.cfg"), self.path("raw/R31.cfg"))])

    @helpers.needs_review
    def test_waivers_and_check(self):
        for number in (4, 33):
            with open(self.path("raw/R%d.cfg" % number), "a", encoding="utf-8") as file:
                file.write("router ospf 1\nrouter rip\n")
        with mock.patch.dict(os.environ, DIQENYU_REVIEW=helpers.BUILT):
            told, _ = self.assert_same(3, check=True)
            self.assertEqual(told, ["refused %s line %d NotCovered router" % (self.path("raw/R%d.cfg" % number), line)
                                    for number in (33, 4) for line in (6, 7)])
            path = self.write("waivers", ["R4 router .. : no protocol", "R33 router ospf 1 : not this one", "R33 router rip : nor this"])
            self.assertEqual(len(self.assert_same(3, check=True, waivers=path)[1]), 40)
            self.write("waivers", ["R4 router .. : no protocol", "R9 router .. : it has none"])
            self.assertEqual(self.assert_same(3, waivers=path)[0], ["refused %s line 2 NotThere R9 router .." % path])


if __name__ == "__main__":
    unittest.main()
