#!/usr/bin/env python3
"""Runs `window` as its users do. DIQENYU_REVIEW, DIQENYU_VIEW and DIQENYU_DOCTOR name other programs than those of the launchers.

The doctor's warnings are those of a stand-in where a case is about what `window` does with them.
"""
import json
import os
import re
import shutil
import signal
import subprocess
import sys
import tempfile
import time
import unittest

TOP = os.path.dirname(os.path.dirname(os.path.abspath(__file__)))
sys.dont_write_bytecode = True

CAMPUS = ["examples/campus/old", "examples/campus/new", "examples/campus/links"]
EDGE_DOWN = ["examples/campus-edge-down/old", "examples/campus-edge-down/new", "examples/campus-edge-down/links"]
USAGE = b"usage:\n  window OLD NEW [LINKS] [OPTION ...]\n"

CAMPUS_TOLD = """Server subnet
To be decided: packets change (opens 3); packets change at edges that are no ingress: loops, opens at ACC2 Vlan11 and 2 more.
3 findings, 3 edges that are no ingress
packets: something changes at 2 of 4 ingresses, 30 rows; 4 of 9 edges are ingresses
1 opens: gets through now, at 2 ingresses: ACC1 Vlan11, BRANCH Vlan40
    from their sources to 10.30.20.0/24 (but 10.30.20.1, 10.30.20.255): tcp 443 (https)
    drop -> exit DC1 GigabitEthernet0/3
    as tcp 10.11.1.20:49152 -> 10.30.20.74:443 syn
2 opens: gets through now, at ACC1 Vlan11
    from 10.11.1.0/24 to 10.30.20.1: tcp 443 (https)
    drop -> local DC1 GigabitEthernet0/3
    as tcp 10.11.1.20:49152 -> 10.30.20.1:443 syn
    likewise 3, at BRANCH Vlan40: from 10.40.0.0/24 to 10.30.20.1: any
edge: ACC2 Vlan11 (10.11.2.1/24) is no ingress, on a device that the change touches; packets that come in there: opens
edge: DC1 GigabitEthernet0/2 (10.30.10.1/24) is no ingress, on a device that the change touches; packets that come in there: opens
edge: DC1 GigabitEthernet0/3 (10.30.20.1/24) is no ingress, on a device that the change touches; packets that come in there: opens, loops
questions: 26, all hold
prepared: 21 lines of 14 files; --keep FOLDER keeps the texts and the table
"""
EDGE_DOWN_TOLD = ["fails now: questions:13 noloop BRANCH Vlan40 dst 10.128.0.0/9: protocol 0 10.40.0.0 -> 10.128.0.0",
                  "questions: 8, of which 1 fails only now"]
SAME_TOLD = """examples/campus/old -> examples/campus/old
Nothing changes for any packet.
packets: nothing changes: both folders have the same 11 files, byte for byte; 4 of 8 edges are ingresses
questions: none asked
prepared: 15 lines of 9 files; --keep FOLDER keeps the texts and the table
"""


def read(path):
    with open(path, encoding="utf-8") as stream:
        return stream.read()


def write(path, text, mode=0o644):
    os.makedirs(os.path.dirname(path), exist_ok=True)
    with open(path, "w", encoding="utf-8") as stream:
        stream.write(text)
    os.chmod(path, mode)
    return path


class Windows(unittest.TestCase):
    """A scratch folder, and calls of `window` with a doctor that says what a case wants."""

    def setUp(self):
        self.scratch = tempfile.mkdtemp(prefix="diqenyu-test-")
        self.addCleanup(shutil.rmtree, self.scratch)
        self.temporary = os.path.join(self.scratch, "temporary")
        os.mkdir(self.temporary)
        self.page = os.path.join(self.scratch, "page.html")
        self.environment = dict(os.environ, TMPDIR=self.temporary)
        self.doctor_says([])

    def stand_in(self, name, script):
        """Puts a script in the place of a program."""
        self.environment["DIQENYU_" + name.upper()] = write(os.path.join(self.scratch, "programs", name), "#!/bin/bash\n" + script, 0o755)

    def doctor_says(self, warnings, limits=()):
        """The stand-in for the doctor writes a document with these warnings, and with these limits of the model, each at `links:1`."""
        def warning(line):
            found = re.fullmatch(r"(.*?):(\d+): (.*)", line)
            return {"file": found[1], "line": int(found[2]), "kind": "place", "says": found[3]} if found else {
                "file": "links", "kind": "place", "says": line}

        document = {"schema": "diqenyu-doctor", "version": 1, "warnings": [warning(line) for line in warnings], "lines": [],
                    "limits": [{"file": "links", "line": 1, "words": words, "kind": "ethernet", "says": "as it is"} for words in limits]}
        said = write(os.path.join(self.scratch, "said"), json.dumps(document))
        self.stand_in("doctor", "cat %s; exit %d\n" % (said, bool(warnings)))

    def window(self, *words):
        """The status, the output and the error lines. Nothing stays of what it wrote for itself."""
        done = subprocess.run(["./window", *words], cwd=TOP, env=self.environment, stdin=subprocess.DEVNULL, stdout=subprocess.PIPE,
                              stderr=subprocess.PIPE)
        self.assertEqual(os.listdir(self.temporary), [])
        return done.returncode, done.stdout.decode(), done.stderr.decode()

    def test_campus(self):
        status, output, errors = self.window(*CAMPUS, "--questions", "examples/campus/questions", "--title=Server subnet", "--no-lines")
        self.assertEqual((output, status), (CAMPUS_TOLD, 1), errors)

    def test_without_a_table(self):
        """The tables are those that wire writes of the configurations; both are told, and kept where that is asked."""
        kept = os.path.join(self.scratch, "kept")
        status, output, errors = self.window(*CAMPUS[:2], "--no-lines", "--keep", kept)
        self.assertEqual(status, 1, errors)
        self.assertEqual(output.splitlines()[1:3], [
            "links of old: none was named, so wire found 12 links and 8 ingresses; --keep FOLDER keeps the table",
            "links of new: none was named, so wire found 12 links and 9 ingresses; --keep FOLDER keeps the table"])
        for name in ("old", "new"):
            with open(os.path.join(kept, "links-of-" + name), encoding="utf-8") as stream:
                self.assertIn("lan BRANCH GigabitEthernet0/0 CORE2 GigabitEthernet0/5", stream.read().splitlines())

    def test_question_that_fails_only_afterwards(self):
        status, output, errors = self.window(*EDGE_DOWN, "--questions", "examples/campus-edge-down/questions")
        self.assertEqual(([line for line in output.splitlines() if "question" in line][2:], status), (EDGE_DOWN_TOLD, 9), errors)
        self.assertIn("1 question fails now", output.splitlines()[1])

    def test_nothing_changes(self):
        status, output, errors = self.window(CAMPUS[0], CAMPUS[0], CAMPUS[2])
        self.assertEqual((output, status), (SAME_TOLD, 0), errors)

    def test_warning_alone(self):
        self.doctor_says(["links:3: R9 isn't there"])
        status, output, errors = self.window(CAMPUS[0], CAMPUS[0], CAMPUS[2])
        self.assertEqual((output.splitlines()[1:3], status), (["To be decided: a standing warning.", "1 standing warning"], 1), errors)

    def test_warning_of_the_change(self):
        self.doctor_says(["links:3: R9 Ethernet0 is shut in the new network"])
        status, output, errors = self.window(*CAMPUS)
        self.assertIn("; 1 new warning; ", output.splitlines()[1])
        self.assertIn("new warning: links:3: R9 Ethernet0 is shut in the new network", output.splitlines(), errors)
        self.assertEqual(status, 1)

    def test_many_warnings(self):
        self.doctor_says(["warning %d" % number for number in range(1, 8)])
        status, output, errors = self.window(*CAMPUS, "--questions", "examples/campus/questions", "--no-lines")
        self.assertEqual(status, 1, errors)
        self.assertIn("standing warnings: 7, as in the old network; all by --json", output.splitlines())

    def test_limits(self):
        self.doctor_says(["links:3: R9 isn't there"], ["p2p on Ethernet", "p2p on Ethernet"])
        status, output, errors = self.window(CAMPUS[0], CAMPUS[0], CAMPUS[2])
        self.assertEqual((output.splitlines()[1:3], status), (["To be decided: a standing warning.", "1 standing warning"], 1), errors)
        self.assertNotIn("p2p on Ethernet", output)

    def test_many_ingresses(self):
        users = "".join("interface Ethernet%d\n ip address 10.%d.0.1 255.255.255.0\n" % (number, number) for number in range(1, 6))
        links = write(os.path.join(self.scratch, "links"), "".join("ingress R1 Ethernet%d\n" % number for number in range(1, 6)))
        out = "hostname R1\n" + users + "interface Serial0\n ip address 192.0.2.1 255.255.255.252\n"
        write(os.path.join(self.scratch, "old", "R1.cfg"), out)
        write(os.path.join(self.scratch, "new", "R1.cfg"), out + "ip route 10.9.0.0 255.255.0.0 Serial0\n")
        status, output, errors = self.window(os.path.join(self.scratch, "old"), os.path.join(self.scratch, "new"), links)
        self.assertEqual(status, 1, errors)
        self.assertEqual(output.splitlines()[1:7], [
            "To be decided: packets change (opens 1); packets change at edges that are no ingress: opens at R1 Serial0.",
            "All of it comes of R1.cfg:14 + ip route 10.9.0.0 255.255.0.0 Serial0. Without it packets don't change.",
            "1 finding, 1 edge that is no ingress",
            "packets: something changes at 5 of 5 ingresses, 5 rows; 5 of 6 edges are ingresses",
            "1 opens: gets through now, at 5 ingresses: R1 Ethernet1, R1 Ethernet2, R1 Ethernet3 and 2 more",
            "    from their sources to 10.9.0.0/16: any"])

    def test_new_links(self):
        here = "examples/rewired/"
        status, output, errors = self.window(here + "old", here + "new", here + "links", "--newlinks", here + "newlinks")
        self.assertEqual((status, output.splitlines()[1]), (1, "To be decided: packets change (opens 1)."), errors)

    def test_page(self):
        status, _, errors = self.window(*CAMPUS, "--page", self.page)
        self.assertEqual(status, 1, errors)
        self.assertIn("10.30.20.1", read(self.page))
        self.assertEqual([name for name in os.listdir(self.scratch) if name.startswith(".window")], [])

    def test_page_that_cannot_be_written(self):
        status, output, errors = self.window(*CAMPUS, "--page", os.path.join(self.scratch, "none", "page.html"))
        self.assertEqual((status, output), (6, ""))
        self.assertEqual(errors.splitlines()[-1], "cannot write %s/none/page.html" % self.scratch)

    def test_refused(self):
        write(os.path.join(self.scratch, "new", "R1.cfg"), "hostname R1\nrouter ospf 1\n")
        told = ["%s/new/R1.cfg:2: refused NotCovered router" % self.scratch, "limit: router ospf (1), first links:1: as it is"]
        self.doctor_says(told[:1], ["router ospf"])
        status, output, errors = self.window(CAMPUS[0], self.scratch + "/new", CAMPUS[2], "--page", self.page)
        self.assertEqual((status, output), (3, ""))
        self.assertEqual(errors.splitlines()[-3:], told + ["refused %s/new/R1.cfg line 2 NotCovered router" % self.scratch])
        self.assertFalse(os.path.exists(self.page))

    def test_questions_that_are_refused(self):
        questions = write(os.path.join(self.scratch, "questions"), "touch R1\n")
        status, output, errors = self.window(*CAMPUS, "--questions", questions, "--page", self.page)
        self.assertEqual((status, output, errors.splitlines()[-1]), (3, "", "refused %s line 1 BadWord touch" % questions))
        self.assertFalse(os.path.exists(self.page))

    def test_folder_that_is_not_there(self):
        self.stand_in("doctor", "echo 'not found nowhere' >&2; exit 8\n")
        self.assertEqual(self.window("nowhere", *CAMPUS[1:]), (8, "", "not found nowhere\n"))

    def test_words(self):
        for words in ([], CAMPUS[:1], CAMPUS[:2] + ["--newlinks", "a"], CAMPUS + ["links"], CAMPUS + ["--all"], CAMPUS + ["--page"],
                      CAMPUS + ["--page", "a", "--page", "b"], ["", *CAMPUS[1:]], ["--help", *CAMPUS]):
            status, output, errors = self.window(*words)
            self.assertEqual((status, output), (2, ""), words)
            self.assertTrue(errors.encode().startswith(USAGE), words)

    def test_help_and_version(self):
        status, output, errors = self.window("--help")
        self.assertEqual((status, errors), (0, ""))
        self.assertTrue(output.encode().startswith(USAGE))
        status, output, errors = self.window("--version")
        self.assertEqual((status, errors), (0, ""))
        self.assertEqual(output, "window of Diqenyu %s, schema 1\n" % read(os.path.join(TOP, "VERSION")).strip())

    def test_interrupted(self):
        begun = os.path.join(self.scratch, "begun")
        self.stand_in("review", "touch %s; exec sleep 60\n" % begun)
        running = subprocess.Popen(["./window", *CAMPUS, "--page", self.page], cwd=TOP, env=self.environment, stdin=subprocess.DEVNULL,
                                   stdout=subprocess.PIPE, stderr=subprocess.PIPE)
        end = time.monotonic() + 30
        while not os.path.exists(begun) and time.monotonic() < end:
            time.sleep(0.05)
        running.send_signal(signal.SIGTERM)
        output, errors = running.communicate(timeout=30)
        self.assertEqual((running.returncode, output, errors), (130, b"", b"window: interrupted\n"))
        self.assertEqual(os.listdir(self.temporary), [])
        self.assertFalse(os.path.exists(self.page))

    def test_output_that_is_full(self):
        if not os.path.exists("/dev/full"):
            self.skipTest("/dev/full isn't there")
        with open("/dev/full", "wb") as full:
            done = subprocess.run(["./window", *CAMPUS], cwd=TOP, env=self.environment, stdin=subprocess.DEVNULL, stdout=full,
                                  stderr=subprocess.PIPE)
        self.assertEqual((done.returncode, done.stderr.decode().splitlines()[-1]), (6, "cannot write"))


if __name__ == "__main__":
    unittest.main(verbosity=1)
