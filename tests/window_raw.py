#!/usr/bin/env python3
"""Runs `window` on folders as devices show them, and tries what it is made of. DIQENYU_REVIEW, DIQENYU_VIEW and DIQENYU_DOCTOR name
other programs than those of the launchers."""
import os
import re
import shutil
import subprocess
import sys
import tempfile
import unittest

TOP = os.path.dirname(os.path.dirname(os.path.abspath(__file__)))
sys.dont_write_bytecode = True
sys.path[:0] = [os.path.join(TOP, "windowing"), TOP]

from origin import Origins, Place, Source  # noqa: E402


class Places(unittest.TestCase):
    """Lines of prepared texts as lines of the engineer's files."""

    def setUp(self):
        self.origins = Origins()
        self.origins.add("run/new/DIST1.cfg", "raw/new/DIST1.cfg", "routes/DIST1.txt", [
            Source("raw/new/DIST1.cfg", 0), Source("raw/new/DIST1.cfg", 1), Source("raw/new/DIST1.cfg", 80, 60),
            Source("routes/DIST1.txt", 12), Source("tickets/DIST1.txt", 7)])

    def test_place(self):
        for line, wanted in ((1, None), (2, Place("raw/new/DIST1.cfg", 1, None)), (3, Place("raw/new/DIST1.cfg", 80, 60)), (4, None),
                             (5, Place("tickets/DIST1.txt", 7, None)), (6, None), (0, None)):
            self.assertEqual(self.origins.place("run/new/DIST1.cfg", line), wanted, line)

    def test_shown(self):
        for line, wanted in ((1, "DIST1.cfg (from prepare)"), (2, "DIST1.cfg:1"), (3, "DIST1.cfg:80"),
                             (4, "DIST1.cfg (from its route table)"), (5, "DIST1.txt:7"), (6, "DIST1.cfg (from prepare)")):
            self.assertEqual(self.origins.shown("run/new/DIST1.cfg", line), wanted, line)

    def test_own_files_are_their_own(self):
        self.assertEqual(Origins().place("old/R1.cfg", 4), Place("old/R1.cfg", 4, None))
        self.assertEqual(Origins().shown("change/old/R1.cfg", 4), "R1.cfg:4")
        self.assertEqual(self.origins.place("run/links", 4), Place("run/links", 4, None))

    def test_names_of_revisions(self):
        self.origins.rewritten("run/new/DIST1.cfg:2")
        self.origins.call("raw/new/DIST1.cfg", "v2:configs/DIST1.cfg")
        self.assertEqual(self.origins.place("run/new/DIST1.cfg", 3), Place("v2:configs/DIST1.cfg", 80, 60))
        self.assertEqual(self.origins.rewritten("refused run/new/DIST1.cfg line 2 NotCovered x"), "refused v2:configs/DIST1.cfg line 1 NotCovered x")

    def test_told_by_programs(self):
        for told, wanted in (
            ("refused run/new/DIST1.cfg line 2 NotCovered router\n", "refused raw/new/DIST1.cfg line 1 NotCovered router\n"),
            ("refused run/new/DIST1.cfg line 0 NoHostname", "refused raw/new/DIST1.cfg line 0 NoHostname"),
            ("run/new/DIST1.cfg:3: entry 60000 of list A has a mask", "raw/new/DIST1.cfg:80: entry 60 of list A has a mask"),
            ("run/new/DIST1.cfg:2: entry 10 of list A has a mask", "raw/new/DIST1.cfg:1: entry 10 of list A has a mask"),
            ("run/new/DIST1.cfg:4: no route holds the next hop", "routes/DIST1.txt:12: no route holds the next hop"),
            ("run/new/DIST1.cfg:5: x\nrun/new/DIST1.cfg:2: y", "tickets/DIST1.txt:7: x\nraw/new/DIST1.cfg:1: y"),
            ("refused run/new/DIST1.cfg hostname taken by run/new/DIST1.cfg", "refused raw/new/DIST1.cfg hostname taken by raw/new/DIST1.cfg"),
            ("limit: router (1), first run/new/DIST1.cfg:2: refused", "limit: router (1), first raw/new/DIST1.cfg:1: refused"),
            ("links:3: R9 isn't there", "links:3: R9 isn't there"),
        ):
            self.assertEqual(self.origins.rewritten(told), wanted)


# Two routers as devices show them: R1 with users behind a list, R2 with servers.
R1 = """R1#show running-config
Building configuration...

Current configuration : 1234 bytes
!
hostname R1
!
ipv6 unicast-routing
!
interface GigabitEthernet0/0
 ip address 10.0.1.1 255.255.255.0
 ip access-group USERS in
 ipv6 address 2001:DB8:1::1/64
!
interface GigabitEthernet0/1
 ip address 10.0.12.1 255.255.255.0
!
object-group network SERVERS
 host 10.0.2.5
 host 10.0.2.6
!
ip access-list extended USERS
 permit tcp any object-group SERVERS eq msrpc
 permit icmp any any traceroute
 deny   ip any any
!
ip access-list logging interval 10
ip route 0.0.0.0 0.0.0.0 10.0.12.2
end

R1#
"""
R2 = """hostname R2
interface GigabitEthernet0/0
 ip address 10.0.12.2 255.255.255.0
interface GigabitEthernet0/1
 ip address 10.0.2.1 255.255.255.0
ip route 10.0.1.0 255.255.255.0 10.0.12.1
end
"""
LINKS = """lan R1 GigabitEthernet0/1 R2 GigabitEthernet0/0
ingress R1 GigabitEthernet0/0
"""
WIDER = R1.replace(" permit icmp any any traceroute\n", " permit icmp any any traceroute\n permit udp any object-group SERVERS eq ripv6\n")
QUESTIONS = "reach R1 GigabitEthernet0/0 to R2 GigabitEthernet0/1 dst 10.0.2.5 src 10.0.1.0/24 proto 6 dport 135\n"


class Runs(unittest.TestCase):
    """Calls of `window` in a scratch folder."""

    def setUp(self):
        self.scratch = tempfile.mkdtemp(prefix="diqenyu-test-")
        self.addCleanup(shutil.rmtree, self.scratch)
        self.temporary = os.path.join(self.scratch, "temporary")
        os.mkdir(self.temporary)
        self.environment = dict(os.environ, TMPDIR=self.temporary, GIT_CONFIG_GLOBAL="/dev/null", GIT_CONFIG_NOSYSTEM="1")
        for name in ("REVIEW", "VIEW", "DOCTOR"):
            if "DIQENYU_" + name in os.environ:
                self.environment["DIQENYU_" + name] = os.path.abspath(os.environ["DIQENYU_" + name])
        self.write("links", LINKS)
        for version, text in (("old", R1), ("new", WIDER)):
            self.write(version + "/R1.cfg", text)
            self.write(version + "/R2.cfg", R2)

    def path(self, name):
        return os.path.join(self.scratch, name)

    def write(self, name, text):
        os.makedirs(os.path.dirname(self.path(name)), exist_ok=True)
        with open(self.path(name), "wb") as stream:
            stream.write(text if isinstance(text, bytes) else text.encode())

    def read(self, name):
        with open(self.path(name), encoding="utf-8") as stream:
            return stream.read()

    def window(self, *words):
        """The status, the output's lines and the error lines. Nothing stays of what it wrote for itself."""
        done = subprocess.run([os.path.join(TOP, "window"), *words], cwd=self.scratch, env=self.environment, stdin=subprocess.DEVNULL,
                              stdout=subprocess.PIPE, stderr=subprocess.PIPE)
        self.assertEqual(os.listdir(self.temporary), [])
        return done.returncode, done.stdout.decode().splitlines(), done.stderr.decode().splitlines()

    def warnings(self, output):
        """The warnings of a change."""
        return [line[len("new warning: "):] for line in output if line.startswith("new warning: ")]

    def assert_ends(self, status, lines, *words):
        """The run ends so and says nothing else."""
        self.assertEqual(self.window(*words), (status, [], lines))


# What the change does: ripv6 is 521, to two servers.
CHANGED = ["packets: something changes at 1 of 1 ingress, 2 rows; 1 of 2 edges are ingresses",
           "1 opens: gets through now, at R1 GigabitEthernet0/0"]


class Folders(Runs):
    """Folders as devices show them."""

    def test_raw(self):
        status, output, errors = self.window("old", "new", "links")
        self.assertEqual((status, errors), (1, []))
        self.assertEqual([line for line in output if line.startswith(("packets", "1 opens"))], CHANGED)
        # 2 prompts, 2 lines of IPv6, 3 lines of the group, 3 or 4 entries, 1 setting of lists, 1 default
        self.assertEqual(output[-1], "prepared: 25 lines of 2 files; --keep FOLDER keeps the texts and the table")

    def test_same_folders(self):
        status, output, _ = self.window("old", "old", "links")
        self.assertEqual((status, output[1:3]), (0, [
            "Nothing changes for any packet.",
            "packets: nothing changes: both folders have the same 2 files, byte for byte; 1 of 2 edges are ingresses"]))

    def test_what_needs_nothing_stays(self):
        plain = R2.replace("R2", "R1")
        for version in ("old", "new"):
            shutil.rmtree(self.path(version))
            self.write(version + "/R1.cfg", plain)
        self.write("links", "ingress R1 GigabitEthernet0/0\n")
        status, output, errors = self.window("old", "new", "links", "--keep", "kept")
        self.assertEqual((status, errors), (0, []))
        self.assertEqual(output, [
            "old -> new", "Nothing changes for any packet.",
            "packets: nothing changes: both folders have the same 1 file, byte for byte; 1 of 2 edges are ingresses", "questions: none asked"])
        self.assertEqual((self.read("kept/table"), self.read("kept/old/R1.cfg")), ("nothing was changed\n", plain))

    def test_places_of_refusals(self):
        self.write("new/R1.cfg", WIDER.replace("!\nobject-group", " ip policy route-map X\n!\nobject-group"))
        status, output, errors = self.window("old", "new", "links", "--keep", "kept")
        self.assertEqual((status, output, errors[-1]), (3, [], "refused new/R1.cfg line 17 NotCovered policy"))
        self.assertTrue(any(line.startswith("new/R1.cfg:17: ") for line in errors[:-1]), errors)
        self.assertFalse(os.path.exists(self.path("kept")))

    def test_numbers_of_entries(self):
        """A list with groups has other numbers in the prepared text; the device's own are told."""
        self.write("new/R1.cfg", WIDER.replace(" deny   ip any any\n", " permit tcp 10.0.1.0 255.255.255.0 any eq 25\n deny   ip any any\n"))
        _, output, errors = self.window("old", "new", "links")
        self.assertEqual([line for line in self.warnings(output) if "mask" in line][0][:28], "new/R1.cfg:26: entry 40 of t", errors)

    def lines_told(self, text):
        """What is told of changed lines, where R1 becomes this text."""
        self.write("new/R1.cfg", text)
        _, output, errors = self.window("old", "new", "links")
        self.assertEqual(errors, [])
        lines = [line[len("    by "):] for line in output if line.startswith("    by ")]
        told = [at for at, line in enumerate(output) if line.startswith(("without", "says nothing"))]
        return lines + [line for at in told for line in output[at:at + 1 + output[at].startswith("without")]]

    def test_lines_with_groups(self):
        """A line with groups is one line, in its own words; where only a group has grown, in those that are new."""
        self.assertEqual(self.lines_told(WIDER), ["R1.cfg:25 + 30 permit udp any object-group SERVERS eq ripv6 [list USERS]"])
        self.assertEqual(self.lines_told(R1.replace(" host 10.0.2.6\n", " host 10.0.2.6\n host 10.0.2.7\n host 10.0.2.9\n")),
                         ["R1.cfg:25 + 10 permit tcp any host 10.0.2.7 eq 135 and 1 more [list USERS]"])
        self.assertEqual(self.lines_told(R1.replace("eq msrpc", "eq smtp")), [
            "R1.cfg:23 + 10 permit tcp any object-group SERVERS eq smtp [list USERS]", "R1.cfg:23"])
        self.assertEqual(self.lines_told(R1.replace(" permit icmp any any traceroute\n", " permit udp any any neq 53 67\n")), [
            "R1.cfg:24 - 20 permit icmp any any traceroute [list USERS]", "R1.cfg:24 + 20 permit udp any any neq 53 67 [list USERS]"])
        self.assertEqual(self.lines_told(R1.replace(" deny ", " permit tcp any object-group SERVERS eq 135\n remark the end\n deny ")), [
            "without effect: R1.cfg:25 + 30 permit tcp any object-group SERVERS eq 135 [list USERS]",
            "    `permit tcp any object-group SERVERS eq 135` decides no packet, behind `permit tcp any object-group SERVERS eq msrpc` (R1.cfg:23)",
            "says nothing of packets: R1.cfg:26 + remark the end [list USERS]"])

    def test_entry_of_another_device(self):
        """The entry that stops packets on a device which the change doesn't touch has the device's number and words."""
        servers = ("object-group network MAIL\n host 10.0.2.5\n host 10.0.2.6\nip access-list extended SERVERS\n permit icmp any any\n"
                   " deny   tcp any object-group MAIL eq 25\n permit ip any any\n")
        for version in ("old", "new"):
            self.write(version + "/R2.cfg", R2.replace(" ip address 10.0.2.1", " ip access-group SERVERS out\n ip address 10.0.2.1").replace(
                "ip route", servers + "ip route"))
        self.assertEqual(self.lines_told(R1.replace(" deny ", " permit tcp any host 10.0.2.5 eq smtp\n deny ")), [
            "without effect: R1.cfg:25 + 30 permit tcp any host 10.0.2.5 eq smtp [list USERS]",
            "    R1 treats some packets otherwise, but they end alike: tcp 10.0.1.7 -> 10.0.2.5:25 from R1 GigabitEthernet0/0 is dropped at R2 "
            "by list SERVERS, `20 deny tcp any object-group MAIL eq 25` (R2.cfg:12)"])

    def test_numbers_in_all_documents(self):
        """No document names a number, or a folder, that only the prepared texts have: here entries have a thousand times their numbers."""
        more = (" permit tcp any object-group SERVERS eq 135\n permit tcp 10.0.1.0 255.255.255.0 any eq 443\n permit udp any any eq bootps\n")
        self.write("new/R1.cfg", R1.replace(" deny ", more + " deny "))
        self.write("questions", QUESTIONS.replace("135", "443"))
        names = ("page", "json", "sarif", "junit")
        _, output, errors = self.window("old", "new", "links", "--questions", "questions", *(
            word for name in names for word in ("--" + name, name)), "--foreign", "--keep", "kept")
        self.assertEqual(errors, [])
        self.assertIn("\n 30001 permit tcp any host 10.0.2.6 eq 135\n", self.read("kept/new/R1.cfg"))
        for text in ("\n".join(output), *map(self.read, names)):
            self.assertEqual(re.findall(r"\b[1-6]000[0-9]\b|%s\S*" % re.escape(self.temporary), text), [])
        self.assertIn("list USERS in denies at 30", self.read("page"))
        self.assertIn("list USERS in permits at 40", self.read("page"))

    def test_left_out_only_in_one_folder(self):
        self.write("new/R1.cfg", WIDER.replace("2001:DB8:1::1/64", "2001:DB8:9::1/64"))
        _, output, _ = self.window("old", "new", "links")
        self.assertEqual(self.warnings(output), [
            "old/R1.cfg:13: left out, only in this folder: ipv6 address 2001:DB8:1::1/64",
            "new/R1.cfg:13: left out, only in this folder: ipv6 address 2001:DB8:9::1/64"])

    def test_a_list_that_a_login_uses(self):
        for version, text in (("old", R1), ("new", WIDER)):
            self.write(version + "/R1.cfg", text.replace("end\n", "line vty 0 4\n access-class USERS in\nend\n"))
        _, output, _ = self.window("old", "new", "links")
        self.assertEqual(self.warnings(output), [
            "new/R1.cfg:31: not followed: access-class USERS in: list USERS changes, and what is done by it here isn't in the model"])

    def test_as_written(self):
        self.window("old", "new", "links", "--keep", "running")
        self.window("old", "new", "links", "--keep", "written", "--as-written")
        self.assertIn("\nip route 0.0.0.0 0.0.0.0 GigabitEthernet0/1 10.0.12.2\n", self.read("running/old/R1.cfg"))
        self.assertIn("\nip route 0.0.0.0 0.0.0.0 10.0.12.2\n", self.read("written/old/R1.cfg"))
        self.assertIn("ip route 0.0.0.0 0.0.0.0 10.0.12.2: out of GigabitEthernet0/1: a router uses it", self.read("running/table"))

    def test_keep_is_not_free(self):
        self.write("kept/file", "x")
        self.assert_ends(6, ["cannot write kept: it is there and not an empty folder"], "old", "new", "links", "--keep", "kept")

    def test_folder_that_is_not_there(self):
        self.assert_ends(8, ["not found nowhere"], "nowhere", "new", "links")
        self.assert_ends(8, ["not found nowhere"], "old", "nowhere", "links")

    def test_waivers(self):
        rule = "ip nat inside source list 7 interface GigabitEthernet0/1 overload\n"
        for version, text in (("old", R1), ("new", WIDER)):
            self.write(version + "/R1.cfg", text.replace("ip route", rule + "ip route"))
        status, _, errors = self.window("old", "new", "links")
        self.assertEqual((status, errors[-1]), (3, "refused old/R1.cfg line 28 NotCovered list"))
        self.write("waivers", "! approved\nR1 ip nat inside source list .. : PAT for users, left out since March\n")
        status, output, errors = self.window("old", "new", "links", "--waivers", "waivers", "--page", "page.html")
        self.assertEqual((status, errors), (1, []))
        self.assertEqual(output[1], "waived: R1 ip nat inside source list ..: PAT for users, left out since March")
        self.assertIn('<ul class="told"><li>waived: R1 ip nat inside source list ..: PAT for users, left out since March</li></ul>', self.read("page.html"))
        self.write("waivers", "R1 deny ip any any : never\n")
        status, _, errors = self.window("old", "new", "links", "--waivers", "waivers")
        self.assertEqual((status, errors), (3, ["refused waivers line 1 NotThere R1 deny ip any any"]))

    def test_routes_of_tables(self):
        table = ["Gateway of last resort is not set", "", "     10.0.0.0/8 is variably subnetted, 4 subnets, 1 masks",
                 "C       10.0.1.0/24 is directly connected, GigabitEthernet0/0", "C       10.0.12.0/24 is directly connected, GigabitEthernet0/1",
                 "O       10.0.2.0/24 [110/2] via 10.0.12.2, 00:00:01, GigabitEthernet0/1",
                 "O       10.0.3.0/24 [110/2] via 10.0.12.2, 00:00:01, GigabitEthernet0/1"]
        other = ["Gateway of last resort is not set", "", "     10.0.0.0/24 is subnetted, 2 subnets",
                 "C       10.0.2.0 is directly connected, GigabitEthernet0/1", "C       10.0.12.0 is directly connected, GigabitEthernet0/0"]
        self.write("routes/R1.txt", "\n".join(table) + "\n")
        self.write("routes/R2.txt", "\n".join(other) + "\n")
        os.utime(self.path("routes/R1.txt"), (1772668800, 1772668800))
        os.utime(self.path("routes/R2.txt"), (1772668800, 1772668800))
        protocol = "router ospf 1\n redistribute static\n network 10.0.0.0 0.255.255.255 area 0\n"
        for version, text in (("old", R1), ("new", WIDER)):
            text = text.replace("ip route 0.0.0.0 0.0.0.0 10.0.12.2\n", protocol)
            self.write(version + "/R1.cfg", text if version == "old" else text.replace("end\n", "ip route 10.9.0.0 255.255.0.0 10.0.12.2\nend\n"))
        status, output, errors = self.window("old", "new", "links", "--routes", "routes")
        self.assertEqual((status, errors), (1, []))
        self.assertEqual(output[1], "routes of 2026-03-05: protocols don't react to a change or a failure")
        self.assertEqual(self.warnings(output), [
            "new/R1.cfg:32: known to R1 alone, though line 30 is `redistribute static`: ip route 10.9.0.0 255.255.0.0 10.0.12.2"])


class Words(Runs):
    """Words for the numbers of questions and headers."""

    def test_questions(self):
        self.write("questions", "! to the servers\nreach R1 GigabitEthernet0/0 to R2 GigabitEthernet0/1 dst 10.0.2.5 src here proto tcp dport msrpc\n"
                   "isolate R1 GigabitEthernet0/0 to R2 GigabitEthernet0/1 dst there proto tcp dport https\n")
        _, output, errors = self.window("old", "new", "links", "--questions", "questions")
        self.assertIn("questions: 2, all hold", output, errors)
        self.write("questions", "noloop R1 GigabitEthernet0/0 proto tcp dport httpx\n")
        self.assertEqual(self.window("old", "new", "links", "--questions", "questions")[2][-1], "refused questions line 1 BadWord httpx")

    def test_headers(self):
        from header_words import Places, Unknown, header_of
        places = Places([self.path("old")])
        for header, wanted in (("10.0.2.5,10.0.1.9,tcp,https,5000,syn", "10.0.2.5,10.0.1.9,6,443,5000,2"),
                               ("R2:GigabitEthernet0/1,R1:GigabitEthernet0/0,udp,domain,5000,-", "10.0.2.1,10.0.1.1,17,53,5000,0"),
                               ("10.0.2.5,10.0.1.9,icmp,-,echo,0", "10.0.2.5,10.0.1.9,1,0,2048,0"), ("1.2.3.4,5.6.7.8,6,7,8,18", "1.2.3.4,5.6.7.8,6,7,8,18")):
            self.assertEqual(header_of(header, places), wanted)
        for header, word in (("10.0.2.5,10.0.1.9,tcp,httpx,5000,syn", "httpx"), ("R9:E0,10.0.1.9,tcp,https,5000,syn", "R9:E0"),
                             ("10.0.2.5,10.0.1.9,tcp,https,5000,synn", "synn")):
            with self.assertRaises(Unknown) as caught:
                header_of(header, places)
            self.assertEqual(str(caught.exception), word)


class Tickets(Runs):
    """Tickets in place of the new folder."""

    def test_two_in_order(self):
        self.write("tickets/R1.txt", "ip access-list extended USERS\n 25 permit udp any object-group SERVERS eq rip\n")
        self.write("tickets/R1.2.txt", "ip access-list ext USERS\n no 25\n 25 permit udp any object-group SERVERS eq ripv6\n")
        status, output, errors = self.window("old", "links", "--tickets", "tickets", "--keep", "kept")
        self.assertEqual((status, errors), (1, []))
        self.assertEqual(output[0], "old with tickets")
        self.assertEqual([line for line in output if line.startswith(("packets", "1 opens"))], CHANGED)
        self.assertIn("old/R1.cfg with tickets/R1.2.txt\n", self.read("kept/table"))

    def test_what_is_not_followed(self):
        self.write("tickets/R1.txt", "int gi0/1\n ip ospf cost 7\n")
        _, output, _ = self.window("old", "links", "--tickets", "tickets")
        self.assertEqual(self.warnings(output), [
            "tickets/R1.txt:2: not followed: ip ospf cost 7: it may move a protocol, and the model has no protocols"])

    def test_places_of_tickets(self):
        self.write("tickets/R1.txt", "int lo9\n ip address 10.0.1.9 255.255.255.255\n")
        status, _, errors = self.window("old", "links", "--tickets", "tickets")
        self.assertEqual((status, errors[-1]), (3, "refused tickets/R1.txt line 2 OverlapOnDevice 10.0.1.9"))

    def test_refused(self):
        self.write("tickets/R1.txt", "int gi0/1\n shutdwon\n")
        self.write("tickets/R9.txt", "x\n")
        self.assert_ends(8, ["not found old/R9.cfg"], "old", "links", "--tickets", "tickets")
        os.remove(self.path("tickets/R9.txt"))
        self.assert_ends(3, ["refused tickets/R1.txt line 2 UnknownCommand shutdwon"], "old", "links", "--tickets", "tickets")
        self.assert_ends(8, ["not found none"], "old", "links", "--tickets", "none")


class Revisions(Runs):
    """Both folders from a repository with five revisions."""

    def git(self, *words, folder="repository"):
        subprocess.run(["git", "-C", self.path(folder), *words], env=self.environment, check=True, stdout=subprocess.DEVNULL, stderr=subprocess.DEVNULL)

    def commit(self, name, files):
        for path, text in files.items():
            if text is None:
                os.remove(self.path("repository/" + path))
            else:
                self.write("repository/" + path, text)
        self.git("add", "-A")
        self.git("-c", "user.name=a", "-c", "user.email=a@b", "commit", "-qm", name)
        self.git("tag", name)

    def setUp(self):
        super().setUp()
        os.mkdir(self.path("repository"))
        self.git("init", "-q")
        self.commit("v1", {"net/configs/R1.cfg": R1, "net/configs/R2.cfg": R2})
        self.commit("v2", {"net/links": LINKS})
        self.commit("v3", {"net/configs/R1.cfg": WIDER, "net/questions": QUESTIONS})
        self.commit("v4", {"net/links": LINKS + "ingress R2 GigabitEthernet0/1\n", "net/tickets/R1.txt": "int gi0/1\n shut\n"})
        self.commit("v5", {"net/configs/R2.cfg": None})

    def test_two_revisions(self):
        status, output, errors = self.window("--git", "repository", "v2", "v3", "net/configs", "net/links", "--questions", "net/questions")
        self.assertEqual((status, errors), (1, []))
        self.assertEqual(output[0], "v2:net/configs -> v3:net/configs")
        self.assertEqual([line for line in output if line.startswith(("packets", "1 opens"))], CHANGED)
        self.assertIn("questions: 1, all hold", output)

    def test_working_tree_and_a_folder_within(self):
        self.write("repository/net/configs/R2.cfg", R2)
        status, output, errors = self.window("--git", "repository/net", "v2", "configs", "links")
        self.assertEqual((status, errors), (1, []))
        self.assertEqual(output[0], "v2:configs -> repository/net/configs")
        self.assertIn("packets: something changes at 1 of 2 ingresses, 2 rows", output)

    def test_tickets_of_a_revision(self):
        status, output, errors = self.window("--git", "repository", "v3", "v4", "net/configs", "net/links", "--tickets", "net/tickets")
        self.assertEqual((status, errors, output[0]), (1, [], "v3:net/configs with net/tickets of v4"))

    def test_revision_without_a_device(self):
        """The device is gone from the new network, and the verdict says so."""
        status, output, errors = self.window("--git", "repository", "v3", "v5", "net/configs", "net/links")
        self.assertEqual((status, errors, output[0]), (1, [], "v3:net/configs -> v5:net/configs"))
        self.assertEqual(output[2], "All of it comes of R2.cfg:1 - hostname R2. Without it packets don't change.")
        self.assertIn("1 closes: no longer gets through, at R2 GigabitEthernet0/1", output)

    def test_places(self):
        self.commit("v6", {"net/configs/R2.cfg": R2.replace("end", "ip routing protocol\nrouter rip\nend")})
        status, _, errors = self.window("--git", "repository", "v2", "v6", "net/configs", "net/links")
        self.assertEqual((status, errors[-1]), (3, "refused v6:net/configs/R2.cfg line 8 NotCovered router"))

    def test_places_of_what_prepare_refuses(self):
        self.commit("v6", {"net/configs/R2.cfg": R2 + "ip access-list extended L\n permit ip object-group NONE any\n"})
        status, _, errors = self.window("--git", "repository", "v2", "v6", "net/configs", "net/links")
        self.assertEqual((status, errors), (3, ["refused v6:net/configs/R2.cfg line 9 UnknownGroup NONE"]))
        self.window("--git", "repository", "v2", "v3", "net/configs", "net/links", "--keep", "kept")
        self.assertIn("v2:net/configs/R1.cfg, R1\n", self.read("kept/table"))
        self.assertNotIn(self.temporary, self.read("kept/table"))

    def test_not_there(self):
        for words, wanted in (
            (["v1", "v2", "net/configs", "net/links"], "not found v1:net/links"),
            (["v2", "v3", "net/texts", "net/links"], "not found v2:net/texts"),
            (["v2", "v3", "net/configs", "net/links", "--questions", "net/none"], "not found v3:net/none"),
            (["v2", "net/configs", "net/none"], "not found v2:net/none"),
            (["v2", "net/none", "net/links"], "not found v2:net/none"),
            (["v2", "v9", "net/configs", "net/links"], "window: repository has no revision v9"),
            (["v2", "v3", "..", "net/links"], "not found v2:.."),
        ):
            self.assert_ends(8, [wanted], "--git", "repository", *words)
        self.assert_ends(8, ["not found none"], "--git", "none", "v1", "net/configs", "net/links")
        self.assert_ends(8, ["window: old is no git repository"], "--git", "old", "v1", "net/configs", "net/links")

    def test_shallow(self):
        subprocess.run(["git", "clone", "-q", "--depth", "1", "file://" + self.path("repository"), self.path("shallow")], env=self.environment, check=True,
                       stderr=subprocess.DEVNULL)
        self.assert_ends(8, ["window: shallow has no revision HEAD~1; the clone is shallow, and git fetch --unshallow brings the rest"],
                         "--git", "shallow", "HEAD~1", "net/configs", "net/links")

    def test_words(self):
        for words in (["--git", "repository", "net/configs", "net/links"], ["--git", "repository", "a", "b", "c", "d", "e"],
                      ["old", "new", "links", "--tickets", "tickets"], ["--tickets", "tickets"]):
            self.assertEqual(self.window(*words)[0], 2, words)


if __name__ == "__main__":
    unittest.main(verbosity=1)
