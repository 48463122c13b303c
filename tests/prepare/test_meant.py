"""What is prepared is what was meant: lists as devices show them, and tickets, against the same entries written out by hand, judged by the
second opinion; and defaults by next hop alone, with and without failures, by hand."""
import os
import random
import shutil
import subprocess
import sys
import unittest

import helpers
from test_lines import ENTRIES, KEPT

RULES = os.path.join(helpers.TOP, "tests", "rules.py")
LISTS = int(os.environ.get("MEANT_LISTS", "2"))
BASE = ["interface Ethernet0", " ip address 10.0.0.1 255.255.255.0", " ip access-group L in", "interface Ethernet1",
        " ip address 10.0.1.1 255.255.255.0"]
LINKS = ["ingress R1 Ethernet0"]


def written(chosen):
    """A random list as a device shows it, and its entries by hand."""
    shown, meant = [], []
    rows = [row for row in ENTRIES if not row[0].startswith("remark") and not row[0][0].isdigit()]
    for line, becomes in chosen.sample(rows, 4):
        source = chosen.choice(["any", "host 10.0.0.5", "10.0.0.0 0.0.0.63"])
        texts = [line] if becomes == KEPT else becomes if isinstance(becomes, list) else [becomes]
        texts = [text.split(" ", 1)[1] if text[0].isdigit() else text for text in texts]
        action = chosen.choice(["permit", "deny"])
        shown.append(" ".join([action] + line.replace(" any", " " + source, 1).split()[1:]))
        meant += [" ".join([action] + text.replace(" any", " " + source, 1).split()[1:]) for text in texts]
    return shown + ["permit ip any any"], meant + ["permit ip any any"]


# Members of groups of addresses, each with what it stands for in an entry; a range is the fewest subnets that hold it, by hand.
NETWORKS = [
    ("host 10.0.1.5", ["host 10.0.1.5"]), ("10.0.1.64 255.255.255.192", ["10.0.1.64 0.0.0.63"]), ("10.0.1.128 /25", ["10.0.1.128 0.0.0.127"]),
    ("range 10.0.1.6 10.0.1.9", ["10.0.1.6 0.0.0.1", "10.0.1.8 0.0.0.1"]), ("range 10.0.1.31 10.0.1.34", [
        "host 10.0.1.31", "10.0.1.32 0.0.0.1", "host 10.0.1.34"]), ("range 10.0.1.16 10.0.1.31", ["10.0.1.16 0.0.0.15"]), ("any", ["any"]),
]
# Members of groups of services: pairs of a protocol and what stands behind the source's and the destination's address.
SERVICES = [
    ("tcp eq www", [("tcp", "", "eq 80")]), ("tcp source eq 22", [("tcp", "eq 22", "")]), ("udp range 5000 5003", [("udp", "", "range 5000 5003")]),
    ("tcp-udp eq domain", [("tcp", "", "eq 53"), ("udp", "", "eq 53")]), ("icmp echo", [("icmp", "", "echo")]), ("esp", [("esp", "", "")]),
    ("tcp source gt 1023 lt 1024", [("tcp", "gt 1023", "lt 1024")]), ("udp eq ripv6", [("udp", "", "eq 521")]), ("ip", [("ip", "", "")]),
]


def group(chosen, kind, name, members):
    """A random group, which may hold another one: the lines of both, and what it stands for."""
    some = chosen.sample(members, chosen.randint(1, 2))
    inner = chosen.sample(members, 1) if chosen.random() < 0.5 else []
    lines = ["object-group %s %s-INNER" % (kind, name)] + [" " + line for line, _ in inner] if inner else []
    lines += ["object-group %s %s" % (kind, name)] + [" " + line for line, _ in some] + ([" group-object %s-INNER" % name] if inner else [])
    return lines, [one for _, several in some + inner for one in several]


def few_entries(chosen):
    """The next of such lists that the second opinion judges soon."""
    while True:
        found = written_with_groups(chosen)
        if len(found[2]) <= 24:
            return found


def written_with_groups(chosen):
    """Random groups with a list that names them, as a device shows them, and the entries by hand."""
    lines, shown, meant, action = [], [], [], chosen.choice(["permit", "deny"])
    for number in range(2):
        pools = [("network", "SRC%d" % number, NETWORKS), ("network", "DST%d" % number, NETWORKS), ("service", "WHAT%d" % number, SERVICES)]
        groups = [group(chosen, *pool) for pool in pools]
        lines += [line for some, _ in groups for line in some]
        words, stands = ["object-group " + name for _, name, _ in pools], [some for _, some in groups]
        for place, other in ((0, "any"), (1, "host 10.0.1.7")):
            if chosen.random() < 0.4:
                words[place], stands[place] = other, [other]
        if chosen.random() < 0.3:
            words[2], stands[2] = "tcp", [("tcp", "", "")]
        shown.append(" ".join([action, words[2], words[0], words[1]]))
        meant += [" ".join(" ".join([action, protocol, source, source_port, destination, port]).split())
                  for protocol, source_port, port in stands[2] for source in stands[0] for destination in stands[1]]
    # (so that each entry decides)
    last = "%s ip any any" % ("deny" if action == "permit" else "permit")
    return lines, shown + [last], meant + [last]


class Meant(helpers.Folders):
    """Networks of one router with a random list."""

    def compare(self, old, new):
        """What the second opinion finds between two folders."""
        done = subprocess.run([sys.executable, RULES, self.path(old), self.path(new), self.write("links", LINKS)], capture_output=True, check=True)
        return done.stdout.decode().rstrip("\n").split("\n")[-1]

    def test_lists(self):
        for seed in range(LISTS):
            shown, meant = written(random.Random(seed))
            self.write("raw/R1.cfg", ["hostname R1"] + BASE + ["ip access-list extended L"] + [" " + line for line in shown])
            self.write("meant/R1.cfg", ["hostname R1"] + BASE + ["ip access-list extended L"] + [" " + line for line in meant])
            helpers.remove_folder(self.path("out"))
            self.assertEqual(self.run_program("prepare", "raw", "out")[0], 0)
            self.assertEqual(self.compare("out", "meant"), "affected 0", seed)

    def test_groups(self):
        for seed in range(LISTS):
            groups, shown, meant = few_entries(random.Random(200 + seed))
            self.write("raw/R1.cfg", ["hostname R1"] + BASE + groups + ["ip access-list extended L"] + [" " + line for line in shown])
            self.write("meant/R1.cfg", ["hostname R1"] + BASE + ["ip access-list extended L"] + [" " + line for line in meant])
            helpers.remove_folder(self.path("out"))
            self.assertEqual(self.run_program("prepare", "raw", "out")[0], 0)
            self.assertEqual(self.compare("out", "meant"), "affected 0", seed)

    def test_groups_by_tickets(self):
        """A ticket that makes the groups and the list, with abbreviated words, means the same."""
        for seed in range(LISTS):
            groups, shown, meant = few_entries(random.Random(300 + seed))
            self.write("raw/R1.cfg", ["hostname R1"] + BASE)
            self.write("tickets/R1.txt", [line.replace("object-group network", "object-g net") for line in groups] + ["ip access-l ext L"]
                       + [" " + line.replace("permit", "perm") for line in shown])
            self.write("meant/R1.cfg", ["hostname R1"] + BASE + ["ip access-list extended L"] + [" " + line for line in meant])
            for folder in ("applied", "out"):
                helpers.remove_folder(self.path(folder))
            status, told = self.run_program("prepare", "--apply", "tickets", "raw", "applied")
            self.assertEqual(status, 0, told)
            self.assertEqual(self.run_program("prepare", "applied", "out")[0], 0)
            self.assertEqual(self.compare("out", "meant"), "affected 0", seed)

    def test_tickets(self):
        for seed in range(LISTS):
            shown, meant = written(random.Random(100 + seed))
            self.write("raw/R1.cfg", ["hostname R1"] + BASE)
            self.write("tickets/R1.txt", ["ip access-l ext L"] + [" " + line.replace("permit", "perm").replace("established", "est") for line in shown])
            self.write("meant/R1.cfg", ["hostname R1"] + BASE + ["ip access-list extended L"] + [" " + line for line in meant])
            for folder in ("applied", "out"):
                helpers.remove_folder(self.path(folder))
            self.assertEqual(self.run_program("prepare", "--apply", "tickets", "raw", "applied")[0], 0)
            self.assertEqual(self.run_program("prepare", "applied", "out")[0], 0)
            self.assertEqual(self.compare("out", "meant"), "affected 0", seed)

    def test_an_entry_that_is_not_meant(self):
        """One entry less is seen."""
        shown, meant = written(random.Random(1))
        self.write("raw/R1.cfg", ["hostname R1"] + BASE + ["ip access-list extended L"] + [" " + line for line in shown[:-1]])
        self.write("meant/R1.cfg", ["hostname R1"] + BASE + ["ip access-list extended L"] + [" " + line for line in meant])
        self.assertEqual(self.run_program("prepare", "raw", "out")[0], 0)
        self.assertNotEqual(self.compare("out", "meant"), "affected 0")


# A router with users at Ethernet0, providers at Ethernet1 and Ethernet2, a subinterface, and a link to another office at Ethernet3.
ROUTER = [
    "interface Ethernet0", " ip address 10.0.0.1 255.255.255.0", "interface Ethernet1", " ip address 10.0.1.1 255.255.255.0",
    "interface Ethernet2", " ip address 10.0.2.1 255.255.255.0", "interface Ethernet3", " ip address 10.0.3.1 255.255.255.0",
    "interface Ethernet4", "interface Ethernet4.5", " encapsulation dot1Q 5", " ip address 10.0.4.1 255.255.255.0",
]
DEFAULT, FLOATING = "ip route 0.0.0.0 0.0.0.0 10.0.1.2", "ip route 0.0.0.0 0.0.0.0 10.0.2.2 250"
# The routes, the interfaces that are down, the destination, and the outcome of the courses.
FAILURES = [
    ([DEFAULT, FLOATING], [], "192.0.2.1", "exit R1 Ethernet1"),
    ([DEFAULT, FLOATING], ["Ethernet1"], "192.0.2.1", "exit R1 Ethernet2"),
    ([DEFAULT, FLOATING], ["Ethernet2"], "192.0.2.1", "exit R1 Ethernet1"),
    ([DEFAULT, FLOATING], ["Ethernet1", "Ethernet2"], "192.0.2.1", "drop"),
    ([DEFAULT], ["Ethernet1"], "192.0.2.1", "drop"),
    # two of one distance share, and the one that is left takes all
    ([DEFAULT, FLOATING[:-4]], [], "192.0.2.1", "exit R1 Ethernet1 | exit R1 Ethernet2"),
    ([DEFAULT, FLOATING[:-4]], ["Ethernet1"], "192.0.2.1", "exit R1 Ethernet2"),
    # a summary whose own prefix holds its next hop goes with its interface, and the default takes over
    (["ip route 10.0.0.0 255.0.0.0 10.0.3.2", DEFAULT], [], "10.9.0.1", "exit R1 Ethernet3"),
    (["ip route 10.0.0.0 255.0.0.0 10.0.3.2", DEFAULT], ["Ethernet3"], "10.9.0.1", "exit R1 Ethernet1"),
    (["ip route 10.0.0.0 255.0.0.0 10.0.3.2", DEFAULT], ["Ethernet3"], "192.0.2.1", "exit R1 Ethernet1"),
    # a longer route to the next hop keeps the default where the link is down
    ([DEFAULT, "ip route 10.0.1.2 255.255.255.255 Ethernet3 10.0.3.2", FLOATING], ["Ethernet1"], "192.0.2.1", "exit R1 Ethernet3"),
    # a discard route and a floating default
    (["ip route 192.168.0.0 255.255.0.0 Null0", DEFAULT, FLOATING], ["Ethernet1"], "192.168.1.1", "drop"),
    # a next hop behind a subinterface goes with the main interface
    (["ip route 0.0.0.0 0.0.0.0 10.0.4.2", FLOATING], [], "192.0.2.1", "exit R1 Ethernet4.5"),
    (["ip route 0.0.0.0 0.0.0.0 10.0.4.2", FLOATING], ["Ethernet4"], "192.0.2.1", "exit R1 Ethernet2"),
    (["ip route 0.0.0.0 0.0.0.0 10.0.4.2", FLOATING], ["Ethernet4.5"], "192.0.2.1", "exit R1 Ethernet2"),
    (["ip route 0.0.0.0 0.0.0.0 10.0.4.2"], ["Ethernet4"], "10.0.4.9", "drop"),
]


class Defaults(helpers.Folders):
    """What routers do with defaults, when a link fails."""

    def outcome(self, folder, destination):
        """The outcome of a packet of the users, by the second opinion."""
        done = subprocess.run([sys.executable, RULES, "trace", self.path(folder), self.write("links", LINKS), "R1", "Ethernet0",
                               "%s,10.0.0.5,6,443,5000,0" % destination], capture_output=True, check=True)
        return done.stdout.decode().rstrip("\n").split("\n")[-1]

    def test_shut_in_the_text(self):
        for routes, down, destination, wanted in FAILURES:
            lines = ["hostname R1"] + ROUTER + ["interface %s\n shutdown" % name for name in down] + routes
            self.write("raw/R1.cfg", lines)
            helpers.remove_folder(self.path("out"))
            self.assertEqual(self.run_program("prepare", "raw", "out")[0], 0)
            self.assertEqual(self.outcome("out", destination), "outcome " + wanted, (routes, down))

    def test_failures_of_sweeps(self):
        sys.path.insert(0, os.path.join(helpers.TOP, "sweeping"))
        try:
            import failures
            from as_running import as_running
        finally:
            sys.path.pop(0)
        for routes, down, destination, wanted in FAILURES:
            text = as_running(("\n".join(["hostname R1"] + ROUTER + routes) + "\n").encode()).decode()
            devices = failures.Devices({"old": {"R1.cfg": text}})
            changes = devices.changes([("R1", name) for name in down])["old"].get("R1.cfg", [])
            self.write("failed/R1.cfg", failures.Configuration(text).shut(changes).encode())
            self.assertEqual(self.outcome("failed", destination), "outcome " + wanted, (routes, down))

    def test_as_written(self):
        """Without it the first default stays, since the floating one holds its next hop."""
        self.write("raw/R1.cfg", ["hostname R1"] + ROUTER + ["interface Ethernet1", " shutdown", DEFAULT, FLOATING])
        self.assertEqual(self.run_program("prepare", "raw", "out", "--as-written")[0], 0)
        self.assertEqual(self.outcome("out", "192.0.2.1"), "outcome drop")

    @helpers.needs_review
    @unittest.skipUnless(shutil.which("parallel"), "GNU parallel isn't installed")
    def test_a_sweep(self):
        """On the day when the first provider's link fails, packets go to the other one; as it is written, to none."""
        self.write("net/R1.cfg", ["hostname R1"] + ROUTER[:6] + [DEFAULT, FLOATING])
        for name, number in (("R2", 1), ("R3", 2)):
            self.write("net/%s.cfg" % name, ["hostname " + name, "interface Ethernet0", " ip address 10.0.%d.2 255.255.255.0" % number, "interface Ethernet1",
                                             " ip address 198.51.100.%d 255.255.255.0" % number, "ip route 0.0.0.0 0.0.0.0 Ethernet1"])
        self.write("links", ["lan R1 Ethernet1 R2 Ethernet0", "lan R1 Ethernet2 R3 Ethernet0"] + LINKS)
        self.write("questions", ["isolate R1 Ethernet0 to R3 Ethernet1 dst 192.0.2.0/24"])
        for options, told in (([], True), (["--as-written"], False)):
            done = subprocess.run([os.path.join(helpers.TOP, "sweep"), "ask", "net", "links", "questions"] + options, cwd=self.folder, capture_output=True,
                                  check=False, env=dict(os.environ, DIQENYU_REVIEW=helpers.BUILT, XDG_CACHE_HOME=self.path("cache")))
            self.assertEqual(done.returncode, int(told), done.stderr)
            self.assertEqual(b"failure end R1 Ethernet1\n  1 holds -> fails dst 192.0.2.0 " in done.stdout, told, done.stdout)


if __name__ == "__main__":
    unittest.main()
