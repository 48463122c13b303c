#!/usr/bin/env python3
"""Edits at devices that headers meet in one way alone, judged by rules.py: only by a loop, only behind a translation, only in one of
two equal choices, only at the last move that the TTL allows; edits of lists that no interface names, of a list that loses its last
entry, and of equal routes of which the first goes. Of each edit it is said beforehand how many rows the report has after it.

    edit_cases.py PROGRAM

PROGRAM is the built `rollout`. The last line is 'N passed, M failed'.
"""
import os
import subprocess
import sys
import tempfile

RULES = os.path.join(os.path.dirname(os.path.abspath(__file__)), "rules.py")


def interface(name, address, mask, *lines):
    return ["interface " + name, " ip address %s %s" % (address, mask)] + [" " + line for line in lines]


def router(name, *sections):
    """The text of a configuration: lists of lines, or single lines."""
    lines = ["hostname " + name]
    for section in sections:
        lines += section if isinstance(section, list) else [section]
    return name, "".join(line + "\n" for line in lines)


LINK = "255.255.255.252"
LEAF = "255.255.255.0"
FAR = "10.9.0.0 255.255.0.0"


def looped():
    """R2 and R3 send what is for 10.9.0.0/16 to and fro; R3 is met by nothing else."""
    return (
        [
            router("R1", interface("Ethernet0", "10.0.0.1", LEAF), interface("Ethernet1", "10.1.2.1", LINK), "ip route %s 10.1.2.2" % FAR),
            router("R2", interface("Ethernet0", "10.1.2.2", LINK), interface("Ethernet1", "10.2.3.1", LINK), "ip route %s 10.2.3.2" % FAR),
            router("R3", interface("Ethernet0", "10.2.3.2", LINK), "ip route %s 10.2.3.1" % FAR),
        ],
        ["p2p R1 Ethernet1 R2 Ethernet0", "p2p R2 Ethernet1 R3 Ethernet0", "ingress R1 Ethernet0"],
        [
            ("no-route R3 %s 10.2.3.1" % FAR, 1),
            ("route R3 %s 10.2.3.1" % FAR, 0),
            ("route R3 10.9.7.0 255.255.255.0 Null0", 1),
            ("route R2 10.9.7.0 255.255.255.0 Null0", 1),
        ],
    )


def translated():
    """INNER is met by what EDGE translates alone: the list of EDGE lets nothing else in."""
    return (
        [
            router(
                "EDGE",
                interface("Ethernet0", "10.1.2.1", LINK, "ip nat inside"),
                interface("Ethernet1", "198.51.100.2", LINK, "ip nat outside", "ip access-group 101 in"),
                "ip nat inside source static tcp 192.168.10.20 443 198.51.100.2 443",
                "ip route 192.168.10.0 255.255.255.0 10.1.2.2",
                "access-list 101 permit tcp any host 198.51.100.2 eq 443",
            ),
            router(
                "INNER",
                interface("Ethernet0", "10.1.2.2", LINK, "ip access-group 102 in"),
                interface("Ethernet1", "192.168.10.1", LEAF),
                "access-list 102 permit ip any any",
            ),
        ],
        ["p2p EDGE Ethernet0 INNER Ethernet0", "ingress EDGE Ethernet1"],
        [
            ("entry INNER 102 5 deny ip any host 198.51.100.2", 0),
            ("entry INNER 102 6 deny tcp host 203.0.113.9 host 192.168.10.20 eq 443", 1),
            ("no-entry INNER 102 6", 0),
            ("route INNER 192.168.10.20 255.255.255.255 Null0", 1),
            ("no-entry INNER 102 5", 1),
        ],
    )


def chosen():
    """R1 has two equal choices, R2 and R3, and both hand on the same."""
    far = "ip route %s Ethernet1 10.5.0.9" % FAR
    return (
        [
            router(
                "R1",
                interface("Ethernet0", "10.0.0.1", LEAF),
                interface("Ethernet1", "10.1.2.1", LINK),
                interface("Ethernet2", "10.1.3.1", LINK),
                "ip route %s 10.1.2.2" % FAR,
                "ip route %s 10.1.3.2" % FAR,
            ),
            router("R2", interface("Ethernet0", "10.1.2.2", LINK, "ip access-group 101 in"), interface("Ethernet1", "10.5.0.2", LEAF), far, "access-list 101 permit ip any any"),
            router("R3", interface("Ethernet0", "10.1.3.2", LINK, "ip access-group 101 in"), interface("Ethernet1", "10.5.0.3", LEAF), far, "access-list 101 permit ip any any"),
        ],
        ["p2p R1 Ethernet1 R2 Ethernet0", "p2p R1 Ethernet2 R3 Ethernet0", "ingress R1 Ethernet0"],
        [
            ("entry R3 101 5 deny tcp any 10.9.0.0 0.0.255.255 eq 80", 1),
            ("entry R2 101 5 deny tcp any 10.9.0.0 0.0.255.255 eq 80", 1),
            ("no-entry R3 101 5", 1),
            ("no-entry R2 101 5", 0),
            ("route R3 10.9.1.0 255.255.255.0 Null0", 1),
            ("no-route R1 %s 10.1.3.2" % FAR, 1),
            ("entry R3 101 6 deny ip any 10.9.0.0 0.0.255.255", 1),
        ],
    )


def chain():
    """256 routers in a row. A packet enters with the TTL 255, and R255 would be met after 255 moves, which are one too many."""
    def address(link, end):
        return "172.16.%d.%d" % (link // 64, link % 64 * 4 + end)

    routers, links = [], ["ingress R0 Ethernet0"]
    for i in range(256):
        sections = [interface("Ethernet0", "10.0.0.1", LEAF) if i == 0 else interface("Ethernet0", address(i - 1, 2), LINK, "ip access-group 101 in")]
        if i < 255:
            sections += [interface("Ethernet1", address(i, 1), LINK), "ip route 10.9.0.0 255.255.255.0 %s" % address(i, 2)]
            links.append("p2p R%d Ethernet1 R%d Ethernet0" % (i, i + 1))
        routers.append(router("R%d" % i, *sections, "access-list 101 permit ip any any"))
    return (
        routers,
        links,
        [
            ("entry R255 101 5 deny ip any 10.9.0.0 0.0.0.255", 0),
            ("entry R254 101 5 deny tcp any 10.9.0.0 0.0.0.255", 1),
            ("no-entry R254 101 5", 0),
            ("no-route R254 10.9.0.0 255.255.255.0 %s" % address(254, 2), 1),
            ("route R254 10.9.0.0 255.255.255.0 %s" % address(254, 2), 0),
        ],
    )


def lists():
    """A list that an interface names, with one entry, and one that none names."""
    return (
        [
            router(
                "R1",
                interface("Ethernet0", "10.0.0.1", LEAF, "ip access-group 101 in"),
                interface("Ethernet1", "10.5.0.1", LEAF),
                "access-list 101 permit icmp any any",
                "access-list 102 permit tcp any any",
            )
        ],
        ["ingress R1 Ethernet0"],
        [
            ("entry R1 102 30 deny udp any any", 0),
            ("no-entry R1 102 10", 0),
            ("no-entry R1 102 30", 0),
            ("no-entry R1 101 10", None),
            ("entry R1 101 7 permit icmp any any", 0),
        ],
    )


def equal_routes():
    """Of two equal routes the first goes, which changes nothing; then the other one."""
    return (
        [router("R1", interface("Ethernet0", "10.0.0.1", LEAF), interface("Ethernet1", "10.5.0.1", LEAF), "ip route %s 10.5.0.9" % FAR)],
        ["ingress R1 Ethernet0"],
        [
            ("route R1 %s 10.5.0.9" % FAR, 0),
            ("no-route R1 %s 10.5.0.9" % FAR, 0),
            ("no-route R1 %s 10.5.0.9" % FAR, 1),
        ],
    )


CASES = {
    "met only by a loop": looped,
    "met only behind a translation": translated,
    "met only in one of two equal choices": chosen,
    "met only at the last move": chain,
    "lists": lists,
    "equal routes": equal_routes,
}


def write(path, text):
    with open(path, "w") as file:
        file.write(text)


def counts(text):
    return [int(line.split()[3]) for line in text.splitlines() if line.startswith("line ")]


def judged(program, case):
    """What is wrong with the program's answer; an empty list where nothing is."""
    routers, links, edits = case()
    with tempfile.TemporaryDirectory() as folder:
        os.mkdir(folder + "/net")
        for name, text in routers:
            write("%s/net/%s.cfg" % (folder, name), text)
        write(folder + "/links", "".join(line + "\n" for line in links))
        write(folder + "/edits", "".join(line + "\n" for line, _ in edits))
        words = ["edits", folder + "/net", folder + "/links", folder + "/edits"]
        wanted = subprocess.run([sys.executable, RULES] + words, stdout=subprocess.PIPE, text=True, check=True).stdout
        run = subprocess.run([program] + words, stdout=subprocess.PIPE, stderr=subprocess.PIPE, text=True)
    wrong = []
    if run.stdout != wanted or run.stderr or run.returncode != (0 if wanted.endswith("affected 0\n") else 1):
        wrong.append("status %d, wrote\n%s%swanted\n%s" % (run.returncode, run.stdout, run.stderr, wanted))
    for (line, rows), now in zip(edits, counts(run.stdout)):
        if rows is not None and rows != now:
            wrong.append("%s: affected %d, and it must be %d" % (line, now, rows))
    return wrong


def main():
    passed = failed = 0
    for name, case in CASES.items():
        wrong = judged(os.path.abspath(sys.argv[1]), case)
        if wrong:
            failed += 1
            print("FAILED edits of what is %s" % name if name.startswith("met") else "FAILED edits of %s" % name, *wrong, sep="\n")
        else:
            passed += 1
    print("%d passed, %d failed" % (passed, failed))
    sys.exit(1 if failed else 0)


if __name__ == "__main__":
    main()
