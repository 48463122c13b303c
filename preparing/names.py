"""Names that devices show for numbers and that the verifier doesn't read, after the IOS command references and IANA's tables.

The names that it reads are those of `entries`; these here are brought in as their numbers.
"""

# IOS `access-list` (extended): protocols. IANA: protocol numbers.
PROTOCOLS = {"igrp": 9, "nos": 94, "pcp": 108, "sctp": 132}

# IOS `access-list` (extended): TCP and UDP port names. IANA: service names; the ports of onePK and of connected apps are Cisco's.
TCP = {
    "connectedapps-plain": 15001, "connectedapps-tls": 15002, "drip": 3949, "msrpc": 135, "onep-plain": 15001, "onep-tls": 15002,
    "pim-auto-rp": 496, "syslog": 514,
}
UDP = {"dnsix": 195, "pim-auto-rp": 496, "ripv6": 521}

# IOS `access-list` (extended): ICMP message names. RFC 792, 950, 1108, 1122, 1191, 1256, 1393, 1475, 1812; IANA: ICMP parameters.
ICMP = {
    "alternate-address": (6,), "conversion-error": (31,), "dod-host-prohibited": (3, 10), "dod-net-prohibited": (3, 9),
    "general-parameter-problem": (12, 0), "host-isolated": (3, 8), "host-precedence-unreachable": (3, 14), "host-redirect": (5, 1),
    "host-tos-redirect": (5, 3), "host-tos-unreachable": (3, 12), "host-unknown": (3, 7), "information-reply": (16,),
    "information-request": (15,), "mask-reply": (18,), "mask-request": (17,), "mobile-redirect": (32,), "net-redirect": (5, 0),
    "net-tos-redirect": (5, 2), "net-tos-unreachable": (3, 11), "network-unknown": (3, 6), "no-room-for-option": (12, 2),
    "option-missing": (12, 1), "precedence-unreachable": (3, 15), "protocol-unreachable": (3, 2), "reassembly-timeout": (11, 1),
    "router-advertisement": (9,), "router-solicitation": (10,), "source-route-failed": (3, 5), "timestamp-reply": (14,),
    "timestamp-request": (13,), "traceroute": (30,),
}

# All of them, to see soon that a text has none.
ALL = frozenset(PROTOCOLS) | frozenset(TCP) | frozenset(UDP) | frozenset(ICMP)
