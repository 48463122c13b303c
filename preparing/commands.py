"""The words that may stand at a place of a command, after the IOS command references: those that are covered, those that say nothing
of forwarding, and all others that a router has there, so that an abbreviation is unique here only where it is unique on the router.
"""

# ---- at the margin

GLOBAL_COVERED = (
    "access-list", "banner", "default", "do", "end", "exit", "hostname", "interface", "ip", "ipv6", "no", "object-group", "route-map", "router",
    "vlan",
)
# What says nothing of how packets are forwarded, or of what the rules don't model (ARP, services of the device itself).
GLOBAL_HARMLESS = (
    "alias", "arp", "boot", "buffers", "cdp", "clock", "diagnostic", "enable", "exception", "file", "license", "line", "lldp", "logging",
    "login", "memory", "monitor", "ntp", "parser", "password", "privilege", "process", "prompt", "radius-server", "rmon", "scheduler",
    "security", "service", "snmp", "snmp-server", "system", "tacacs-server", "tftp-server", "username",
)
GLOBAL_OTHERS = (
    "aaa", "access-expression", "access-profile", "access-session", "aps", "archive", "async-bootp", "authentication", "automate-tester",
    "autonomic", "auto-sync", "backup", "bba-group", "beep", "bfd", "bfd-template", "bridge", "bridge-domain", "call", "call-home",
    "card", "chat-script", "class-map", "clns", "cns", "config-register", "configuration", "connect", "control-plane", "controller",
    "crypto", "cts", "cwmp", "dampening", "data-list", "define", "device-sensor", "device-tracking", "dialer", "dialer-list",
    "dial-peer", "dlsw", "domain", "dot11", "dot1x", "downward-compatible-config", "eap", "energywise", "epm", "errdisable", "ethernet",
    "event", "fabric", "facility-alarm", "fhrp", "flow", "flow-sampler-map", "format", "frame-relay", "gatekeeper", "gateway",
    "global-address-family", "glbp", "help", "hw-module", "identity", "ids", "igmp", "inspect", "install", "ipc", "ipe", "iphc-profile",
    "ipsla", "ipx", "isdn", "isis", "ixi", "kerberos", "key", "keymap", "kron", "l2", "l2protocol-tunnel", "l2tp-class",
    "l2vpn", "lacp", "lat", "link", "lisp", "list", "load-balance", "locaddr-priority-list", "location", "mab", "mac", "macro",
    "map-class", "map-list", "mediatrace", "menu", "metadata", "microcode", "mls", "modemcap", "mop", "mpls", "multilink", "mvr", "nat64",
    "nat66", "ncia", "netbios", "netconf", "network-clock", "network-policy", "nls", "nmsp", "object", "odm-format", "onep", "ospfv3",
    "pagp", "parameter-map", "partition", "performance", "pfr", "pfr-map", "platform", "pnp", "policy-map", "port-channel", "port-profile",
    "power", "ppp", "pppoe", "printer", "priority-list", "process-max-time", "profile", "pseudowire-class", "ptp", "qos", "queue-list",
    "radius", "randomize", "redundancy", "regexp", "remote-management", "resource", "resume-string", "rep", "rif", "rlogin",
    "route-tag", "routing", "rsrb", "rtr", "sampler", "sdm", "service-chain", "service-group", "service-list",
    "service-policy", "service-template", "setup", "sgbp", "shell", "shutdown", "smrp", "sna", "snasw", "software", "source-bridge",
    "spanning-tree", "spd", "stackwise-virtual", "standby", "state-machine", "stcapp", "storm-control", "stun", "subscriber", "switch",
    "switchport", "tacacs", "table-map", "tag-switching", "telephony-service", "template", "terminal-queue", "time-range", "tn3270", "topology",
    "track", "transceiver", "translate", "transport-map", "tunnel", "udld", "vc-class", "virtual-profile", "virtual-template",
    "voice", "voice-card", "vpdn", "vpdn-group", "vpn", "vrf", "vrrp", "vtp", "vty-async", "waas", "wlccp", "wsma", "x25", "x29", "xconnect",
    "xdr", "zone", "zone-pair",
)

IP_COVERED = ("access-list", "nat", "prefix-list", "route")
IP_HARMLESS = (
    "bootp", "domain", "domain-list", "domain-lookup", "domain-name", "finger", "flow", "flow-aggregation", "flow-cache", "flow-export",
    "flow-top-talkers", "forward-protocol", "ftp", "gratuitous-arps", "host", "http", "identd", "name-server", "radius", "rcmd", "scp", "ssh",
    "subnet-zero", "tacacs", "telnet", "tftp",
)
IP_OTHERS = (
    "accounting-list", "accounting-threshold", "accounting-transits", "address-pool", "admission", "alias", "arp", "as-path", "auth-proxy",
    "bgp-community", "casa", "cef", "classless", "community-list", "ddns", "default-gateway", "default-network", "device", "dhcp", "dhcp-client",
    "dhcp-server", "director", "dns", "drp", "dvmrp", "explicit-path", "extcommunity-list", "host-list", "host-routing", "hp-host", "icmp",
    "igmp", "inspect", "ips", "irdp", "kerberos", "local", "mobile", "mrm", "mroute", "msdp", "multicast", "multicast-routing", "nbar",
    "netmask-format", "nhrp", "options", "ospf", "pgm", "pim", "policy", "policy-list", "port-map", "portbundle", "redirects",
    "reflexive-list", "rip", "route-cache", "router", "routing", "rsvp", "rtcp", "sap", "sdr", "security", "sip", "sla", "slb", "snmp",
    "sockets", "socks", "source", "source-route", "source-track", "spd", "sticky-arp", "tcp", "traffic-export", "traffic-engineering",
    "trigger-authentication", "udp", "urlfilter", "verify", "virtual-reassembly", "vrf", "wccp",
)
ACCESS_LIST_KINDS = ("extended", "standard", "resequence")
# What sets how lists log, and what is done with packets that the router sends itself.
ACCESS_LIST_SETTINGS = ("helper", "log-update", "logging", "match-local-traffic", "persistent")
ACCESS_LIST_KINDS_OTHERS = ("role-based", "fqdn")
NAT_FIRST = ("inside", "outside")
NAT_FIRST_OTHERS = (
    "create", "enable", "log", "name", "piggyback-support", "pool", "portmap", "scale-mode", "service", "settings", "sip-sbc", "source",
    "stateful", "switchover", "translation",
)
NAT_SECOND = ("source",)
NAT_SECOND_OTHERS = ("destination",)
NAT_THIRD = ("static",)
NAT_THIRD_OTHERS = ("list", "route-map")
NAT_STATIC = ("tcp", "udp")
NAT_STATIC_OTHERS = ("esp", "network", "gre")
NAT_END = ("extendable",)
NAT_END_OTHERS = ("add-route", "forced", "mapping-id", "match-in-vrf", "netmask", "no-alias", "no-payload", "redundancy", "reversible",
                  "route-map", "stateless", "vrf", "overload")
ROUTE_TAIL = ("name", "tag")
ROUTE_TAIL_OTHERS = ("dhcp", "global", "multicast", "permanent", "track")
GROUP_KINDS = ("network", "service")
GROUP_KINDS_OTHERS = ("fqdn", "icmp-type", "protocol", "security", "user", "v6-network", "v6-service", "mac", "ip", "sgt")

# ---- in the section of an interface

INTERFACE_COVERED = (
    "exit", "end", "ip", "no", "shutdown", "do", "default", "encapsulation", "glbp", "ipv6", "standby", "switchport", "vrrp",
)
INTERFACE_HARMLESS = (
    "arp", "carrier-delay", "cdp", "description", "hold-queue", "lldp", "load-interval", "logging",
    "media-type", "mdix", "ntp", "snmp", "tx-ring-limit", "help", "history",
)
# What a protocol looks at: its costs, its neighbours and their packets.
INTERFACE_MOVING = ("bandwidth", "delay", "duplex", "full-duplex", "half-duplex", "isis", "keepalive", "mtu", "negotiation", "speed")
INTERFACE_OTHERS = (
    "aaa", "access-expression", "access-session", "aps", "ath", "authentication", "auto", "autodetect", "backup", "bfd",
    "bgp-policy", "bridge-group", "bundle", "call", "channel-group", "channel-protocol", "clns", "clock", "compress", "control-policy",
    "crc", "crypto", "cts", "custom-queue-list", "dampening", "datalink", "dce-terminal-timing", "device-tracking", "dialer",
    "dialer-group", "dialer-list", "dlsw", "dot1q", "dot1x", "downlink", "dsl", "dsu", "eapol", "energywise", "epm", "eou",
    "ethernet", "fair-queue", "fhrp", "flow-sampler", "flowcontrol", "frame-relay", "framing", "gsm", "h323-gateway", "ignore",
    "ignore-dcd", "ignore-hw", "inarp", "invert", "ipx", "isdn", "iso-igrp", "ipsla", "l2protocol-tunnel",
    "lacp", "lan-name", "lapb", "lat", "link", "lisp", "llc2", "load-balancing", "locaddr-priority", "location", "loopback", "mab",
    "mac", "mac-address", "macro", "macsec", "map-group", "max-reserved-bandwidth", "metadata", "mka", "mls", "mop", "mpls",
    "multilink", "multilink-group", "mvr", "nat64", "nat66", "neighbor", "netbios", "network-policy", "nmsp", "nrzi-encoding", "ospfv3",
    "pagp", "peer", "performance", "physical-layer", "platform", "plim", "port-channel", "port-type", "power", "ppp", "pppoe",
    "pppoe-client", "priority", "priority-group", "priority-queue", "pulse-time", "pvc", "qos", "queue-set", "random-detect", "rate-limit",
    "rep", "rmon", "routing", "sdlc", "serial", "service", "service-instance", "service-module", "service-policy", "smds", "snapshot",
    "source", "source-bridge", "spanning-tree", "srr-queue", "stackwise-virtual", "storm-control", "stun", "subscriber",
    "tag-switching", "tarp", "timeout", "topology", "traffic-shape", "transmit-interface", "transmitter-delay",
    "trunk-group", "trust", "tunnel", "udld", "unidirectional", "vc-class", "virtual-ppp", "virtual-template", "vines", "vlan-id", "vlan-range",
    "vrf", "vtp", "waas", "wccp", "x25", "xconnect", "zone-member",
)
INTERFACE_IP_COVERED = ("access-group", "address", "nat")
# What changes no way of a packet by the rules: ARP, helpers, MTU, messages of the router itself, statistics.
INTERFACE_IP_HARMLESS = (
    "accounting", "flow", "helper-address", "mask-reply", "proxy-arp", "redirects", "route-cache", "tcp", "unreachables",
    "virtual-reassembly", "nbar", "information-reply",
)
INTERFACE_IP_MOVING = (
    "authentication", "bandwidth-percent", "eigrp", "hello-interval", "hold-time", "mtu", "ospf", "rip", "router", "split-horizon", "summary-address",
)
INTERFACE_IP_OTHERS = (
    "admission", "arp", "auth-proxy", "bgp", "broadcast-address", "cef", "cgmp", "ddns", "dhcp",
    "directed-broadcast", "dvmrp", "icmp", "idle-group", "igmp", "inspect", "internal", "ips",
    "irdp", "load-sharing", "local", "local-proxy-arp", "mobile", "mrm", "mroute-cache", "multicast", "next-hop-self", "nhrp", "pgm",
    "pim", "policy", "portbundle", "probe", "rarp-server", "rgmp", "rsvp", "rtp", "sap", "sdr", "security", "service",
    "sticky-arp", "subscriber", "traffic-export", "trigger-authentication", "unnumbered", "urd", "verify",
    "vrf", "wccp",
)
INTERFACE_NAT = ("inside", "outside")
INTERFACE_NAT_OTHERS = ("allow-static-host", "enable", "stick", "create")
ADDRESS_OTHERS = ("dhcp", "negotiated", "pool")
DIRECTIONS = ("in", "out")

# ---- switch ports, subinterfaces and virtual gateways

SWITCHPORT = ("access", "mode", "nonegotiate", "port-security", "trunk", "voice")
SWITCHPORT_OTHERS = ("autostate", "backup", "block", "dot1q", "host", "private-vlan", "priority", "protected", "vlan")
# The words that may stand behind the first one, in order, so that an abbreviation is written out.
SWITCHPORT_MORE = {
    "access": (("vlan",),), "mode": (("access", "trunk", "dynamic", "dot1q-tunnel", "private-vlan"), ("auto", "desirable", "host", "promiscuous")),
    "trunk": (("allowed", "encapsulation", "native", "pruning"), ("vlan", "dot1q", "isl", "negotiate")), "voice": (("vlan",),),
}
ENCAPSULATION_OTHERS = ("aal5snap", "frame-relay", "hdlc", "isl", "lapb", "ppp", "sdlc", "smds", "x25")
GATEWAY_COMMON = ("authentication", "ip", "ipv6", "name", "preempt", "priority", "timers", "track")
GATEWAY_WORDS = {
    "standby": GATEWAY_COMMON + ("arp", "bfd", "delay", "follow", "mac-address", "mac-refresh", "redirect", "use-bia", "version"),
    "vrrp": GATEWAY_COMMON + ("address-family", "delay", "description", "shutdown", "sso"),
    "glbp": GATEWAY_COMMON + ("client-cache", "forwarder", "load-balancing", "weighting"),
}
FAMILY_WORDS = ("address", "authentication", "bfd", "description", "exit-vrrp", "match-address", "preempt", "priority", "shutdown", "timers", "track",
                "vrrpleader", "vrrpv2")

# ---- sections of which the rules say nothing, or which the model can't follow

VLAN_WORDS = ("are", "backupcrf", "bridge", "exit", "media", "mtu", "name", "parent", "private-vlan", "remote-span", "ring", "said", "shutdown", "state",
              "stp", "ste", "tb-vlan1", "tb-vlan2", "end", "no", "do")
ROUTE_MAP_WORDS = ("continue", "default", "description", "exit", "match", "no", "set", "end", "do")
ROUTER_WORDS = ("distribute-list", "exit", "no", "end", "do")
ROUTER_OTHERS = (
    "address-family", "area", "auto-summary", "auto-cost", "bfd", "bgp", "capability", "default", "default-information", "default-metric", "discard-route",
    "distance", "eigrp", "fast-reroute", "graceful-restart", "ispf", "is-type", "limit", "log-adjacency-changes", "max-lsa", "max-metric",
    "maximum-paths", "metric", "mpls", "neighbor", "net", "network", "nsf", "nsr", "offset-list", "passive-interface", "prefix-suppression", "queue-depth",
    "redistribute", "router-id", "shutdown", "snmp", "summary-address", "synchronization", "template", "timers", "traffic-share", "ttl-security",
    "validate-update-source", "variance", "version",
)
# What behind `ipv6` is for the margin alone.
IPV6_GLOBAL = ("access-list", "cef", "host", "local", "multicast-routing", "prefix-list", "route", "router", "unicast-routing")
IPV6_LIST_WORDS = ("deny", "evaluate", "exit", "no", "permit", "remark", "sequence", "end", "do")

# ---- in the section of a console, of which nothing is forwarded

LINE_WORDS = (
    "absolute-timeout", "access-class", "activation-character", "autocommand", "databits", "domain-lookup", "escape-character",
    "exec", "exec-banner", "exec-character-bits", "exec-timeout", "flowcontrol", "full-help", "history", "ipv6", "length", "location",
    "lockable", "logging", "login", "modem", "monitor", "motd-banner", "notify", "padding", "parity", "password", "privilege", "refuse-message",
    "rotary", "rxspeed", "session-limit", "session-timeout", "speed", "stopbits", "terminal-type", "timeout", "transport", "txspeed",
    "vacant-message", "width",
)

# ---- in the section of a list

ENTRY_FIRST = ("deny", "permit", "remark", "no", "exit", "end", "default", "do")
ENTRY_FIRST_OTHERS = ("dynamic", "evaluate", "help", "sequence")

# ---- where commands are given that change no configuration

EXEC_HARMLESS = ("enable", "disable", "exit", "end", "logout", "quit", "show", "write", "terminal", "ping", "traceroute")
EXEC_COVERED = ("configure", "copy")
EXEC_OTHERS = (
    "access-enable", "access-template", "archive", "attach", "calendar", "call", "cd", "clear", "clock", "cns", "connect", "crypto", "debug",
    "delete", "diagnostic", "dir", "disconnect", "dot1x", "erase", "ethernet", "event", "format", "fsck", "help", "install", "isdn", "lock",
    "login", "mkdir", "monitor", "more", "mpls", "mtrace", "name-connection", "no", "pad", "ppp", "pwd", "reload", "rename", "request",
    "resume", "rlogin", "rmdir", "rsh", "send", "set", "setup", "slip", "squeeze", "ssh", "start", "systat", "telnet", "test", "tclsh",
    "tunnel", "udld", "undebug", "undelete", "verify", "vlan", "where", "which-route", "x28",
)

# ---- kinds of interfaces: those that a line can make, and those that have to be there

VIRTUAL = ("BDI", "BVI", "Dialer", "Loopback", "Multilink", "Port-channel", "Tunnel", "Virtual-Template", "Vlan")
PHYSICAL = (
    "Analysis-Module", "AppGigabitEthernet", "Async", "ATM", "BRI", "Cellular", "Content-Engine", "CTunnel", "Dot11Radio",
    "Embedded-Service-Engine", "Ethernet", "FastEthernet", "Fddi", "FiftyGigE", "FiveGigabitEthernet", "FortyGigabitEthernet",
    "FourHundredGigE", "GigabitEthernet", "GMPLS", "Group-Async", "HundredGigE", "IDS-Sensor", "Integrated-Service-Engine", "ISM", "Lex", "LISP", "MFR",
    "Null", "nve", "POS", "pseudowire", "Serial", "Service-Engine", "SM", "SSLVPN-VIF", "TenGigabitEthernet", "TokenRing",
    "TwentyFiveGigE", "TwoGigabitEthernet", "ucse", "vasileft", "vasiright", "Vif", "Virtual-Access", "Virtual-PPP",
    "Virtual-TokenRing", "Wlan-GigabitEthernet", "XTagATM",
)


def resolve(line, word, covered, others=()):
    """The word that a written one stands for at its place: itself, or the only word that it begins, in any case of letters."""
    lower = word.lower()
    choices = sorted(set(covered) | set(others))
    if lower in choices:
        return lower
    found = [choice for choice in choices if choice.lower().startswith(lower)]
    if not found:
        raise line.refused("UnknownCommand", word)
    if len(found) > 1:
        raise line.refused("Ambiguous", word, found)
    return found[0]


def need(line, word, covered, others):
    """As `resolve`, where only the covered words are taken."""
    found = resolve(line, word, covered, others)
    if found not in covered:
        raise line.refused("NotCovered", found)
    return found
