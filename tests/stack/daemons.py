"""FRR's zebra and staticd for a router, in its namespace, with files and sockets in a folder of the run."""
import os
import re
import shutil
import subprocess
import time
from typing import Optional, Sequence

from classes import best_prefix, installed_routes, refused_routes
from namespaces import LONGEST, Namespace, NotSettled, StackError
from networks import Route, Router, Subnet, dotted

ZEBRA = "/usr/lib/frr/zebra"
STATICD = "/usr/lib/frr/staticd"
# A route that is written last, by which the run sees that all before it were taken.
LAST = "198.18.255.255"
# So many times routes are written, each time those that need the ones before.
LEVELS = 4
# A daemon rests that hasn't run for so many seconds: zebra's own timers are shorter.
QUIET = 0.1


def is_near(router: Router, route: Route) -> bool:
    """Whether FRR finds the next hop of interface and next hop on the interface's own subnet: it is there, and no longer route has it."""
    subnets = [subnet for subnet in router.interfaces[route.interface or ""].subnets if subnet.holds(route.next_hop or 0)]
    longest = max((subnet.length for subnet in subnets), default=33)
    return longest < 33 and not any(one.prefix.length > longest and one.prefix.holds(route.next_hop or 0) for one in router.routes)


def route_line(router: Router, route: Route) -> str:
    """The route as FRR writes it. Of interface and next hop `onlink` says that the next hop is a neighbour there, as IOS takes it. It is
    written only where FRR wouldn't find so: of a way whose interface is down staticd leaves the word on the next way of the prefix."""
    words = ["ip route", f"{dotted(route.prefix.address)}/{route.prefix.length}"]
    if route.next_hop is not None:
        words.append(dotted(route.next_hop))
    if route.interface is not None:
        words.append(route.interface)
    if route.next_hop is not None and route.interface is not None and not is_near(router, route):
        words.append("onlink")
    return " ".join(words + ([str(route.distance)] if route.distance != 1 else []))


def is_first(installed: dict[Subnet, list[Route]], route: Route) -> bool:
    """Whether a route needs no other one but a connected one."""
    if route.interface is not None or route.next_hop is None:
        return True
    prefix = best_prefix(installed, route.next_hop)
    return prefix is None or installed[prefix][0].distance == 0


class Daemons:
    """The daemons of a router."""

    def __init__(self, router: Router, namespace: Namespace, folder: str):
        self.router = router
        self.namespace = namespace
        self.folder = folder
        self.started: list[subprocess.Popen] = []
        os.makedirs(folder)
        shutil.chown(folder, "frr", "frr")

    def path(self, name: str) -> str:
        return os.path.join(self.folder, name)

    def start(self, program: str, text: str) -> None:
        name = os.path.basename(program)
        with open(self.path(name + ".conf"), "w") as file:
            file.write(text)
        os.chmod(self.path(name + ".conf"), 0o644)
        words = [program, "-u", "frr", "-g", "frr", "-A", "127.0.0.1", "-P", "0", "--vty_socket", self.folder, "-z", self.path("zserv")]
        words += ["-f", self.path(name + ".conf"), "-i", self.path(name + ".pid")]
        self.started.append(self.namespace.start(words, self.path(name + ".log")))

    def start_zebra(self) -> None:
        """A static route's next hop may be found by a default, as on IOS; its own prefix never resolves it."""
        lines = [f"hostname {self.router.name}", "ip nht resolve-via-default", "zebra route-map delay-timer 0", "route-map ANEW permit 10"]
        self.start(ZEBRA, "\n".join(lines) + "\n")

    def start_staticd(self) -> None:
        self.wait_for("zserv")
        lines = [route_line(self.router, route) for route in self.levels()[0]] + [f"ip route {LAST}/32 Null0"]
        self.start(STATICD, "\n".join(lines) + "\n")

    def levels(self) -> list[list[Route]]:
        """The routes, first those whose next hop is on a connected subnet, and then those that are found by routes before them.

        They are written in this order, since zebra keeps what it first found a next hop by, also where a route that comes later is better.
        Of a prefix that the kernel refuses the way for which it does so comes before the others: else it keeps what it had of them.
        """
        installed = installed_routes(self.router)
        levels: dict[Route, int] = {}
        for route in self.router.routes:
            prefix = None if route.interface is not None or route.next_hop is None else best_prefix(installed, route.next_hop)
            behind = installed[prefix] if prefix is not None else []
            levels[route] = 0 if all(one.distance == 0 for one in behind) else 1 if all(is_first(installed, one) for one in behind) else 2
        refused = refused_routes(self.router, installed)
        for bad in refused:
            for route in self.router.routes:
                if route.prefix == bad.prefix and route not in refused:
                    levels[route] = max(levels[route], levels[bad] + 1)
        return [[route for route in self.router.routes if levels[route] == level] for level in range(LEVELS)]

    def add(self, routes: list[Route]) -> None:
        """Configures further routes. Of Null0 and another way of one prefix and distance FRR refuses the later one.

        Raises:
            StackError: it refuses one for another reason.
        """
        for line in (route_line(self.router, route) for route in routes):
            words = ["vtysh", "--vty_socket", self.folder, "-d", "staticd", "-c", "configure", "-c", line]
            done = self.namespace.run(words, fails=True)
            if done.returncode != 0 and "blackhole and non-blackhole" not in done.stdout + done.stderr:
                raise StackError(f"{line}: {done.stderr.strip() or done.stdout.strip()}")

    def wait_for(self, name: str) -> None:
        """Waits until a socket is there.

        Raises:
            NotSettled: a daemon ended, or too much time has passed.
        """
        end = time.monotonic() + LONGEST
        while not os.path.exists(self.path(name)):
            self.check_running()
            if time.monotonic() > end:
                raise NotSettled(f"a daemon of {self.router.name} doesn't serve: {self.said()}")
            time.sleep(0.01)

    def check_running(self) -> None:
        """Says where a daemon is gone.

        Raises:
            NotSettled: it is.
        """
        if any(child.poll() is not None for child in self.started):
            raise NotSettled(f"a daemon of {self.router.name} ended: {self.said()}")

    def said(self) -> str:
        texts = []
        for name in ("zebra.log", "staticd.log"):
            if os.path.exists(self.path(name)):
                with open(self.path(name)) as file:
                    texts.append(file.read().strip())
        return " ".join(texts)

    def table(self) -> Optional[str]:
        """The kernel's routes as `ip route` tells them, or None where the last one isn't there yet."""
        text = self.namespace.run(["ip", "route", "show"]).stdout
        return re.sub(r" nhid \d+", "", text) if LAST in text else None

    def is_recursive(self) -> bool:
        """Whether a next hop is in no subnet of the router, and so is looked up in further routes."""
        subnets = [subnet for _, subnet in self.router.live()]
        hops = [route.next_hop for route in self.router.routes if route.interface is None and route.next_hop is not None]
        return any(not any(subnet.holds(hop) for subnet in subnets) for hop in hops)

    def look_anew(self, times: int) -> None:
        """Has zebra look up all static routes anew, as IOS does once a minute.

        By itself it does so where a next hop is found that wasn't, or isn't any more, but not where another route finds it: then what
        stands in its table depends on the order in which routes came.
        """
        line = "ip protocol static route-map ANEW" if times % 2 == 0 else "no ip protocol static"
        self.namespace.run(["vtysh", "--vty_socket", self.folder, "-d", "zebra", "-c", "configure", "-c", line])

    def stop(self) -> None:
        """Ends what was started, by its number."""
        Namespace.stop(self.started)
        self.started = []


def begin(daemons: list[Daemons]) -> None:
    """Starts staticd on all routers, where zebra runs, and waits until all routes are there.

    Raises:
        NotSettled: that takes too long.
    """
    for one in daemons:
        one.start_staticd()
    for level in range(1, LEVELS):
        later = [(one, one.levels()[level]) for one in daemons]
        if any(routes for _, routes in later):
            rest(daemons)
            for one, routes in later:
                if routes:
                    one.add(routes)
    settle(daemons)


def settle(daemons: list[Daemons]) -> None:
    """Waits until each kernel has its last route and no table changes any more, also where next hops are looked up anew.

    Raises:
        NotSettled: that takes too long, or the tables change each time.
    """
    tables = rest(daemons)
    recursive = [one for one in daemons if one.is_recursive()]
    for times in range(8 if recursive else 0):
        for one in recursive:
            one.look_anew(times)
        before, tables = tables, rest(daemons)
        if before == tables and times > 0:
            return
    if recursive:
        raise NotSettled("the routes change each time that they are looked up anew")


def activity(numbers: Sequence[int]) -> Optional[list[str]]:
    """How often each thread of these processes has run; None where one doesn't sleep, be it for want of a processor."""
    counts = []
    try:
        for number in numbers:
            for thread in os.listdir(f"/proc/{number}/task"):
                with open(f"/proc/{number}/task/{thread}/status") as file:
                    text = file.read()
                if "\nState:\tS" not in text:
                    return None
                counts.append(thread + text[text.index("\nvoluntary_ctxt_switches"):])
    except OSError:  # one of them has just ended
        return None
    return counts


def rest(daemons: list[Daemons], quiet: float = QUIET) -> list[str]:
    """Waits until no thread of a daemon has run, or wanted to, for so many seconds; gives the kernels' tables.

    What is sent to a thread makes it want to run at once. So a busy machine takes longer, and isn't taken for one at rest.

    Raises:
        NotSettled: that takes too long, or a daemon ended.
    """
    end = time.monotonic() + LONGEST
    numbers = [child.pid for one in daemons for child in one.started]
    last: Optional[list[str]] = None
    since = time.monotonic()
    while time.monotonic() < end:
        for one in daemons:
            one.check_running()
        now = activity(numbers)
        if now is None or now != last:
            last, since = now, time.monotonic()
        elif time.monotonic() - since >= quiet:
            tables = [table for table in (one.table() for one in daemons) if table is not None]
            if len(tables) == len(daemons) and activity(numbers) == last:
                return tables
        time.sleep(0.01)
    raise NotSettled("the routes don't settle: " + " ".join(one.said() for one in daemons))
