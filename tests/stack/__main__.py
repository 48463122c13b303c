#!/usr/bin/env python3
"""The rules beside a real stack: the same random networks through the Linux kernel with FRR and nftables, and through the verifier.

    stack [--packets N] [--lookups N] [--failures N] [--seed N] [--spoil NAME]...

Packets go through networks of three to five routers, lookups are asked of single routers, and failures are packets through networks
that went through `prepare`, on days when interfaces go down. `--spoil` spoils a kind of rule on the stack's side, and wants the run to
notice; `--spoil all` does so with each kind, `--spoil list` names them.

It wants root and Debian's packages frr, iproute2 and nftables; where they aren't there it says so and ends with status 0. The verifier
is the built program, or the one that DIQENYU_REVIEW names. Each difference outside the classes is told, then counts by outcome and by class;
the last line is `N passed, M failed`. A stack that doesn't come to rest is told and counted, and fails nothing, unless more than two and
more than a tenth of all do so. All traffic stays in namespaces that this process makes and that end with it.
"""
import argparse
import os
import signal
import sys
import tempfile

import failures
import lookups
import namespaces
import runs
import spoilers
from classes import drawn_network

TOP = os.path.dirname(os.path.dirname(os.path.dirname(os.path.abspath(__file__))))
# So many packets go through one network, and so many lookups are asked of one router.
PACKETS, LOOKUPS, ON_A_DAY = 500, 500, 100


def arguments() -> argparse.Namespace:
    parser = argparse.ArgumentParser(prog="stack", description=(__doc__ or "").split("\n")[0])
    parser.add_argument("--packets", type=int, default=0, help="packets through networks")
    parser.add_argument("--lookups", type=int, default=0, help="lookups of single routers")
    parser.add_argument("--failures", type=int, default=0, help="packets through prepared networks of which interfaces go down")
    parser.add_argument("--seed", type=int, default=1, help="the first network's number")
    parser.add_argument("--spoil", action="append", default=[], metavar="NAME", help="a kind of rule; `all` or `list`")
    return parser.parse_args()


def review() -> str:
    """The verifier's program."""
    return os.environ.get("DIQENYU_REVIEW") or os.path.join(TOP, "crates/review_cli/out/review_cli")


def tell(tally: runs.Tally) -> None:
    sizes = f"networks {tally.networks}, packets {tally.packets}, lookups {tally.lookups}, days of failures {tally.days}"
    print(f"{sizes}, traces {tally.calls}")
    print("agreed: " + ", ".join(f"{name} {count}" for name, count in sorted(tally.agreed.items())))
    print(f"expiries seen by counters: {tally.counted}; agreed only when sent alone: {tally.again - tally.counted}")
    print(f"stacks built {tally.built}, of which {len(tally.unsettled)} didn't settle")
    for text in tally.unsettled:
        print("not settled: " + text)
    for name, count in sorted(tally.classes.items()):
        print(f"class {name}: {count}")


def tell_new(tally: runs.Tally, told: int) -> int:
    """Tells the differences that came since so many were told; gives how many there are."""
    for text in tally.differences[told:]:
        print("FAILED " + text, flush=True)
    return len(tally.differences)


def try_all(options: argparse.Namespace, folder: str, tally: runs.Tally) -> None:
    """Tries as many packets, lookups and packets on days of failures as are asked for."""
    seed, told = options.seed, 0
    while tally.packets < options.packets and not tally.is_restless():
        network = drawn_network(seed)
        count = min(PACKETS, options.packets - tally.packets)
        with tally.settled(f"network {seed}"):
            runs.try_network(network, network, seed, count, review(), os.path.join(folder, f"network{seed}"), tally)
        seed, told = seed + 1, tell_new(tally, told)
    seed = options.seed
    while tally.lookups < options.lookups and not tally.is_restless():
        network = lookups.Maker(seed).network()
        count = min(LOOKUPS, options.lookups - tally.lookups)
        with tally.settled(f"router {seed}"):
            lookups.try_router(network, network, seed, count, review(), os.path.join(folder, f"router{seed}"), tally)
        seed, told = seed + 1, tell_new(tally, told)
    seed, asked = options.seed, options.packets + options.failures
    while tally.packets < asked and not tally.is_restless():
        with tally.settled(f"failures {seed}"):
            failures.try_failures(seed, ON_A_DAY, review(), os.path.join(folder, f"failures{seed}"), tally)
        seed, told = seed + 1, tell_new(tally, told)


def spoil(names: list[str], folder: str, whole: runs.Tally) -> tuple[int, int]:
    """Spoils each kind of rule; gives how many the run noticed, and how many it didn't."""
    seen = 0
    for name in names:
        tally = runs.Tally()
        found = spoilers.is_noticed(name, review(), folder, tally)
        whole.built += tally.built
        whole.unsettled += [f"spoiled {name}, {text}" for text in tally.unsettled]
        told = "FAILED, not noticed" if found is None else f"noticed in network {found}"
        print(f"spoiled {name}: {told}, packets {tally.packets}", flush=True)
        seen += found is not None
        if whole.is_restless():
            break
    return seen, len(names) - seen


def main() -> int:
    options = arguments()
    if "list" in options.spoil:
        print("\n".join(spoilers.ALL))
        return 0
    # (the tools of the system aren't on each PATH)
    os.environ["PATH"] = os.environ.get("PATH", "/usr/bin:/bin") + ":/usr/sbin:/sbin"
    reason = namespaces.missing()
    if reason is None and not os.access(review(), os.X_OK):
        reason = f"{review()} isn't there"
    if reason is not None:
        print(f"the rules beside a real stack: isn't tried: {reason}")
        print("0 passed, 0 failed")
        return 0
    # Where it is told to end, the run ends what it started first.
    signal.signal(signal.SIGTERM, lambda *_: sys.exit(143))
    tally = runs.Tally()
    with tempfile.TemporaryDirectory(prefix="stack-") as folder:
        os.chmod(folder, 0o755)
        try_all(options, folder, tally)
        seen, unseen = spoil(spoilers.ALL if "all" in options.spoil else options.spoil, folder, tally)
    tell(tally)
    failed = tally.outside + unseen
    if tally.is_restless():
        print("FAILED: too many stacks didn't settle; the rest isn't tried")
        failed += 1
    print(f"{sum(tally.agreed.values()) + seen} passed, {failed} failed")
    return 1 if failed else 0


if __name__ == "__main__":
    sys.exit(main())
