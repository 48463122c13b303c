"""Network namespaces that live as long as this process holds them, and commands in them.

They have no names, so two runs don't meet, and nothing is left of one that was killed.
"""
import contextlib
import ctypes
import os
import signal
import subprocess
from typing import Iterable, Iterator, Optional, Sequence

CLONE_NEWNET = 0x40000000
# No longer than so many seconds a command may take, or a wait for a state of the stack.
LONGEST = 60
# The FRR whose daemons the run knows how to configure.
FRR = "8"
libc = ctypes.CDLL(None, use_errno=True)


class StackError(Exception):
    """Something of the stack couldn't be set up."""


class NotSettled(StackError):
    """The stack didn't come to rest: what it does with packets would be no answer."""


def checked(result: int) -> None:
    if result != 0:
        code = ctypes.get_errno()
        raise OSError(code, os.strerror(code))


class Guard:
    """A process that outlives this one by a moment, to end by their numbers what this one started and couldn't end itself.

    (The kernel's own signal at a parent's end is lost where a daemon gives up root.)
    """

    def __init__(self) -> None:
        reading, self.writing = os.pipe()
        if os.fork() == 0:
            os.close(self.writing)
            os.setsid()
            with os.fdopen(reading) as lines:
                self.watch(lines)
            os._exit(0)
        os.close(reading)

    @staticmethod
    def watch(lines: Iterable[str]) -> None:
        """Reads `+PID` and `-PID` until the other end is gone, and ends what is left."""
        left: set[int] = set()
        for line in lines:
            (left.add if line[0] == "+" else left.discard)(int(line[1:]))
        for number in left:
            with contextlib.suppress(ProcessLookupError):
                os.kill(number, signal.SIGKILL)

    def tell(self, sign: str, number: int) -> None:
        os.write(self.writing, f"{sign}{number}\n".encode())


GUARDS: list[Guard] = []


def started(number: int) -> None:
    """Says that this process has started another one."""
    GUARDS[0].tell("+", number)


def ended(number: int) -> None:
    """Says that a process that was started has ended."""
    GUARDS[0].tell("-", number)


class Namespace:
    """A network namespace of its own. Give it up by `close`."""

    def __init__(self) -> None:
        if not GUARDS:  # before there is a namespace that it would hold
            GUARDS.append(Guard())
        home = os.open("/proc/self/ns/net", os.O_RDONLY)
        try:
            checked(libc.unshare(CLONE_NEWNET))
            self.handle = os.open("/proc/self/ns/net", os.O_RDONLY)
            checked(libc.setns(home, CLONE_NEWNET))
        finally:
            os.close(home)

    @property
    def path(self) -> str:
        """A path by which other processes name it while this one lives."""
        return f"/proc/{os.getpid()}/fd/{self.handle}"

    @contextlib.contextmanager
    def entered(self) -> Iterator[None]:
        """This process is in the namespace."""
        home = os.open("/proc/self/ns/net", os.O_RDONLY)
        try:
            checked(libc.setns(self.handle, CLONE_NEWNET))
            yield
        finally:
            checked(libc.setns(home, CLONE_NEWNET))
            os.close(home)

    def set(self, name: str, value: int) -> None:
        """Sets a sysctl, as `net/ipv4/ip_forward`, of the namespace."""
        with self.entered(), open("/proc/sys/" + name, "w") as file:
            file.write(str(value))

    def run(self, words: Sequence[str], text: str = "", fails: bool = False) -> subprocess.CompletedProcess:
        """Runs a command in the namespace with this text on its input.

        Raises:
            StackError: it failed, unless it may.
            NotSettled: it doesn't end.
        """
        try:
            with self.entered():
                done = subprocess.run(words, input=text, capture_output=True, text=True, timeout=LONGEST)
        except subprocess.TimeoutExpired as late:
            raise NotSettled(f"{' '.join(words)}: not ended after {LONGEST} seconds") from late
        if done.returncode != 0 and not fails:
            raise StackError(f"{' '.join(words)}: {done.stderr.strip() or done.stdout.strip()}")
        return done

    def start(self, words: Sequence[str], log: str) -> subprocess.Popen:
        """Starts a command in the namespace, which ends with this process at the latest."""
        with self.entered(), open(log, "w") as file:
            child = subprocess.Popen(words, stdin=subprocess.DEVNULL, stdout=file, stderr=file)
        started(child.pid)
        return child

    @staticmethod
    def stop(children: Sequence[subprocess.Popen]) -> None:
        """Ends commands that were started."""
        for child in children:
            child.kill()
        for child in children:
            child.wait()
            ended(child.pid)

    def ip(self, lines: Sequence[str]) -> None:
        """Runs these commands of `ip`."""
        self.run(["ip", "-batch", "-"], "\n".join(lines) + "\n")

    def close(self) -> None:
        os.close(self.handle)


def missing() -> Optional[str]:
    """Why the stack can't be tried here, or None."""
    if os.geteuid() != 0:
        return "it wants root"
    tools = {"ip": "iproute2", "nft": "nftables", "/usr/lib/frr/zebra": "frr", "/usr/lib/frr/staticd": "frr"}
    folders = os.environ["PATH"].split(":")
    for tool, package in tools.items():
        if not any(os.access(os.path.join(folder, tool), os.X_OK) for folder in folders):
            return f"{tool} isn't there (Debian: {package})"
    version = subprocess.run(["/usr/lib/frr/zebra", "--version"], capture_output=True, text=True).stdout.partition("\n")[0]
    if f" {FRR}." not in version:
        return f"it wants FRR {FRR}: {version or 'zebra tells no version'}"
    try:
        return missing_in_kernel()
    except OSError as error:
        return f"no network namespace can be made: {error.strerror}"


def missing_in_kernel() -> Optional[str]:
    """What this kernel doesn't have, or None: pairs of interfaces, bridges, and nftables' hook for what leaves by an interface.

    Raises:
        OSError: it makes no namespace.
    """
    probe = Namespace()
    try:
        probe.ip(["link add one type veth peer name other", "link add both type bridge"])
        hook = "type filter hook egress device one priority 0;"
        probe.run(["nft", "-f", "-"], f"table netdev probe {{\nchain leaving {{ {hook} }}\n}}\n")
    except StackError as error:
        return f"the kernel can't do it: {str(error).partition(chr(10))[0]}"
    finally:
        probe.close()
    return None
