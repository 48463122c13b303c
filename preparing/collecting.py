"""Fetches configurations and tables of routes from devices: `collect INVENTORY OUT`.

An inventory has a line for each device: its name, its address or host name, and perhaps a port and a type of netmiko's. Who logs in is
said by the environment alone: DIQENYU_USER, and DIQENYU_PASSWORD or DIQENYU_KEY, a file with a private key; DIQENYU_SECRET where the
commands need `enable`. Devices have to be known by their keys: DIQENYU_KNOWN_HOSTS names another file than ~/.ssh/known_hosts.
"""
import logging
import os
import re
import socket
import tempfile
import time
from concurrent.futures import ThreadPoolExecutor
from dataclasses import dataclass

import netmiko  # type: ignore[import]
import paramiko  # type: ignore[import]

from .addresses import is_number
from .faults import Fault, Faults, Refused, Unreached
from .outputs import check_free, write_folder
from .route_tables import read_routes
from .texts import PAGER, read_lines, says_something

COMMANDS = (("show running-config", "configs/%s.cfg"), ("show ip route", "routes/%s.txt"))
# What `wire --neighbors` reads: the answers of one device stand in one file, each behind a line with its command. A device may refuse any.
NEIGHBOR_COMMANDS = ("show cdp neighbors detail", "show lldp neighbors detail", "show standby brief", "show vrrp brief", "show glbp brief")
NEIGHBORS = "neighbors/%s.txt"
REFUSED = ("% Invalid input", "% Ambiguous", "% Authorization", "% Incomplete")
USUAL_TYPE = "cisco_ios"
AT_ONCE = 10
NAME = re.compile(r"[A-Za-z0-9_][A-Za-z0-9_.-]*")
# A pager that waits at the end of a text, the mark that is put in its place, and the mark with what the device then sends to wipe its
# line out: backspaces and blanks, or carriage returns and blanks.
PAGER_WAITS = re.compile(r" ?-+ ?[Mm]ore ?-+ ?$")
PAGE = "\x00"
WIPED = re.compile(r"\x00(?:\x08+ *\x08*|\r *\r)?")


@dataclass(frozen=True)
class Target:
    """A line of an inventory."""

    name: str
    host: str
    port: int
    kind: str


@dataclass(frozen=True)
class Access:
    """How one logs in, as the environment says, and how many seconds an answer may take."""

    user: str
    password: str
    secret: str
    key: str
    known_hosts: str
    seconds: float


def access_of(environment):
    """What the environment says; what it lacks is told in one line."""
    user = environment.get("DIQENYU_USER", "")
    password, key = environment.get("DIQENYU_PASSWORD", ""), environment.get("DIQENYU_KEY", "")
    if not user or not (password or key):
        raise Unreached("any device", "the environment has no DIQENYU_USER with DIQENYU_PASSWORD or DIQENYU_KEY")
    try:
        seconds = float(environment.get("DIQENYU_TIMEOUT", "60"))
    except ValueError:
        raise Unreached("any device", "DIQENYU_TIMEOUT is no number of seconds") from None
    known = environment.get("DIQENYU_KNOWN_HOSTS") or os.path.expanduser("~/.ssh/known_hosts")
    return Access(user, password, environment.get("DIQENYU_SECRET", ""), key, known, seconds)


def read_inventory(path):
    """The devices of an inventory, in order."""
    targets, names = [], set()
    for line in read_lines(path):
        if not says_something(line):
            continue
        words = line.words()
        if len(words) < 2:
            raise line.refused("MissingWord")
        if len(words) > 4:
            raise line.refused("ExtraWord", words[4])
        if NAME.fullmatch(words[0]) is None:
            raise line.refused("BadWord", words[0])
        if words[0] in names:
            raise line.refused("NameTwice", words[0])
        names.add(words[0])
        port = words[2] if len(words) > 2 else "22"
        if not is_number(port) or not 1 <= int(port) <= 65535:
            raise line.refused("BadWord", port)
        kind = words[3] if len(words) > 3 else USUAL_TYPE
        if kind not in netmiko.platforms or not kind.startswith("cisco"):
            raise line.refused("BadWord", kind)
        targets.append(Target(words[0], words[1], int(port), kind))
    if not targets:
        raise Refused(path, 0, "NoDevice")
    return targets


def connect(target, access):
    """A session; one with a device whose key isn't known isn't begun."""
    words = {"use_keys": True, "key_file": access.key} if access.key else {"password": access.password}
    return netmiko.ConnectHandler(
        device_type=target.kind, host=target.host, port=target.port, username=access.user, secret=access.secret, ssh_strict=True,
        system_host_keys=False, alt_host_keys=os.path.exists(access.known_hosts), alt_key_file=access.known_hosts, allow_agent=False,
        timeout=access.seconds, auth_timeout=access.seconds, banner_timeout=access.seconds, blocking_timeout=access.seconds, **words)


def ask(session, command, seconds):
    """What a device answers to a command, byte for byte, without the pages of a pager that wasn't to be turned off.

    The channel is read here and not by netmiko's own call, which leaves out bytes that aren't UTF-8 without a word, and waits out its
    time where a device has gone.
    """
    prompt = re.escape(session.find_prompt().encode("ascii", "ignore").decode("ascii"))
    ends = re.compile(r"(?:^|[\r\n])%s[ \r\n]*$" % prompt)
    channel, text, end = session.remote_conn, "", time.monotonic() + seconds
    channel.sendall(command.encode("ascii") + b"\n")
    channel.settimeout(0.2)
    while not (command in text and ends.search(text)):
        if PAGER_WAITS.search(text):
            text = PAGER_WAITS.sub(PAGE, text)
            channel.sendall(b" ")
        try:
            piece = channel.recv(65536)
        except socket.timeout:
            if time.monotonic() > end:
                raise Unreached(session.host, "no whole answer to %s in time" % command) from None
            continue
        if not piece:
            raise Unreached(session.host, "it ended the session within its answer to %s" % command)
        text += piece.decode("ascii", "surrogateescape")
        end = time.monotonic() + seconds
    return answer_of(text, command, ends)


def answer_of(text, command, ends):
    """The answer between the line with the command and the prompt, with the ends of lines as texts have them."""
    text = WIPED.sub("", text)
    text = ends.sub("\n", text).replace("\r\n", "\n").replace("\r", "")
    _, _, rest = text[text.index(command):].partition("\n")
    return rest


def is_refused(text):
    """Whether a device doesn't take a command."""
    return any(mark in text for mark in REFUSED)


def neighbors_text(target, session, seconds):
    """What a device says of its neighbours and groups: each answer behind its command; those that it refuses or doesn't run are left out."""
    texts = []
    for command in NEIGHBOR_COMMANDS:
        text = ask(session, command, seconds)
        if is_refused(text) or "is not enabled" in text or not text.strip():
            continue
        check_whole(target, command, text)
        texts.append("%s#%s\n%s" % (target.name, command, text))
    return "".join(texts)


def check_whole(target, command, text):
    """Refuses an answer that isn't whole, or that the device gave in place of what was asked."""
    if is_refused(text):
        raise Unreached(target.name, "it refuses %s" % command)
    if "\x08" in text or PAGER.search(text):
        raise Unreached(target.name, "the pages of %s could not be put together" % command)
    if command == "show running-config" and text.rstrip().split("\n")[-1].strip() != "end":
        raise Unreached(target.name, "%s has no last line end" % command)
    if command == "show ip route":
        with tempfile.TemporaryDirectory() as folder:
            path = os.path.join(folder, "routes")
            with open(path, "wb") as file:
                file.write(text.encode("ascii", "surrogateescape"))
            try:
                read_routes(path)
            except Fault as fault:
                raise Unreached(target.name, "%s: %s" % (command, fault.line().replace(path, "answer"))) from None


def reason_of(error):
    """An error of the libraries in one line, without what a login says."""
    text = " ".join(str(error).split())
    if isinstance(error, netmiko.NetMikoAuthenticationException):
        return "it refuses the login"
    if "not found in known_hosts" in text:
        return "its key isn't known: it is not in the file of known hosts"
    if isinstance(error, netmiko.NetMikoTimeoutException):
        return "there is no connection in time"
    if isinstance(error, paramiko.SSHException) and ("No existing session" in text or "protocol banner" in text):
        return "it begins no session in time"
    return text[:200] or type(error).__name__


def fetch(target, access):
    """All answers of one device, as pairs of a path and bytes."""
    session = None
    try:
        session = connect(target, access)
        if access.secret:
            session.enable()
        answers = []
        for command, path in COMMANDS:
            text = ask(session, command, access.seconds)
            check_whole(target, command, text)
            answers.append((path % target.name, text.encode("ascii", "surrogateescape")))
        neighbors = neighbors_text(target, session, access.seconds)
        if neighbors:
            answers.append((NEIGHBORS % target.name, neighbors.encode("ascii", "surrogateescape")))
        return answers
    except Unreached as fault:
        raise Unreached(target.name, fault.reason) from None
    except Exception as error:
        # The libraries raise what they like: whatever it is, this device has given no whole answer.
        raise Unreached(target.name, reason_of(error)) from None
    finally:
        close(session)


def close(session):
    """Ends a session; a device that has gone doesn't mind."""
    try:
        if session is not None:
            session.disconnect()
    except Exception:
        pass


def collect(inventory, out):
    """Fetches from all devices and writes the folder, where all have answered; gives the lines to tell."""
    check_free(out)
    # What the libraries log is told in one line of each device that failed.
    logging.getLogger("paramiko").addHandler(logging.NullHandler())
    logging.getLogger("netmiko").addHandler(logging.NullHandler())
    targets, access = read_inventory(inventory), access_of(os.environ)

    def attempt(target):
        """What one device answered, or why it didn't: the others go on."""
        try:
            return fetch(target, access), None
        except Fault as fault:
            return [], fault

    with ThreadPoolExecutor(max_workers=AT_ONCE) as pool:
        results = list(pool.map(attempt, targets))
    faults = [fault for _, fault in results if fault is not None]
    if faults:
        raise Faults(faults)
    write_folder(out, [answer for answers, _ in results for answer in answers])
    return ["%s: %d bytes in %s" % (target.name, len(content), os.path.join(out, path))
            for target, (answers, _) in zip(targets, results) for path, content in answers]
