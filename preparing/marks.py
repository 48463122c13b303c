"""Marks: comments at the top of a prepared configuration, for what no run on it can know.

One says of which day the routes of a table are: they are as they were then, and no protocol reacts to a change or a failure. Another
says of a waiver which line was left out, and why.
"""
import os
import re
import time

from .blocks import Block
from .texts import Line

ROUTES = re.compile(r"! routes of (?P<table>.+) of (?P<date>[0-9]{4}-[0-9]{2}-[0-9]{2}): protocols don't react")
WAIVED = re.compile(r"! waived: (?P<waiver>.+)")


def date_of(path):
    """The day on which a table was written, in UTC."""
    return time.strftime("%Y-%m-%d", time.gmtime(os.path.getmtime(path)))


def put_mark(device, text):
    """Puts a mark on top of a configuration, behind those that are there."""
    first = device.blocks[0] if device.blocks and device.blocks[0].head is None else None
    if first is None or not first.body or first.body[0].number:
        device.blocks.insert(0, Block(None, []))
    marks = device.blocks[0].body
    place = sum(line.number == 0 for line in marks)
    marks.insert(place, Line(text, device.path, 0))


def mark_routes(device, date):
    """The mark of the routes of a table of a day."""
    put_mark(device, "! routes of %s of %s: protocols don't react" % (os.path.basename(device.table), date))


def waived_mark(device, words, reason):
    """The mark of a line that was left out by a waiver."""
    put_mark(device, "! waived: %s %s: %s" % (device.name, words, reason))


def marks_of(folder):
    """The days of the tables whose routes the configurations of a folder have, and the waivers by which lines were left out of them,
    each once, in order."""
    days, waivers = set(), set()
    for name in os.listdir(folder):
        if not name.endswith(".cfg"):
            continue
        try:
            with open(os.path.join(folder, name), "rb") as stream:
                for line in stream:
                    text = line.decode("ascii", "surrogateescape").rstrip("\r\n")
                    routes, waived = ROUTES.fullmatch(text), WAIVED.fullmatch(text)
                    if not routes and not waived:
                        break
                    if routes:
                        days.add(routes["date"])
                    else:
                        waivers.add(waived["waiver"])
        except OSError:
            continue
    return sorted(days), sorted(waivers)


def marks_told(folders):
    """What is told of the marks of folders: a line for the tables of routes, and one for each waiver."""
    found = [marks_of(folder) for folder in folders if os.path.isdir(folder)]
    days = sorted({day for several, _ in found for day in several})
    told = []
    if days:
        told.append("routes of %s: protocols don't react to a change or a failure" % (days[0] if len(days) == 1 else "%s to %s" % (days[0], days[-1])))
    return told + ["waived: %s" % waiver for waiver in sorted({waiver for _, several in found for waiver in several})]
