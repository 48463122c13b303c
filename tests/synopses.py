#!/usr/bin/env python3
"""Compares the forms of each program's usage with the SYNOPSIS of its manual page, in their order; `--help` and `--version` apart.

DIQENYU_REVIEW and the like name the programs, as tests/run does. The last line is 'N passed, M failed'.
"""
from __future__ import annotations

import pathlib
import re
import subprocess
import sys

TOP = pathlib.Path(__file__).resolve().parent.parent
NAMES = ("review", "rollout", "view", "doctor", "window", "wire", "sweep", "prepare", "collect", "prove")


def plain(form: str) -> str:
    """A form with single blanks, none of them beside a stroke."""
    return re.sub(r" ?\| ?", "|", " ".join(form.split()))


def is_asked(form: str) -> bool:
    """Whether a form is more than a request for help or for the version."""
    return not re.fullmatch(r"(--help|--version)(\|--version)?", form)


def forms_of_usage(name: str, usage: str) -> list[str]:
    """The forms at the beginning of a usage, without the program's name if they have it; a line with more blanks in front goes on."""
    forms: list[str] = []
    for line in usage.split("usage:", 1)[1].split("\n"):
        if line.startswith("   ") and forms:
            forms[-1] += " " + line.strip()
        elif line.startswith(" "):
            forms.append(plain(line))
        elif line:
            break
    if all(form.startswith(name + " ") for form in forms):
        forms = [form.removeprefix(name + " ") for form in forms]
    return [form for form in forms if is_asked(form)]


def forms_of_page(name: str, page: str) -> list[str]:
    """The forms of a page's SYNOPSIS, without the program's name."""
    section = page.split(".SH SYNOPSIS\n", 1)[1].split(".SH ", 1)[0]
    text = re.sub(r"\\f[BIR]", "", section).replace("\\-", "-")
    forms = (plain(form.replace("\n", " ")) for form in text.split(".br\n"))
    return [form for form in (form.removeprefix("./").removeprefix(name + " ") for form in forms) if is_asked(form)]


def main() -> int:
    """Compares all programs' forms; the status is 0 where they are the same."""
    failed = 0
    for name in NAMES:
        done = subprocess.run([str(TOP / name), "--help"], stdin=subprocess.DEVNULL, stdout=subprocess.PIPE, stderr=subprocess.STDOUT,
                              text=True, check=False)
        usage = forms_of_usage(name, done.stdout)
        page = forms_of_page(name, (TOP / "man" / (name + ".1")).read_text(encoding="utf-8"))
        usage = [form.replace("review|rollout|view|doctor ..", "PROGRAM ...") for form in usage]
        if usage != page:
            failed += 1
            print("FAILED %s:\n  usage: %s\n  page:  %s" % (name, usage, page))
    print("%d passed, %d failed" % (len(NAMES) - failed, failed))
    return int(failed != 0)


if __name__ == "__main__":
    sys.exit(main())
