#!/usr/bin/env python3
"""Runs every command that README.md, docs/GUIDE.md and the manual pages show, and finds pages that name a file which doesn't exist.

usage: pages.py [PAGE ...]      by default README.md, docs/GUIDE.md and man/*.[17] for the commands, and all pages for the links

A block is a run of lines that are indented by four blanks, or between lines of three backquotes; in a manual page it is between .EX and
.EE. A block with a line that begins with `$ ` is a session: the lines after such a line are its output and its error output together, and
`...` stands for any lines. A block with a line that begins with one of our programs is run as one script. Each page runs in a copy of the
repository's top with a folder `change`, which is the change of examples/campus; manual pages find the programs on the PATH.
The last line is 'N passed, M failed'.
"""
import os
import pathlib
import re
import shutil
import subprocess
import sys
import tempfile

TOP = pathlib.Path(__file__).resolve().parent.parent
NAMES = ('review', 'rollout', 'view', 'doctor', 'window', 'wire', 'sweep', 'prepare', 'collect')
PROGRAMS = ('$ ', './launch ') + tuple(f'./{name} ' for name in NAMES)
# Statuses of a shell that could not run a command, of words outside the usage, and of a launcher that could not build.
NOT_RUN = (2, 70, 126, 127)
SECONDS = 120
# The names of all files of the repository.
FILES = {path.name for folder in TOP.iterdir() if folder.name not in ('.git', 'build') for path in [folder, *folder.rglob('*')]}


def blocks(text):
    """The blocks of a page, each with the number of its first line."""
    block, first, fenced = [], 0, False
    for number, line in enumerate(text.splitlines(), 1):
        if line.startswith('```'):
            fenced = not fenced
            if block:
                yield first, block
            block = []
            continue
        inside = fenced or line.startswith('    ')
        if inside or (block and not fenced and not line.strip()):
            if not block:
                first = number
            block.append(line if fenced else line[4:])
        elif block:
            yield first, strip(block)
            block = []
    if block:
        yield first, strip(block)


def manual_blocks(text):
    """The examples of a manual page, without the escapes of roff, each with the number of its first line."""
    block = None
    for number, line in enumerate(text.splitlines(), 1):
        if line == '.EX':
            first, block = number + 1, []
        elif line == '.EE':
            yield first, block
            block = None
        elif block is not None:
            block.append(line.removeprefix('\\&').replace('\\-', '-').replace('\\e', '\\'))


def strip(block):
    """A block without empty lines at its end."""
    while block and not block[-1].strip():
        block.pop()
    return block


def sessions(block):
    """The commands of a session, each with the lines that it is to write."""
    command, lines = None, []
    for line in block:
        if line.startswith('$ '):
            if command is not None:
                yield command, lines
            command, lines = line[2:], []
        else:
            lines.append(line)
    if command is not None:
        yield command, lines


def is_like(wanted, got):
    """Whether the lines are the wanted ones, of which `...` stands for any."""
    if not wanted:
        return not got
    if wanted[0].strip() == '...':
        return any(is_like(wanted[1:], got[at:]) for at in range(len(got) + 1))
    return bool(got) and wanted[0].rstrip() == got[0].rstrip() and is_like(wanted[1:], got[1:])


def place():
    """A folder with everything that the repository's top has, and the change of the guide."""
    folder = pathlib.Path(tempfile.mkdtemp())
    for entry in TOP.iterdir():
        if entry.name not in ('.git', 'change'):
            (folder / entry.name).symlink_to(entry)
    campus = TOP / 'examples' / 'campus'
    change = folder / 'change'
    change.mkdir()
    for name in ('old', 'new'):
        shutil.copytree(campus / name, change / name)
    for name in ('links', 'questions'):
        shutil.copy(campus / name, change / name)
    shutil.copy(campus / 'links', change / 'newlinks')
    return folder


def run(script, folder):
    """The status of a script of the shell, and what it wrote."""
    try:
        done = subprocess.run(['bash', '-c', script], cwd=folder, stdin=subprocess.DEVNULL, stdout=subprocess.PIPE,
                              stderr=subprocess.STDOUT, timeout=SECONDS, check=False,
                              env=os.environ | {'PATH': f'{folder}:{os.environ["PATH"]}'})
    except subprocess.TimeoutExpired:
        return NOT_RUN[-1], [f'no end after {SECONDS} seconds']
    return done.returncode, done.stdout.decode(errors='replace').splitlines()


def try_page(page, told):
    """Runs the blocks of a page; adds to `told` what isn't as the page shows it."""
    passed = 0
    folder = place()
    is_manual = page.startswith('man/')
    programs = ('$ ', *(f'{name} ' for name in NAMES)) if is_manual else PROGRAMS
    for line, block in (manual_blocks if is_manual else blocks)((TOP / page).read_text()):
        if not any(entry.startswith(programs) for entry in block):
            continue
        shown = list(sessions(block))
        for command, wanted in shown:
            _, got = run(command, folder)
            if is_like(wanted, got):
                passed += 1
            else:
                told.append(f'{page}:{line}: {command}\n  wanted: {wanted[:6]}\n  wrote:  {got[:6]}')
        if not shown:
            status, got = run('\n'.join(block), folder)
            if status in NOT_RUN or 'usage:' in got:
                told.append(f'{page}:{line}: status {status}: {block[0]}\n  {got[:4]}')
            else:
                passed += 1
    shutil.rmtree(folder)
    return passed


def is_there(name, page):
    """Whether a page's name is that of a file: beside the page, from the top, or, without a folder, of a file anywhere."""
    if any((folder / name).exists() for folder in (TOP, (TOP / page).parent, TOP / 'crates')):
        return True
    return '/' not in name and name in FILES


def try_links(page, told):
    """Looks for each file that a page names."""
    passed = 0
    text = (TOP / page).read_text()
    names = set(re.findall(r'`((?:docs|examples|tests|bench|crates)/[\w./-]+)`', text))
    if page.startswith('man/'):
        names |= set(re.findall(r'\b(?:docs|examples)/[\w./-]*\w', text.replace('\\-', '-')))
    names |= set(re.findall(r'`([\w./-]+\.(?:md|antt|rt|py|sh|c|html|png))`', text))
    names |= {name for name in re.findall(r'\]\(([^)#:]+)\)', text)}
    for name in sorted(names):
        if is_there(name, page):
            passed += 1
        else:
            told.append(f'{page}: there is no {name}')
    return passed


def main():
    """Tries the pages, and tells how many of their commands and links are as they say."""
    manual = sorted(f'man/{path.name}' for path in TOP.glob('man/*.[17]'))
    pages = sys.argv[1:] or ['README.md', 'docs/GUIDE.md', *manual]
    told = []
    passed = sum(try_page(page, told) for page in pages)
    every = [str(path.relative_to(TOP)) for path in [*TOP.glob('*.md'), *TOP.glob('docs/*.md'), *TOP.glob('examples/**/*.md')]]
    every += manual
    for page in sorted(every):
        passed += try_links(page, told)
    for line in told:
        print('FAILED', line)
    print(f'{passed} passed, {len(told)} failed')
    return 1 if told else 0


if __name__ == '__main__':
    sys.exit(main())
