#!/usr/bin/env python3
"""Reads back what `view --audit` writes of audits of random lists, and compares it with the text of the audit and with the files.

usage: view_audit.py [COUNT] [SEED]      by default 100 folders

Each folder has random lists (random_lists.py), and `rollout audit` writes its findings. The line of an entry is found here by the lines of
the files, apart from the program. Where python3-jsonschema is installed, each document is validated by docs/audit-schema.json. Each audit is
also changed in one place, and has to be refused with that line. DIQENYU_VIEW and DIQENYU_ROLLOUT name other programs than those of the
launchers. The last line is 'N passed, M failed'.
"""
import csv
import html
import io
import json
import os
import pathlib
import random
import re
import subprocess
import sys
import tempfile

TOP = pathlib.Path(__file__).resolve().parent.parent
VIEW = os.environ.get('DIQENYU_VIEW', str(TOP / 'view'))
PAGES = str(TOP / 'view')
ROLLOUT = os.environ.get('DIQENYU_ROLLOUT', str(TOP / 'rollout'))
# Of so many folders the page is tried, where Jinja2 is there.
PAGED = 5
try:
    import jsonschema
    VALIDATOR = jsonschema.Draft7Validator(json.loads((TOP / 'docs' / 'audit-schema.json').read_text()))
except ImportError:
    VALIDATOR = None
sys.path.insert(0, str(TOP))
sys.dont_write_bytecode = True

from showing import rendering  # noqa: E402

try:
    rendering.with_jinja()
    JINJA = True
except rendering.NoJinja:
    JINJA = False


def run(*words):
    """What a program writes of these words: its status, output and error output."""
    done = subprocess.run(words, capture_output=True, check=False)
    return done.returncode, done.stdout, done.stderr


def entries_of(file):
    """The entries of a file, by list and sequence number: the line's number and its text."""
    found, name, greatest = {}, None, {}
    for number, line in enumerate(file.read_text().split('\n'), 1):
        words = line.split()
        if not words or words[0].startswith('!'):
            continue
        if not line.startswith(' '):
            name = words[3] if words[:2] == ['ip', 'access-list'] else None
        if words[0] == 'access-list':
            here, rest = words[1], words[2:]
        elif name is not None and line.startswith(' '):
            here, rest = name, words
        else:
            continue
        sequence = None
        if rest[0].isdigit():
            sequence, rest = int(rest[0]), rest[1:]
        if rest[0] not in ('permit', 'deny'):
            continue
        if sequence is None:
            sequence = greatest.get(here, 0) + 10
        greatest[here] = max(greatest.get(here, 0), sequence)
        found[here, sequence] = (number, line.strip(), rest)
    return found


def closes(entries, name, sequence):
    """Whether the entry is the last of its list and denies everything."""
    last = max(s for n, s in entries if n == name)
    return sequence == last and entries[name, sequence][2] in (['deny', 'any'], ['deny', 'ip', 'any', 'any'])


def document_of(text, net, rows):
    """The document that an audit's lines and the files say."""
    files, lists = {}, []
    for line in text.decode().split('\n'):
        words = line.split(' ')
        if words[0] == 'list':
            file, name = words[1], words[2]
            files.setdefault(file, entries_of(net / file))
            lists.append({'file': file, 'list': name, 'dead': 0, 'redundant': 0, 'closing': 0, 'findings': []})
        elif words[0] in ('entry', 'by'):
            sequence = int(words[1])
            number, own, _ = files[file][name, sequence]
            one = {'sequence': sequence, 'line': number, 'text': own}
            if words[0] == 'entry':
                closing = closes(files[file], name, sequence)
                one.update(kind=words[2], closing=closing, by=[])
                lists[-1]['closing' if closing else words[2]] += 1
                lists[-1]['findings'].append(one)
            else:
                one['rows'] = int(words[3])
                if rows:
                    one['headers'] = []
                lists[-1]['findings'][-1]['by'].append(one)
        elif words[0] == 'dst' and rows:
            lists[-1]['findings'][-1]['by'][-1]['headers'].append(line)
    document = {'schema': 'diqenyu-audit', 'version': 1, 'lists': lists}
    for group in ('dead', 'redundant', 'closing'):
        document[group] = sum(one[group] for one in lists)
    return document


def table_of(document, rows):
    """The table that a document says."""
    lines = [['file', 'list', 'line', 'entry', 'kind', 'closing', 'by line', 'by entry', 'rows', 'headers']]
    for one in document['lists']:
        for finding in one['findings']:
            front = [one['file'], one['list'], str(finding['line']), finding['text'], finding['kind'], 'closing' if finding['closing'] else '']
            if not finding['by']:
                lines.append(front + ['', '', '0'])
            for taker in finding['by']:
                cells = [str(taker['line']), taker['text'], str(taker['rows'])]
                lines += [front + cells + [header] for header in (taker['headers'] if rows else [''])]
    return lines


def text_of(document, rows):
    """The text that a document says."""
    def name(one):
        return f"{one['file']} {one['list']}"
    shown = [one for one in document['lists'] if one['dead'] + one['redundant']]
    lines = [f"lists {len(document['lists'])}, with findings {len(shown)}: dead {document['dead']}, redundant {document['redundant']}; "
             f"closing denials {document['closing']}"]
    lines += [f"  {name(one)}: dead {one['dead']}, redundant {one['redundant']}" for one in shown]
    for one in shown:
        lines += ['', name(one)]
        for finding in one['findings']:
            if finding['closing']:
                continue
            lines.append(f"  line {finding['line']} {finding['kind']}: {finding['text']}")
            for taker in finding['by']:
                lines.append(f"    by line {taker['line']}, rows {taker['rows']}: {taker['text']}")
                lines += [f'      {header}' for header in (taker['headers'] if rows else [])]
    closing = [f"  {one['file']} line {f['line']}: {f['text']}" for one in document['lists'] for f in one['findings'] if f['closing']]
    if closing:
        lines += ['', 'closing denials'] + closing
    return '\n'.join(lines) + '\n'


def changed(rng, text):
    """The audit with one line changed, and the number of that line."""
    lines = text.decode().split('\n')
    at = rng.randrange(len(lines) - 1)
    kind = lines[at].split(' ')[0]
    if kind == 'dst':
        del lines[at]
        while not lines[at - 1].startswith('by '):
            at -= 1
        return '\n'.join(lines).encode(), at
    if kind == 'entry':
        lines[at] = re.sub(r'entry \d+', 'entry 2147483646', lines[at])
    elif kind == 'by':
        lines[at] = re.sub(r'by \d+', 'by 2147483646', lines[at])
    elif kind == 'list':
        lines[at] = lines[at].replace('.cfg ', '.cfg x', 1)
    else:
        lines[at] += '0'
    return '\n'.join(lines).encode(), at + 1


def judge_page(wanted, rows, audit, net):
    """What is wrong of the page: its counts, and each finding with its place, its line and what takes its packets."""
    status, out, err = run(PAGES, '--audit', '--html', *rows, str(audit), str(net))
    if status != 0 or err:
        return f'html: status {status}'
    page = out.decode()
    chips = [' '.join(re.sub('<[^>]*>', ' ', chip).split()) for chip in re.findall(r'<a class="chip[^>]*>(.*?)</a>', page)]
    closing = 'closing denial' if wanted['closing'] == 1 else 'closing denials'
    counts = [f"{wanted[name]} {word}" for name, word in (('dead', 'dead'), ('redundant', 'redundant'), ('closing', closing)) if wanted[name]]
    if chips != counts:
        return f'html: counts {chips}, and not {counts}'
    entries = [' '.join(html.unescape(re.sub('<[^>]*>', ' ', one)).split()) for one in re.findall(r'<div class="entry[^>]*><p>(.*?)</p>', page, re.DOTALL)]
    findings = [' '.join(f"{one['file']}:{f['line']} {f['text']} {f['kind']}".split()) for one in wanted['lists'] for f in one['findings'] if not f['closing']]
    takers = sum(len(f['by']) for one in wanted['lists'] for f in one['findings'] if not f['closing'])
    return '' if entries == findings and page.count('<li>by line ') == takers else 'html: other findings'


def judge(rng, folder, seed, paged):
    """What is wrong of one folder; nothing where all is right."""
    net = folder / f'net{seed}'
    subprocess.run([sys.executable, str(TOP / 'tests' / 'random_lists.py'), str(net), str(seed), '6'], check=True)
    status, text, _ = run(ROLLOUT, 'audit', str(net))
    if status not in (0, 1):
        return f'audit: status {status}'
    audit = folder / 'audit'
    audit.write_bytes(text)
    for rows in ([], ['--rows']):
        wanted = document_of(text, net, rows)
        status, out, err = run(VIEW, '--audit', '--json', *rows, str(audit), str(net))
        if status != 0 or err or json.loads(out) != wanted:
            return f'json: status {status}'
        if VALIDATOR is not None and not VALIDATOR.is_valid(json.loads(out)):
            return 'json: not by its schema'
        status, out, err = run(PAGES, '--audit', '--csv', *rows, str(audit), str(net))
        lines = list(csv.reader(io.StringIO(out.decode())))
        table = table_of(wanted, rows)
        if status != 0 or err or len(lines) != len(table) or [line[:len(other)] for line, other in zip(lines, table)] != table:
            return f'csv: status {status}'
        status, out, err = run(VIEW, '--audit', *rows, str(audit), str(net))
        if status != 0 or err or out.decode() != text_of(wanted, rows):
            return f'text: status {status}'
        wrong = judge_page(wanted, rows, audit, net) if paged else ''
        if wrong:
            return wrong
    other, line = changed(rng, text)
    audit.write_bytes(other)
    status, out, err = run(VIEW, '--audit', str(audit), str(net))
    if status != 3 or out or err.decode() != f'refused {audit} line {line}\n':
        return f'changed at line {line}: status {status}, {err!r}'
    return ''


def main():
    """Judges so many folders."""
    count = int(sys.argv[1]) if len(sys.argv) > 1 else 100
    seed = int(sys.argv[2]) if len(sys.argv) > 2 else 1
    rng = random.Random(seed)
    failed = 0
    with tempfile.TemporaryDirectory() as folder:
        for number in range(seed, seed + count):
            wrong = judge(rng, pathlib.Path(folder), number, JINJA and number < seed + PAGED)
            if wrong:
                failed += 1
                print(f'FAILED folder of seed {number}: {wrong}')
    print(f'{count - failed} passed, {failed} failed')
    return 1 if failed else 0


if __name__ == '__main__':
    sys.exit(main())
