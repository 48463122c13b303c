#!/usr/bin/env python3
"""Reads back what `view --json` and `view --csv` write of random reports, and compares it with the text of the report field by field.

usage: view_json.py [COUNT] [SEED]      by default 300 reports

Each report is read here by its lines, apart from the program. Its names have quotes, backslashes, tags and bytes that are no ASCII. The groups
of each ingress have to stand for exactly its rows, each with its kind by the rules of tests/kind_rules.py; the summary is counted again, and the
text that `view` writes for a terminal is put together of the document. Where python3-jsonschema is installed, each document is validated by
docs/report-schema.json. The pages of some reports have the elements of the same report with plain names. DIQENYU_VIEW names another program
than that of the launcher. The last line is 'N passed, M failed'.
"""
import collections
import csv
import io
import itertools
import json
import math
import os
import pathlib
import random
import re
import subprocess
import sys
import tempfile

TOP = pathlib.Path(__file__).resolve().parent.parent
sys.dont_write_bytecode = True
sys.path[:0] = [str(TOP / 'windowing'), str(TOP / 'tests')]

import kind_rules  # noqa: E402
import kinds  # noqa: E402
from window_page import Reader, rendering  # noqa: E402

VIEW = os.environ.get('DIQENYU_VIEW', str(TOP / 'view'))
PAGES = str(TOP / 'view')
NAMES = [b'R1', b'E0', b'Gi0/0/1', b'"quoted"', b'back\\slash', b'<b>bold</b>', b"o'clock", b'&amp;', b'\xc3\xa9\xff', b'</script>', b'x' * 64,
         b'\\u0041', b'a,b', b'\x01', b'{}', b'$(id)', b'-->', b'%s']
try:
    import jsonschema
    VALIDATOR = jsonschema.Draft7Validator(json.loads((TOP / 'docs' / 'report-schema.json').read_text()))
except ImportError:
    VALIDATOR = None
try:
    rendering.with_jinja()
    JINJA = True
except rendering.NoJinja:
    JINJA = False


def address_text(number):
    """An address with its dots."""
    return '.'.join(str(number >> shift & 255) for shift in (24, 16, 8, 0))


def field(rng, width, address):
    """A field as a report has it: open, fixed, a prefix or digits."""
    kind = rng.randrange(4)
    if kind == 0:
        return '*'
    value = rng.randrange(1 << width)
    if kind == 1:
        return address_text(value) if address else str(value)
    if kind == 2 and address:
        length = rng.randrange(1, 32)
        return f'{address_text(value >> (32 - length) << (32 - length))}/{length}'
    digits = [rng.choice('01*') for _ in range(width)]
    stars = digits.count('*')
    prefix = ''.join(digits).rstrip('*')
    if stars in (0, width) or (address and '*' not in prefix):
        return '*'
    return ''.join(digits)


def cube(rng):
    """The line of a cube."""
    parts = [('dst', field(rng, 32, True)), ('src', field(rng, 32, True)), ('proto', field(rng, 8, False)), ('dport', field(rng, 16, False)),
             ('sport', field(rng, 16, False)), ('flags', field(rng, 8, False))]
    return ' '.join(f'{name} {text}' for name, text in parts).encode()


def outcome(rng):
    """An outcome."""
    kind = rng.randrange(4)
    if kind == 0:
        return b'drop'
    if kind == 1:
        return b'expired'
    place = rng.choice(NAMES) + b' ' + rng.choice(NAMES)
    if kind == 2:
        return b'local ' + place
    changes = b''
    if rng.randrange(2):
        changes += b' src ' + address_text(rng.randrange(1 << 32)).encode()
    if rng.randrange(2):
        changes += b' dport ' + str(rng.randrange(1 << 16)).encode()
    return b'exit ' + place + changes


def label(rng):
    """One outcome, or a drop or a loop before another."""
    last = outcome(rng)
    if rng.randrange(3) == 0 and last.startswith((b'local', b'exit')):
        return b'drop | ' + last
    return last


def report(rng):
    """A random report."""
    lines, rows = [], 0
    for _ in range(rng.randrange(1, 4)):
        count = rng.randrange(5)
        lines.append(b'ingress %s %s rows %d' % (rng.choice(NAMES), rng.choice(NAMES), count))
        for _ in range(count):
            lines += [cube(rng), b'old ' + label(rng), b'new ' + label(rng)]
        rows += count
    lines.append(b'affected %d' % rows)
    return b'\n'.join(lines) + b'\n'


def text_of(part):
    """Bytes as a document has them: a character for each."""
    return part.decode('latin-1')


def outcomes_of(text):
    """The outcomes of a line, as a document has them."""
    found = []
    for part in text.split(b' | '):
        words = part.split(b' ')
        one = {'end': text_of(words[0])}
        if len(words) > 1:
            one['device'], one['interface'] = text_of(words[1]), text_of(words[2])
        for name, value in zip(words[3::2], words[4::2]):
            one[text_of(name)] = int(value) if name.endswith(b'port') else text_of(value)
        found.append(one)
    return found


def document_of(text):
    """The document that a report's lines say."""
    lines = text.rstrip(b'\n').split(b'\n')
    ingresses, at = [], 0
    while lines[at].startswith(b'ingress '):
        _, device, interface, _, count = lines[at].split(b' ')
        at += 1
        rows = []
        for _ in range(int(count)):
            words = lines[at].split(b' ')
            row = {text_of(words[k]): text_of(words[k + 1]) for k in range(0, 12, 2)}
            row['old'] = outcomes_of(lines[at + 1][4:])
            row['new'] = outcomes_of(lines[at + 2][4:])
            rows.append(row)
            at += 3
        ingresses.append({'device': text_of(device), 'interface': text_of(interface), 'rows': rows})
    return {'schema': 'diqenyu-report', 'version': 1, 'affected': int(lines[at].split(b' ')[1]), 'ingresses': ingresses}


# ---- groups

FIELDS = ('dst', 'src', 'proto', 'dport', 'sport', 'flags')
KINDS = ('loops', 'closes', 'opens', 'sometimes', 'translated otherwise', 'moves', 'loop gone')
# Of so many reports the page is tried.
PAGED = 5


def outcome_text(one):
    """An outcome as a report has it."""
    return ' '.join([one['end'], *(str(one[name]) for name in ('device', 'interface') if name in one),
                     *(f'{name} {one[name]}' for name in ('src', 'dst', 'sport', 'dport') if name in one)])


def label_text(outcomes):
    """The outcomes of one side."""
    return ' | '.join(map(outcome_text, outcomes))


def kind_of(group):
    """What the change does to a group's packets, by the rules of the window's findings, without lans."""
    sides = [kinds.side_of(tuple(map(outcome_text, group[side]))) for side in ('old', 'new')]
    return kind_rules.kind_of(*sides, {})


def row_key(fields, group):
    """A row by its fields and its outcomes."""
    return (*fields, label_text(group['old']), label_text(group['new']))


def words_of(values):
    """The words of a group, of those of its fields."""
    names = {'dst': 'dst ', 'src': 'src ', 'proto': '', 'dport': 'dport ', 'sport': '' if values['proto'] == 'icmp' else 'sport ', 'flags': ''}
    return '  '.join(names[name] + values[name] for name in FIELDS if values[name] != 'any') or 'any header'


def wrong_groups(ingress):
    """What is wrong with the groups of an ingress; None where nothing is."""
    held = sorted(row_key(fields, group) for group in ingress['groups'] for fields in itertools.product(*(group['fields'][name] for name in FIELDS)))
    if held != sorted(row_key([row[name] for name in FIELDS], row) for row in ingress['rows']):
        return 'groups of other rows'
    for group in ingress['groups']:
        if group['rows'] != math.prod(len(group['fields'][name]) for name in FIELDS):
            return 'another number of rows'
        if group['kind'] != kind_of(group):
            return f"the kind {group['kind']}, and not {kind_of(group)}"
        if group['words'] != words_of(group['values']):
            return 'words that are not those of the fields'
    places = [KINDS.index(group['kind']) for group in ingress['groups']]
    return None if places == sorted(places) else 'kinds in another order'


def summary_of(ingresses):
    """The counts of all groups."""
    groups = [group for ingress in ingresses for group in ingress['groups']]
    counts = collections.defaultdict(lambda: [0, 0])
    for group in groups:
        for version in ('new', 'old'):
            for outcome in group[version]:
                count = counts[version, outcome_text(outcome)]
                count[0] += 1
                count[1] += group['rows']
    return {'groups': len(groups), 'kinds': [{'kind': kind, 'groups': sum(group['kind'] == kind for group in groups)} for kind in KINDS],
            'untouched': sum(not ingress['rows'] for ingress in ingresses),
            'outcomes': [{'version': version, 'outcome': text, 'groups': count[0], 'rows': count[1]} for (version, text), count in sorted(counts.items())]}


def view_text(document):
    """The text that `view` writes for a terminal."""
    summary, ingresses = document['summary'], document['ingresses']
    lines = [f'summary: ingresses {len(ingresses)}']
    if summary['untouched'] == len(ingresses):
        lines.append(f'  no packet is treated differently at any of {len(ingresses)} ingresses')
    else:
        lines += [f"  {one['kind']} {one['groups']}" for one in summary['kinds'] if one['groups']]
        for ingress in ingresses:
            counts = ''.join(f"{kind} {sum(group['kind'] == kind for group in ingress['groups'])}, " for kind in KINDS
                             if any(group['kind'] == kind for group in ingress['groups']))
            if ingress['rows']:
                lines.append(f"  ingress {ingress['device']} {ingress['interface']}: {counts}rows {len(ingress['rows'])}")
        if summary['untouched']:
            lines.append(f"  nothing changes at {summary['untouched']} of {len(ingresses)} ingresses")
        lines += [f"  {one['version']} {one['outcome']}: groups {one['groups']}, rows {one['rows']}" for one in summary['outcomes']]
    loops = [f"  ingress {ingress['device']} {ingress['interface']}{headers_text(group)}" for ingress in ingresses for group in ingress['groups']
             if group['kind'] == 'loops']
    lines += ['', 'loops', *loops] if loops else []
    for ingress in ingresses:
        place = f"ingress {ingress['device']} {ingress['interface']}: "
        lines += ['', place + (f"rows {len(ingress['rows'])}, groups {len(ingress['groups'])}" if ingress['rows'] else 'nothing changes')]
        lines += [f"  {group['kind']}{headers_text(group)}" for group in ingress['groups']]
    return '\n'.join(lines) + '\n\n'


def headers_text(group):
    """The headers of a group, and their outcomes."""
    return f"  {group['words']}: {label_text(group['old'])} -> {label_text(group['new'])}"


def table_of(document):
    """The lines of the table."""
    return [['device', 'interface', 'change', *FIELDS, 'old', 'new', 'rows']] + [
        [ingress['device'], ingress['interface'], group['kind'], *(group['values'][name] for name in FIELDS), label_text(group['old']),
         label_text(group['new']), str(group['rows'])] for ingress in document['ingresses'] for group in ingress['groups']]


# ---- what the programs write


def run(*words):
    """The status and the output of the program; of the one that renders where a table or a page is asked for."""
    done = subprocess.run([PAGES if {'--csv', '--html'} & set(words) else VIEW, *words], stdout=subprocess.PIPE, stderr=subprocess.PIPE, check=False)
    return done.returncode, done.stdout


def elements_of(text, title, path):
    """The elements of a report's page, and its texts."""
    pathlib.Path(path).write_bytes(text)
    status, written = run('--html', '--title', title, path)
    if status != 0:
        return None, f'a page with status {status}'
    reader = Reader(written.decode())
    return reader.structure(), reader.all()


def wrong_page(text, path):
    """What is wrong with a report's page: it has the elements of the same report with plain names."""
    plain = text
    for number, name in enumerate(sorted(NAMES, key=len, reverse=True)):
        plain = re.sub(rb'(?<= )' + re.escape(name) + rb'(?=[ \n])', b'N%d' % number, plain)
    found, texts = elements_of(text, '<i>title</i> & "more"', path)
    wanted, _ = elements_of(plain, 'title', path)
    if found is None or found != wanted:
        return texts if found is None else 'a page with other elements than with plain names'
    return None if '<i>title</i> & "more"' in texts else 'a page without its title'


def try_report(text, path, paged):
    """What is wrong with what the program writes of a report; None where nothing is."""
    status, written = run('--json', path)
    if status == 3:
        return 'refused'
    if status != 0:
        return f'status {status}'
    document = json.loads(written.decode('ascii'))
    if rows_alone(document) != document_of(text):
        return 'another document'
    for ingress in document['ingresses']:
        wrong = wrong_groups(ingress)
        if wrong:
            return wrong
    if document['summary'] != summary_of(document['ingresses']):
        return 'another summary'
    if VALIDATOR is not None and list(VALIDATOR.iter_errors(document)):
        return f'against the schema: {next(VALIDATOR.iter_errors(document)).message}'
    status, written = run(path)
    if status != 0 or written.decode('latin-1') != view_text(document):
        return 'another text'
    status, written = run('--csv', path)
    if status != 0 or list(csv.reader(io.StringIO(written.decode('latin-1'), newline=''))) != table_of(document):
        return 'another table'
    return wrong_page(text, path) if paged else None


def rows_alone(document):
    """A document without its groups and their summary."""
    ingresses = [{key: value for key, value in ingress.items() if key != 'groups'} for ingress in document['ingresses']]
    return {**{key: value for key, value in document.items() if key != 'summary'}, 'ingresses': ingresses}


def main():
    """Tries random reports."""
    count = int(sys.argv[1]) if len(sys.argv) > 1 else 300
    rng = random.Random(int(sys.argv[2]) if len(sys.argv) > 2 else 53)
    passed = failed = refused = 0
    with tempfile.TemporaryDirectory() as folder:
        path = folder + '/report'
        while passed + failed < count:
            text = report(rng)
            pathlib.Path(path).write_bytes(text)
            wrong = try_report(text, path, PAGED > passed and JINJA)
            if wrong == 'refused' and refused < count:
                refused += 1
            elif wrong is None:
                passed += 1
            else:
                failed += 1
                print(f'FAILED {wrong}:\n{text}')
    if not JINJA:
        print("pages aren't tried: there is no python3-jinja2")
    if VALIDATOR is None:
        print('not validated: there is no python3-jsonschema')
    print(f'{refused} texts were no reports')
    print(f'{passed} passed, {failed} failed')
    return 1 if failed else 0


if __name__ == '__main__':
    sys.exit(main())
