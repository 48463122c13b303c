#!/usr/bin/env python3
"""Reads back what `view --answers` writes of random questions and answers, and compares it with the files, apart from the program.

usage: view_answers.py [COUNT] [SEED]      by default 100 pairs of answers

The words of questions have quotes, backslashes, tags, tabs and bytes that are no ASCII. Each pair is shown as text, as JSON, as a table and as
JUnit's XML, of both files and of one; the document is compared field by field, and validated by docs/answers-schema.json where
python3-jsonschema is installed. One line of each pair is also changed, and has to be refused with that line. The last line is
'N passed, M failed'. DIQENYU_VIEW names another program than that of the launcher.
"""
import csv
import io
import json
import os
import pathlib
import random
import re
import subprocess
import sys
import tempfile
import xml.etree.ElementTree

sys.dont_write_bytecode = True
TOP = pathlib.Path(__file__).resolve().parent.parent
sys.path[:0] = [str(TOP), str(TOP / 'tests')]

import rules  # noqa: E402
from showing.texts import shown  # noqa: E402
from window_page import Reader, rendering  # noqa: E402

VIEW = os.environ.get('DIQENYU_VIEW', str(TOP / 'view'))
PAGES = str(TOP / 'view')
# Of so many pairs the page is tried, where Jinja2 is there.
PAGED = 5
WORDS = [b'R1', b'E0', b'to', b'Gi0/0/1', b'"quoted"', b'back\\slash', b'<b>bold</b>', b"o'clock", b'&amp;', b'\xc3\xa9\xff', b']]>', b'x' * 64,
         b'\\u0041', b'a,b', b'\x01', b'\x00', b'{}', b'$(id)', b'-->', b'%s', b'\x7f', b'!', b'</testcase>', b'\x0b\x0c']
BLANKS = [b' ', b'  ', b'\t', b'\r', b' \t ']
try:
    import jsonschema
    VALIDATOR = jsonschema.Draft7Validator(json.loads((TOP / 'docs' / 'answers-schema.json').read_text()))
except ImportError:
    VALIDATOR = None
try:
    rendering.with_jinja()
    JINJA = True
except rendering.NoJinja:
    JINJA = False
# Elements of the page; any other is one of a file.
ELEMENTS = set('html head meta title link style body header p b span div h1 ul li a main section h2 small table thead tbody tr th td code details summary '
               'footer dl dt dd'.split())


def run(*words):
    """What the program writes of these words: its status, output and error output. Tables, test cases and pages are rendered by another one."""
    done = subprocess.run([PAGES if {'--csv', '--junit', '--html'} & set(words) else VIEW, *words], capture_output=True, check=False)
    return done.returncode, done.stdout, done.stderr


def questions(rng):
    """The text of a file of questions, and of each question its line's number and its words."""
    lines, asked = [], []
    for number in range(1, rng.randrange(0, 14)):
        kind = rng.randrange(6)
        if kind == 0:
            lines.append(rng.choice([b'', b' ', b'\t\r']))
        elif kind == 1:
            lines.append(rng.choice([b'', b' ']) + b'!' + rng.choice(WORDS) + b' reach')
        else:
            words = [rng.choice([b'reach', b'isolate', b'noloop'])] + [rng.choice(WORDS) for _ in range(rng.randrange(6))]
            lines.append(rng.choice([b'', b' ']) + b''.join(word + rng.choice(BLANKS) for word in words))
            asked.append((number, b' '.join(words)))
    return b'\n'.join(lines) + rng.choice([b'', b'\n'] if lines else [b'']), asked


def packet(rng):
    """A packet by its six fields, or none where the question holds."""
    if rng.randrange(2):
        return None
    ports = [0, 22, 53, 80, 443, 512, 768, 2048, 2816, 65535, rng.randrange(65536)]
    return {'dst': rng.choice([0, 0xFFFFFFFF, rng.randrange(1 << 32)]), 'src': rng.randrange(1 << 32),
            'proto': rng.choice([0, 1, 6, 17, 47, rng.randrange(256)]),
            'dport': rng.choice(ports), 'sport': rng.choice(ports), 'flags': rng.choice([0, 2, 18, 255, rng.randrange(256)])}


def address(number):
    """An address with its dots."""
    return '.'.join(str(number >> shift & 255) for shift in (24, 16, 8, 0))


def written(answers):
    """The text that `ask` writes of these answers."""
    lines = []
    for number, one in enumerate(answers, 1):
        if one is None:
            lines.append(f'{number} holds')
        else:
            fields = ' '.join(f'{name} {address(value) if name in ("dst", "src") else value}' for name, value in one.items())
            lines.append(f'{number} fails {fields}')
    lines.append(f'failed {sum(one is not None for one in answers)}')
    return '\n'.join(lines) + '\n'


def first_named(names, number):
    """The first name of a number, where it has one."""
    return next((name for name, value in names.items() if value == number), None)


def port_words(proto, port):
    """A port, with its name behind it."""
    names = {6: {**rules.TCP_PORTS, 'ssh': 22, 'https': 443}, 17: {**rules.UDP_PORTS, 'https': 443}}[proto]
    name = first_named(names, port)
    return str(port) if name is None else f'{port} ({name})'


def message_words(message):
    """An ICMP message."""
    names = {name: kind * 256 + code for name, (kind, code) in rules.ICMP_TYPES.items() if code is not None}
    return first_named(names, message) or f'icmp type {message // 256} code {message % 256}'


def words_of(one):
    """A packet in words."""
    parts = [f"dst {address(one['dst'])}", f"src {address(one['src'])}", first_named(rules.PROTOCOLS, one['proto']) or f"proto {one['proto']}"]
    if one['proto'] in (6, 17):
        parts += [f"dport {port_words(one['proto'], one['dport'])}", f"sport {port_words(one['proto'], one['sport'])}"]
    if one['proto'] == 1:
        parts.append(message_words(one['sport']))
    if one['proto'] == 6 and one['flags']:
        names = ['fin', 'syn', 'rst', 'psh', 'ack', 'urg', 'bit6', 'bit7']
        parts.append('flags ' + ' '.join(names[bit] for bit in range(7, -1, -1) if one['flags'] >> bit & 1))
    return '  '.join(parts)


def group(before, after):
    """What became of a question; `before` is a list of its answer before, where it has one."""
    if not before:
        return 'hold' if after is None else 'fail'
    if before[0] is None:
        return 'hold in both' if after is None else 'fail now'
    return 'hold only now' if after is None else 'fail in both'


def order(compared):
    """The groups in the order in which they are shown."""
    return ['fail now', 'fail in both', 'hold only now', 'hold in both'] if compared else ['fail', 'hold']


def name_of(number, asked):
    """A question by its number, its line and its words."""
    return f'{number} (line {asked[0]}): '.encode() + asked[1]


def text_of(rows, compared):
    """The text: for each row the question, its answers, and its group."""
    counts = ', '.join(f'{one} {sum(row[3] == one for row in rows)}' for one in order(compared))
    lines = [f'questions {len(rows)}: {counts}'.encode()]
    for one in order(compared):
        shown = [(number, row) for number, row in enumerate(rows, 1) if row[3] == one]
        if not shown or one in ('hold in both', 'hold'):
            continue
        lines += [b'', one.encode()]
        for number, (asked, before, after, _) in shown:
            lines.append(b'  ' + name_of(number, asked))
            if before and before[0] is not None:
                lines.append(f'    packet before: {words_of(before[0])}'.encode())
            if after is not None:
                lines.append(f'    packet: {words_of(after)}'.encode())
    return b'\n'.join(lines) + b'\n'


def answer_of(one):
    """An answer in the document."""
    if one is None:
        return {'holds': True}
    fields = {name: address(value) if name in ('dst', 'src') else value for name, value in one.items()}
    return {'holds': False, 'packet': {**fields, 'words': words_of(one)}}


def document_of(rows, compared):
    """The document."""
    answers = [{'number': number, 'line': asked[0], 'question': asked[1].decode('latin-1'), 'group': kind,
                'before': answer_of(before[0]) if before else None, 'after': answer_of(after)}
               for number, (asked, before, after, kind) in enumerate(rows, 1)]
    return {'schema': 'diqenyu-answers', 'version': 1, 'questions': len(rows),
            'groups': {one: sum(row[3] == one for row in rows) for one in order(compared)}, 'answers': answers}


def table_of(rows):
    """The lines of the table."""
    def cells(one):
        return ['holds', ''] if one is None else ['fails', words_of(one)]
    lines = [['number', 'line', 'question', 'group', 'before', 'packet before', 'after', 'packet after']]
    for number, (asked, before, after, kind) in enumerate(rows, 1):
        lines.append([str(number), str(asked[0]), asked[1].decode('latin-1'), kind] + (cells(before[0]) if before else ['', '']) + cells(after))
    return lines


def plain(text):
    """A text as XML can hold it: what is no printable character of ASCII by its number."""
    return ''.join(chr(byte) if 32 <= byte <= 126 else f'\\x{byte:02x}' for byte in text)


def cases_of(rows):
    """The test cases: of each its name, and of one that fails its group and its packet."""
    return [(plain(name_of(number, asked)), None if after is None else (kind, words_of(after))) for number, (asked, _, after, kind) in enumerate(rows, 1)]


def read_cases(text):
    """The test cases of a document of JUnit, with the counts of its suite."""
    suites = xml.etree.ElementTree.fromstring(text)
    suite, = suites
    cases = []
    for case in suite:
        failure = case.find('failure')
        assert failure is None or failure.text == failure.get('message')
        cases.append((case.get('name'), None if failure is None else (failure.get('type'), failure.text)))
    return cases, int(suite.get('tests')), int(suite.get('failures'))


def judge_view(rows, compared, paths, paged):
    """What is wrong of the views of these files; nothing where all is right."""
    status, out, err = run('--answers', *paths)
    if status != 0 or err or out != text_of(rows, compared):
        return f'text: status {status}'
    status, out, err = run('--answers', '--json', *paths)
    if status != 0 or err or json.loads(out) != document_of(rows, compared):
        return f'json: status {status}'
    if VALIDATOR is not None and not VALIDATOR.is_valid(json.loads(out)):
        return 'json: not by its schema'
    status, out, err = run('--answers', '--csv', *paths)
    if status != 0 or err or list(csv.reader(io.StringIO(out.replace(b'\0', b'\x02').decode('latin-1'), newline=''))) != [
            [cell.replace('\0', '\x02') for cell in line] for line in table_of(rows)]:
        return f'csv: status {status}'
    status, out, err = run('--answers', '--junit', *paths)
    failing = sum(row[2] is not None for row in rows)
    if status != 0 or err or not all(byte == 10 or 32 <= byte <= 126 for byte in out) or read_cases(out) != (cases_of(rows), len(rows), failing):
        return f'junit: status {status}'
    return judge_page(rows, compared, paths) if paged else ''


def judge_page(rows, compared, paths):
    """What is wrong of the page: it counts each group, has each question as it is, and no element of a file."""
    status, out, err = run('--answers', '--html', *paths)
    if status != 0 or err:
        return f'html: status {status}'
    reader = Reader(out.decode())
    if {tag for tag, _ in reader.elements} - ELEMENTS:
        return 'html: elements of a file'
    text = reader.text()
    missing = [asked[1] for asked, *_ in rows if ' '.join(shown(asked[1].decode('latin-1')).split()) not in text]
    if missing:
        return f'html: without {missing[0]!r}'
    chips = [' '.join(re.sub('<[^>]*>', ' ', chip).split()).split(' ', 1)[1] for chip in re.findall(r'<li><a class="chip[^>]*>(.*?)</a>', out.decode())]
    wanted = [f'{sum(row[3] == one for row in rows)} {one}' for one in order(compared)]
    return '' if chips == [chip for chip in wanted if not chip.startswith('0 ')] else f'html: counts {chips}'


def changed(rng, text):
    """Answers with one line changed, and the number of that line."""
    lines = text.split('\n')
    at = rng.randrange(len(lines) - 1)
    kind = rng.randrange(4)
    if kind == 0:
        lines[at] += ' '
    elif kind == 1:
        lines[at] = '0' + lines[at]
    elif kind == 2:
        lines.insert(at, '')
    else:
        lines[at] = lines[at].replace('holds', 'hold', 1).replace('proto ', 'proto 0', 1).replace('failed ', 'failed 0', 1)
    return '\n'.join(lines), at + 1


def judge(rng, folder, paged):
    """What is wrong of one pair of answers; nothing where all is right."""
    text, asked = questions(rng)
    before, after = [packet(rng) for _ in asked], [packet(rng) for _ in asked]
    paths = [str(folder / name) for name in ('questions', 'before', 'after')]
    (folder / 'questions').write_bytes(text)
    (folder / 'before').write_text(written(before))
    (folder / 'after').write_text(written(after))
    both = [(one, [old], new, group([old], new)) for one, old, new in zip(asked, before, after)]
    alone = [(one, [], new, group([], new)) for one, new in zip(asked, after)]
    wrong = judge_view(both, True, paths, paged) or judge_view(alone, False, [paths[0], paths[2]], paged)
    if wrong:
        return wrong
    other, line = changed(rng, written(after))
    (folder / 'after').write_text(other)
    status, out, err = run('--answers', *paths)
    if status != 3 or out or err.decode() != f'refused {paths[2]} line {line} NotAnswers\n':
        return f'changed at line {line}: status {status}, {err!r}'
    (folder / 'after').write_text(written(after + [None]))
    status, out, err = run('--answers', *paths)
    if status != 3 or out or err.decode() != f'refused {paths[2]} line {len(after) + 1} OtherCount\n':
        return f'one answer more: status {status}, {err!r}'
    return ''


def main():
    """Judges so many pairs."""
    count = int(sys.argv[1]) if len(sys.argv) > 1 else 100
    rng = random.Random(int(sys.argv[2]) if len(sys.argv) > 2 else 1)
    failed = 0
    with tempfile.TemporaryDirectory() as folder:
        for number in range(1, count + 1):
            wrong = judge(rng, pathlib.Path(folder), JINJA and number <= PAGED)
            if wrong:
                failed += 1
                print(f'FAILED pair {number}: {wrong}')
    print(f'{count - failed} passed, {failed} failed')
    return 1 if failed else 0


if __name__ == '__main__':
    sys.exit(main())
