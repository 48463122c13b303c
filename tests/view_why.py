#!/usr/bin/env python3
"""Compares what `view --why-all` and `view --traces` write of the examples and of random networks with the traces that `review trace` writes.

usage: view_why.py [COUNT] [SEED]      by default 100 random networks, from SEED or 1 on

For each group of each report: what stands under `both:` and `old:`, without the blanks before it, is the trace of its packet in the old
network, and what stands under `both:` and `new:` that in the new one; behind `both:` the two part. The traces of some are those of the
rules in Python too (rules.py). Its line is the next one of `view`, and
its packet is the least header of the rows for which it stands. A report of the networks the other way round is refused.

Each document of JSON is read back and compared with the text field by field, and where python3-jsonschema is installed validated by
docs/why-schema.json or docs/traces-schema.json. The pages of some have the explanations, and nothing of a name is markup: in each second
network devices, interfaces and lists have names with quotes, tags and backslashes.
DIQENYU_VIEW and DIQENYU_REVIEW name other built programs. The last line is 'N passed, M failed'.
"""
import html
import json
import os
import pathlib
import re
import subprocess
import sys
import tempfile

sys.dont_write_bytecode = True
TOP = pathlib.Path(__file__).resolve().parent.parent
sys.path[:0] = [str(TOP), str(TOP / 'tests')]

import rules  # noqa: E402
from showing.texts import short, shown  # noqa: E402
from window_page import Reader, rendering  # noqa: E402

VIEW = os.environ.get('DIQENYU_VIEW', str(TOP / 'view'))
PAGES = str(TOP / 'view')
REVIEW = os.environ.get('DIQENYU_REVIEW', str(TOP / 'review'))
CHANGES = ('loops', 'closes', 'opens', 'sometimes', 'translated otherwise', 'moves', 'loop gone')
# Of so many networks the pages are tried, where Jinja2 is there.
PAGED = 6
try:
    import jsonschema
    VALIDATORS = {name: jsonschema.Draft7Validator(json.loads((TOP / 'docs' / f'{name}-schema.json').read_text())) for name in ('why', 'traces')}
except ImportError:
    VALIDATORS = {}
try:
    rendering.with_jinja()
    JINJA = True
except rendering.NoJinja:
    JINJA = False
# Elements of the pages; any other is one of a name.
ELEMENTS = set('html head meta title link style body header main footer section aside div p a span b i em ul li dl dt dd h1 h2 h3 small details summary table '
               'caption colgroup col thead tbody tr th td code pre mark script svg defs marker g path rect circle text title'.split())
WIDTHS = {'dst': 32, 'src': 32, 'proto': 8, 'dport': 16, 'sport': 16, 'flags': 8}


def run(*words):
    """The status of a program and what it wrote."""
    done = subprocess.run(words, stdout=subprocess.PIPE, stderr=subprocess.PIPE, check=False)
    return done.returncode, done.stdout.decode(), done.stderr.decode()


def value_of(text):
    """An address or a number."""
    if '.' in text:
        parts = [int(part) for part in text.split('.')]
        return parts[0] << 24 | parts[1] << 16 | parts[2] << 8 | parts[3]
    return int(text)


def least_of(text, width):
    """The least value of a field of a cube."""
    if text == '*':
        return 0
    if len(text) == width and set(text) <= set('01*'):
        return int(text.replace('*', '0'), 2)
    return value_of(text.split('/')[0])


def holds(text, width, value):
    """Whether the field of a cube holds the value."""
    if text == '*':
        return True
    if len(text) == width and set(text) <= set('01*'):
        return all(digit in ('*', bit) for digit, bit in zip(text, format(value, f'0{width}b')))
    if '/' in text:
        address, length = text.split('/')
        return value_of(address) >> 32 - int(length) == value >> 32 - int(length)
    return value_of(text) == value


def fields(line):
    """The six fields of a line of a cube or a header."""
    words = line.split(' ')
    return dict(zip(words[::2], words[1::2]))


def word_of(packet):
    """A header as `review trace` takes it."""
    header = fields(packet)
    return ','.join(header[name] for name in WIDTHS)


def rows_of(report):
    """The rows of a report, by ingress: the fields of the cube, and the labels."""
    rows = {}
    lines = report.split('\n')
    i = 0
    while not lines[i].startswith('affected '):
        words = lines[i].split(' ')
        place = ' '.join(words[1:3])
        rows[place] = []
        i += 1
        for _ in range(int(words[4])):
            rows[place].append((fields(lines[i]), lines[i + 1][4:], lines[i + 2][4:]))
            i += 3
    return rows


def group_lines(shown):
    """The lines of the groups that `view` shows, each with its ingress."""
    place = None
    for line in shown.split('\n'):
        if line.startswith('ingress '):
            place = line[len('ingress '):].split(':')[0]
        elif line.startswith('loops') and not line.startswith('loops  '):
            place = None
        elif place is not None and line.startswith('  ') and line[2:].startswith(CHANGES):
            yield f'ingress {place}: {line[2:]}'


def blocks_of(text):
    """The blocks of an explanation: the lines of each."""
    assert text.endswith('\n\n'), text[-80:]
    return [block.split('\n') for block in text[:-2].split('\n\n')]


def parts_of(lines):
    """The lines that both traces begin with, and those that each goes on with."""
    parts = {'both:': [], 'old:': [], 'new:': []}
    part = None
    for line in lines:
        if line in parts:
            part = parts[line]
        else:
            assert line.startswith('  '), line
            part.append(line[2:])
    return parts['both:'], parts['old:'], parts['new:']


def sides_of(lines):
    """The two traces that lines have side by side, and how many lines stand once."""
    both, old, new = parts_of(lines)
    return '\n'.join(both + old) + '\n', '\n'.join(both + new) + '\n', len(both)


def states_of(trace):
    """The lines of each state of a trace."""
    states = []
    for line in trace.split('\n')[:-2]:
        if line.startswith('state '):
            states.append([])
        states[-1].append(line)
    return states


def try_sides(what, lines, old, new, place, packet, links, by_rules=False):
    """The faults of two traces side by side."""
    old_side, new_side, once = sides_of(lines)
    device, interface = place.split(' ')
    old_trace = run(REVIEW, 'trace', old, links, device, interface, word_of(packet))[1]
    new_trace = run(REVIEW, 'trace', new, links, device, interface, word_of(packet))[1]
    if old_side != old_trace:
        yield f'{what}: another trace of the old network'
    if new_side != new_trace:
        yield f'{what}: another trace of the new network'
    if by_rules and (old_side, new_side) != tuple(rules.trace(folder, links, device, interface, word_of(packet)) for folder in (old, new)):
        yield f'{what}: other traces than those of the rules'
    shared = 0
    for one, other in zip(states_of(old_trace), states_of(new_trace)):
        if one != other:
            break
        shared += len(one)
    if once != shared:
        yield f'{what}: {once} lines stand once, and {shared} are the same'


def try_block(block, rows, old, new, links, by_rules):
    """The faults of the explanation of a group."""
    place = block[0][len('ingress '):].split(':')[0]
    packet = block[1][len('packet '):]
    header = {name: value_of(text) for name, text in fields(packet).items()}
    inside = [row for row in rows[place] if all(holds(row[0][name], width, header[name]) for name, width in WIDTHS.items())]
    if len(inside) != 1:
        yield f'{block[0]}: its packet is in {len(inside)} rows'
        return
    cube, old_label, new_label = inside[0]
    if not block[0].endswith(f': {old_label} -> {new_label}'):
        yield f'{block[0]}: its packet is in a row of other outcomes'
    if any(least_of(cube[name], width) != header[name] for name, width in WIDTHS.items()):
        yield f'{block[0]}: its packet is not the least of its row'
    yield from try_sides(block[0], block[2:], old, new, place, packet, links, by_rules)


def string_of(text):
    """Text as a document has it: a character for each byte."""
    return text.encode().decode('latin-1')


def packet_of(packet):
    """The object of a packet."""
    return {name: part if '.' in part else int(part) for name, part in fields(packet).items()}


def trace_members(lines):
    """The members of two traces that lines have side by side."""
    old, new, once = sides_of(lines)
    return {'parts': once, 'old': [string_of(line) for line in old[:-1].split('\n')], 'new': [string_of(line) for line in new[:-1].split('\n')]}


def try_document(what, kind, words, wanted):
    """The faults of a document, of which this is wanted."""
    status, text, told = run(VIEW, *words)
    if status != 0 or told:
        yield f'{what}: a document with status {status}: {told}'
        return
    document = json.loads(text)
    if document != wanted:
        yield f'{what}: another document'
    if kind in VALIDATORS:
        for error in VALIDATORS[kind].iter_errors(document):
            yield f'{what}: not by its schema: {error.message}'


def page_of(words):
    """A page, what reads it, and what is wrong of it."""
    status, text, told = run(PAGES, *words)
    if status != 0 or told or not text.startswith('<!DOCTYPE html>\n'):
        return None, None, f'a page with status {status}: {told}'
    reader = Reader(text)
    others = {tag for tag, _ in reader.elements} - ELEMENTS
    return text, reader, f'elements of names: {others}' if others else None


def text_of(markup):
    """A piece of a page as text."""
    return ' '.join(html.unescape(re.sub('<[^>]*>', ' ', markup)).split())


def seen(text):
    """Text as a page shows it."""
    return ' '.join(shown(string_of(text)).split())


def parting_places(lines):
    """Where the two traces of a block part: the device and the interface of each, None where a side is over."""
    old, new, _ = sides_of(lines)
    both = states_of(old), states_of(new)
    at = next((at for at, (one, other) in enumerate(zip(*both)) if one != other), min(map(len, both)))
    places = []
    for states in both:
        words = states[at][0].split(' ') if at < len(states) else None
        places.append(seen(f'{words[3]} {short(words[4])}') if words else None)
    return places


def try_why_page(old, new, links, report, blocks):
    """The faults of the page of an explanation: each group has its packet, and the places where its two ways part."""
    text, _, wrong = page_of(['--why-all', '--html', old, new, links, report])
    if wrong:
        yield f'why: {wrong}'
        return
    found = []
    for one in re.findall('<details class="f .*?</details>', text, re.DOTALL):
        parts = {name: text_of(value) for name, value in re.findall('<dt>(.*?)</dt><dd>(.*?)</dd>', one)}
        row = re.findall('<tr class="part">(.*?)</tr>', one, re.DOTALL)[0]
        cells = re.findall(r'<td (?:colspan="2" )?class="(?:today|plan) (dev|none)">(.*?)</td>', row)
        places = [text_of(cell) if name == 'dev' else None for name, cell in cells]
        found.append((f"ingress {parts['at']}: {parts['packets']}: {parts['today']} -> {parts['planned']}", parts['example'], places))
    first = {kind: [block for block in blocks if block[0].split(': ', 1)[1].startswith(kind)][:200] for kind in CHANGES}
    wanted = []
    for kind, some in first.items():
        for block in some:
            place, words = block[0].split(': ', 1)
            wanted.append((seen(f'{place}: {words[len(kind):].strip()}'), block[1].removeprefix('packet '), parting_places(block[2:])))
    if sorted(found, key=str) != sorted(wanted, key=str):
        yield f'why: the page has other explanations: {[one for one in found if one not in wanted][:1]}, {[one for one in wanted if one not in found][:1]}'


def try_traces_page(what, words, lines):
    """The faults of the page of two traces: their lines, in order."""
    text, _, wrong = page_of(words)
    if wrong:
        yield f'{what}: {wrong}'
        return
    pieces = [re.sub('</mark>', '\n', piece) for piece in re.findall('<pre>(.*?)</pre>', text, re.DOTALL)]
    texts = [html.unescape(re.sub('<[^>]*>', '', piece)).rstrip('\n') for piece in pieces]
    wanted = ['\n'.join(shown(string_of(line)) for line in part) for part in parts_of(lines) if part]
    if texts != wanted:
        yield f'{what}: the page has other traces'


def with_names(folder):
    """Gives devices, interfaces and lists of the folder names that mean something to a page, a document or a shell."""
    for path in [folder / 'links', folder / 'packets', *(folder / 'old').iterdir(), *(folder / 'new').iterdir()]:
        text = path.read_text()
        text = re.sub(r'\bR(\d+)\b', r'<b>R\1"&amp;\\u0041\'$(id)</script>', text)
        text = re.sub(r'\b(ip access-list extended|ip access-group) (\S+)', r"\1 <i>\2&'", text)
        path.write_text(text)


def try_network(folder, paged):
    """The faults of the explanations of a network."""
    old, new, links, report = (str(folder / name) for name in ('old', 'new', 'links', 'report'))
    status, text, told = run(REVIEW, 'compare', old, new, links)
    if status not in (0, 1):
        return
    pathlib.Path(report).write_text(text)
    status, why, told = run(VIEW, '--why-all', old, new, links, report)
    if status != 0 or told:
        yield f'status {status}: {told}'
        return
    blocks = blocks_of(why)
    head, blocks = blocks[0], blocks[1:]
    shown = list(group_lines(run(VIEW, report)[1]))
    if head != [f'groups {len(shown)}, explained {len(shown)}']:
        yield f'{head}, and {len(shown)} groups are shown'
    if [block[0] for block in blocks] != shown:
        yield 'the groups are not those that are shown, in their order'
    rows = rows_of(text)
    for number, block in enumerate(blocks):
        yield from try_block(block, rows, old, new, links, number < 2)
    wanted = {'schema': 'diqenyu-why', 'version': 1, 'groups': len(blocks), 'explained': len(blocks), 'explanations': [explanation_of(block) for block in blocks]}
    yield from try_document('why', 'why', ['--why-all', '--json', old, new, links, report], wanted)
    if paged:
        yield from try_why_page(old, new, links, report, blocks)
    first = run(VIEW, '--why', old, new, links, report)[1]
    if blocks_of(first)[1:] != blocks[:100]:
        yield 'the first hundred are others'
    status, _, told = run(VIEW, '--why', new, old, links, report)
    if blocks and (status, told.split(' ')[-1]) != (3, 'OtherNetworks\n'):
        yield f'the networks the other way round have status {status}: {told}'
    for line in (folder / 'packets').read_text().split('\n')[:3]:
        if line:
            yield from try_traces(line, old, new, links, paged)


def explanation_of(block):
    """The object of a group that is explained."""
    place, words = block[0][len('ingress '):].split(': ', 1)
    device, interface = place.split(' ')
    return {'device': string_of(device), 'interface': string_of(interface), 'group': string_of(words), 'packet': packet_of(block[1][len('packet '):]), **trace_members(block[2:])}


def try_traces(line, old, new, links, paged):
    """The faults of the traces of a packet, as text, document and page."""
    device, interface, word = line.split(' ')[:3]
    packet = ' '.join(f'{name} {part}' for name, part in zip(WIDTHS, word.split(',')))
    words = [old, new, links, device, interface, word]
    lines = run(VIEW, '--traces', *words)[1][:-1].split('\n')
    yield from try_sides(line, lines, old, new, f'{device} {interface}', packet, links)
    wanted = {'schema': 'diqenyu-traces', 'version': 1, 'device': string_of(device), 'interface': string_of(interface), 'packet': packet_of(packet), **trace_members(lines)}
    yield from try_document(line, 'traces', ['--traces', '--json', *words], wanted)
    if paged:
        yield from try_traces_page(line, ['--traces', '--html', *words], lines)


def try_example(example):
    """The faults of the explanations of an example, where its networks have one table of links."""
    if (example / 'newlinks').exists():
        return
    with tempfile.TemporaryDirectory() as scratch:
        for name in ('old', 'new', 'links'):
            (pathlib.Path(scratch) / name).symlink_to(example / name)
        (pathlib.Path(scratch) / 'packets').write_text('')
        yield from try_network(pathlib.Path(scratch), False)


def main():
    """Tries the examples and the networks of some seeds."""
    count = int(sys.argv[1]) if len(sys.argv) > 1 else 100
    first = int(sys.argv[2]) if len(sys.argv) > 2 else 1
    passed = failed = 0
    for example in sorted(path.parent for path in (TOP / 'examples').glob('*/expected') if (path.parent / 'old').is_dir()):
        faults = list(try_example(example))
        for fault in faults:
            print(f'FAILED {example.name}: {fault}')
        passed, failed = passed + (not faults), failed + bool(faults)
    for seed in range(first, first + count):
        with tempfile.TemporaryDirectory() as scratch:
            subprocess.run([sys.executable, str(TOP / 'tests' / 'random_networks.py'), scratch, str(seed)], check=True)
            if seed % 2 == 0:
                with_names(pathlib.Path(scratch))
            faults = list(try_network(pathlib.Path(scratch), JINJA and seed < first + PAGED))
        for fault in faults:
            print(f'FAILED network {seed}: {fault}')
        passed, failed = passed + (not faults), failed + bool(faults)
    print(f'{passed} passed, {failed} failed')
    return failed > 0


if __name__ == '__main__':
    sys.exit(main())
