#!/usr/bin/env python3
"""layout_picture.py [LAYOUT.antt [OUT.svg]]: draws the block's sections, from the numbers of crates/layout/specs/Layout.antt.

Bases, sizes, strides and the needed length are worked out from the definitions there; a section without a description here,
or one that does not start where the one before it ends, is an error.
"""
import os
import re
import sys

ROOT = os.path.dirname(os.path.dirname(os.path.abspath(__file__)))

# section: its words' title, colour, what repeats, where one unit starts, the unit's words
SECTIONS = {
    'header': ('Header', '#c9ced6', 'once', [], 'clients|partitions|items|versions stored|messages in flight'),
    'scalars': ('Clients', '#f3c98b', 'for each client d', ['scalar_at'], 'mode|count|set|awaited|stamp|last kind|last set|last stamp|write set|write awaited|last write set'),
    'latest': ('Latest', '#a9d3b4', 'for each item k', ['latest_at'], 'stamp|set'),
    'views': ('Views', '#9cc7e6', 'for each client d, item k', ['view_at'], 'stamp|set'),
    'asked': ('Asked stamps', '#f0b3a6', 'for each client d, item k', ['item_at'], 'stamp'),
    'values': ('Values', '#e8c3d9', 'for each client d, item k', ['item_at'], 'value'),
    'last_stamps': ('Last stamps', '#d9b8a0', 'for each client d, item k', ['item_at'], 'stamp'),
    'last_values': ('Last values', '#cfc0e6', 'for each client d, item k', ['item_at'], 'value'),
    'firsts': ('First replies', '#b4c7a1', 'for each client d, item k', ['first_at'], 'stamp|set'),
    'versions': ('Stored versions', '#b9dde0', 'for each version i', ['version_at'], 'item|value|stamp|set'),
    'messages': ('Messages in flight', '#dfd98f', 'for each message i', ['message_at'], 'kind|client or partition|item|value|stamp|set|latest stamp|latest set'),
}

# what stands behind the unit's words
NOTES = {
    'values': 'of a mixed transaction: the answer in the low 32 bits, the value written in the high 32',
    'last_values': 'of a mixed transaction: the answer in the low 32 bits, the value written in the high 32',
}

WIDTH, MARGIN, ROW, TOP = 1180, 24, 62, 190
CELL_X, CELL_END = 470, WIDTH - MARGIN

# the width of a letter in a cell, about
LETTER = 7.8


class Layout:
    """The numbers of Layout.antt, by the names that it gives them; capacities are those of crate protocol."""

    def __init__(self, path):
        with open(path, encoding='utf-8') as f:
            text = f.read()
        # constants, sections by name, and places, which have parameters
        self.bodies = {n: body for n, body in re.findall(r'^(\w+(?: \w+)*) = (.+)$', text, re.M)}
        self.bodies |= {f'capacities.{n}': body for n, body in capacities(path)}
        self.base = {s: self.number(f'base {s}') for s in SECTIONS}
        self.size = {s: self.number(f'size {s}') for s in SECTIONS}
        self.needed = self.number('needed')
        named = re.search(r'^  (\w+(?: \w+)*) : Section$', text, re.M).group(1).split()
        self.order = sorted(SECTIONS, key=self.base.get)
        assert named == self.order, 'sections differ from those described here, or stand in another order'
        ends = [self.base[s] + self.size[s] for s in self.order]
        starts = [self.base[s] for s in self.order[1:]] + [self.needed]
        assert ends == starts, 'a section does not start where the one before it ends'

    def numerals(self, body):
        """The body with numerals for names; names that have no body stay."""
        name = re.compile(r'(?:base|size) \w+|capacities\.\w+|[A-Za-z]\w*')
        body = name.sub(lambda m: self.numerals(self.bodies[m.group()]) if m.group() in self.bodies else m.group(), body)
        return str(eval(body)) if re.fullmatch(r'[\d +*()-]+', body) else body  # numerals and signs only

    def number(self, name):
        return int(self.numerals(self.bodies[name]))

    def place(self, name):
        """Where one unit starts, by its parameters."""
        parameters, = (n.split()[1:] for n in self.bodies if n.split()[0] == name)
        body = self.numerals(self.bodies[' '.join([name, *parameters])])
        body = re.sub(r'\d+(?: \* \d+)+', lambda m: str(eval(m.group())), body)
        body = re.sub(r'\((.*) \+ f\)$', r'\1', body)
        return re.sub(r' \+ f$', '', body).replace(' * ', ' · ').replace('-', '−')


def capacities(path):
    range_of = os.path.join(os.path.dirname(path), '..', '..', 'protocol', 'specs', 'Range.antt')
    with open(range_of, encoding='utf-8') as f:
        record = re.search(r'^capacities = record \{ (.*) \}$', f.read(), re.M)
    return re.findall(r'(\w+) = (\d+)', record.group(1))


def formula(base, names, layout):
    return f'from {base:,} + {layout.place(names[0])}' if names else f'from {base:,}'


def words_of_one(name, names, layout):
    """How many words a unit has: the factor of the last term of its place."""
    if not names:
        return layout.size[name]
    factor = re.match(r'(\d+) · ', layout.place(names[0]).split(' + ')[-1])
    return int(factor.group(1)) if factor else 1


def text(x, y, words, size=13, weight='normal', anchor='start', fill='#1c2430'):
    return (f'<text x="{x:g}" y="{y:g}" font-size="{size}" font-weight="{weight}" text-anchor="{anchor}" fill="{fill}">'
            + words.replace('&', '&amp;').replace('<', '&lt;') + '</text>')


def box(x, y, w, h, fill, stroke='#5b6675'):
    return f'<rect x="{x:g}" y="{y:g}" width="{w:g}" height="{h:g}" fill="{fill}" stroke="{stroke}" stroke-width="0.8"/>'


def wrapped(words, room):
    """At most two lines of about `room` letters."""
    if len(words) <= room or ' ' not in words:
        return [words]
    at = min((m.start() for m in re.finditer(' ', words)), key=lambda i: abs(i - len(words) / 2))
    return [words[:at], words[at + 1:]]


def strip(layout):
    """The whole block to scale."""
    base, size, needed = layout.base, layout.size, layout.needed
    scale = (WIDTH - 2 * MARGIN) / needed
    for s in layout.order:
        x, w = MARGIN + base[s] * scale, size[s] * scale
        yield box(x, 98, w, 40, SECTIONS[s][1])
        if w > 70:
            yield text(x + w / 2, 122, SECTIONS[s][0], 12, anchor='middle')
            yield text(x, 154, f'{base[s]:,}', 11, fill='#5b6675')
    yield text(MARGIN, 154, '0', 11, fill='#5b6675')
    yield text(WIDTH - MARGIN, 154, f'{needed:,}', 11, anchor='end', fill='#5b6675')


def row(y, name, layout):
    title, colour, repeat, names, fields = SECTIONS[name]
    base, size = layout.base[name], layout.size[name]
    yield box(MARGIN, y, 14, 40, colour)
    yield text(MARGIN + 24, y + 16, title, 14, 'bold')
    yield text(MARGIN + 24, y + 34, f'words {base:,} to {base + size - 1:,} ({size:,})', 12, fill='#5b6675')
    cells = fields.split('|')
    words = words_of_one(name, names, layout)
    room = f', +{len(cells)} to +{words - 1} unused' if names and words > len(cells) else ''
    yield text(MARGIN + 236, y + 16, repeat + room, 13)
    yield text(MARGIN + 236, y + 34, formula(base, names, layout), 12, fill='#5b6675')
    across = max(8, len(cells))
    width = (CELL_END - CELL_X) / across
    if name in NOTES:
        yield text(CELL_X + len(cells) * width + 12, y + 24, NOTES[name], 12, fill='#5b6675')
    if not names:
        cells.append(f'{words - len(cells)} words unused')
    for i, field in enumerate(cells):
        x = CELL_X + i * width
        unused = field.endswith('unused')
        wide = width * (across - i if unused else 1)
        yield box(x, y, wide, 40, '#ffffff' if unused else colour)
        lines = wrapped(field, round(wide / LETTER))
        for j, line in enumerate(lines):
            yield text(x + wide / 2, y + 24 + (j - (len(lines) - 1) / 2) * 14, line, 12, anchor='middle')
        if not unused:
            yield text(x + 3, y + 52, f'+{i}', 10, fill='#5b6675')


def picture(layout):
    height = TOP + ROW * len(layout.order) + 24
    yield (f'<svg xmlns="http://www.w3.org/2000/svg" viewBox="0 0 {WIDTH} {height}" width="{WIDTH}" height="{height}" '
           'font-family="Helvetica, Arial, sans-serif">')
    yield box(0, 0, WIDTH, height, '#ffffff', '#ffffff')
    yield text(MARGIN, 36, f'The block: {layout.needed:,} words of 64 bits', 20, 'bold')
    yield text(MARGIN, 60, 'Clients d count from 1 to 8, items k from 0 to 63, versions i from 0 to 511, messages i from 0 to 127.', 13)
    yield text(MARGIN, 78, 'A stamp is number · 16 + client. In a set, item k is the bit worth 2 to the power k.', 13)
    yield from strip(layout)
    for i, s in enumerate(layout.order):
        yield from row(TOP + ROW * i, s, layout)
    yield '</svg>'


def main():
    source = sys.argv[1] if len(sys.argv) > 1 else os.path.join(ROOT, 'crates', 'layout', 'specs', 'Layout.antt')
    out = sys.argv[2] if len(sys.argv) > 2 else os.path.join(ROOT, 'docs', 'layout.svg')
    lines = list(picture(Layout(source)))
    with open(out, 'w', encoding='utf-8') as f:
        f.write('\n'.join(lines) + '\n')


if __name__ == '__main__':
    main()
