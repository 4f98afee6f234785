#!/usr/bin/env python3
"""Brings the repository's own definitions and lemmas to the spelling of today's Rattle, once, after the kit's port.py.

Words are in snake case, types and facts in camel case; a dash joins the names in a lemma's name alone. Functions of src/, their parameters,
strings, inputs and outputs keep their names. It goes by the declarations that it finds in specs/ and proofs/, and turns each name as a whole
word: in .antt files, in the clauses and `ghost use` items of .rt files, in must-fail edits, and between backticks in the documents.
Usage: tools/respell.py, at the top of the repository; tools/respell.py --list prints the names, and where two fall together, and turns nothing.
"""
import collections
import os
import re
import sys

# facts and values whose first letter says the other thing, and a field that would hide the test that it names
BY_HAND = {
    'modest': 'IsModest',
    'reachable': 'IsReachable',
    'belowHundred': 'BelowHundred',
    'cells_of': 'CellsOf',
    'TwiceOff': 'twice_off',
    'Like': 'is_like',
    'is-e': 'has_e',
    'entryText': 'text_entry',
    'entryNumber': 'number_entry',
}
DECLARED = re.compile(r"(\s*)((?:(?:abbrev|unfoldable|pub|data|record|module)\s+)*)([^\s:(){};,=.]+)(\s+(?:[({].*)?|\s*):(?:\s|$)")
NO_NAME = {'let', 'in', 'elim', 'λ', 'where', 'rw', 'record', 'data', 'use', '_'}
WORD = re.compile(r"[^\s(){}\[\];,.:\"`|]+")


def antt_files():
    for folder, dirs, files in os.walk('crates'):
        dirs[:] = sorted(d for d in dirs if d != 'out')
        for name in sorted(files):
            if name.endswith('.antt'):
                yield os.path.join(folder, name)


def indent(line):
    return len(line) - len(line.lstrip())


def declarations():
    """For each name the kinds that it is declared as: def, con, field, type, lemma, ruleset."""
    kinds = collections.defaultdict(set)
    for path in antt_files():
        if path.endswith('Proof.antt'):
            continue
        record = data = None
        for line in open(path, encoding='utf-8').read().split('\n'):
            for alias in re.findall(r' as ([a-z]\w*)', line) if line.startswith('use ') else []:
                kinds[alias].add('def')
            if not line.strip() or line.lstrip().startswith(('--', 'use ', 'pub use ')):
                continue
            if record is not None and indent(line) <= record:
                record = None
            if data is not None and indent(line) <= data:
                data = None
            if named := re.match(r'\s*(?:pub\s+)?ruleset\s+([^\s=]+)', line):
                kinds[named[1]].add('ruleset')
            found = DECLARED.match(line)
            if not found or found[3] in NO_NAME:
                continue
            marks = found[2].split()
            if 'record' in marks or 'data' in marks:
                kinds[found[3]].add('type')
                record, data = (indent(line), None) if 'record' in marks else (None, indent(line))
            elif record is not None:
                kinds[found[3]].add('field')
            elif data is not None:
                kinds[found[3]].add('con')
            elif 'abbrev' in marks or 'unfoldable' in marks:
                kinds[found[3]].add('def')
            elif not found[4].strip() or found[4].lstrip().startswith('('):
                kinds[found[3]].add('lemma')
    return kinds


def snake(part):
    """A part of a name whose first letter is small, with its words in snake case."""
    if not part[:1].islower():
        return part
    return re.sub(r'(?<=[a-z0-9])([A-Z])', lambda m: '_' + m[1], part).replace('A2ML', 'a2ml').lower() if re.search('[A-Z]', part) else part


def spelling(name, kinds):
    if name in BY_HAND:
        return BY_HAND[name]
    # a keyword of the standard: its constant in src/ has the underscores
    if name == name.upper():
        return name
    parts = [snake(part) for part in name.replace('′', "'").split('-')]
    return ('_' if kinds & {'def', 'con', 'field'} else '-').join(parts)


def turned(text, names):
    return WORD.sub(lambda m: names.get(m[0], m[0]), text)


def regions(text):
    """The places of the clauses and the `ghost use` items of a .rt file."""
    for found in re.finditer(r'^[ \t]*(?:pub )?ghost use [^;]*;', text, re.M):
        yield found.span()
    for found in re.finditer(r'^[ \t]*(?:requires|ensures)\*?(?: \w+)? \{', text, re.M):
        depth, at = 1, found.end()
        while depth and at < len(text):
            depth += {'{': 1, '}': -1}.get(text[at], 0)
            at += 1
        yield found.start(), at


def turned_in(text, spans, names):
    out, last = [], 0
    for start, end in sorted(spans):
        out += [text[last:start], turned(text[start:end], names)]
        last = end
    return ''.join(out) + text[last:]


def others():
    """The .rt files, the edits and the documents."""
    for folder, dirs, files in os.walk('.'):
        dirs[:] = sorted(d for d in dirs if d not in ('out', 'target', '.git', 'proofs', 'specs', 'landings'))
        for name in sorted(files):
            if name.endswith(('.rt', '.edit', '.md')):
                yield os.path.join(folder, name)


def new_text(path, text, names):
    if path.endswith('.antt'):
        return turned(text, names)
    if path.endswith('.rt'):
        return turned_in(text, regions(text), names)
    if path.endswith('.edit'):
        return '\n'.join(turned(line, names) if line.startswith(('old:', 'new:')) else line for line in text.split('\n'))
    return turned_in(text, [m.span() for m in re.finditer(r'```.*?```|`[^`\n]+`', text, re.S)], names)


def clashes(names, files):
    """Files that have a new name beside the old one, before they are turned."""
    for path in files:
        words = set(WORD.findall(open(path, encoding='utf-8').read()))
        for old in sorted(words & set(names)):
            if names[old] in words:
                yield '%s: %s would be %s, which stands there' % (path, old, names[old])


def main():
    kinds = declarations()
    names = {name: spelling(name, kinds[name]) for name in kinds}
    names = {old: new for old, new in names.items() if old != new}
    # a lemma that would have its function's name
    names |= {new: new + '_lem' for new in set(names.values()) & set(kinds) if kinds[new] == {'lemma'}}
    new = collections.Counter(names.values())
    for old in sorted(names):
        if (names[old] in kinds and names[old] not in names) or new[names[old]] > 1:
            print('falls together: %s and %s' % (old, names[old]))
    files = list(antt_files()) + list(others())
    for clash in clashes(names, files):
        print(clash)
    if '--list' in sys.argv:
        print('\n'.join('%s -> %s' % pair for pair in sorted(names.items())))
        return
    for path in files:
        with open(path, encoding='utf-8') as file:
            text = file.read()
        if (turned_text := new_text(path, text, names)) != text:
            with open(path, 'w', encoding='utf-8') as file:
                file.write(turned_text)
    print('respell: %d names' % len(names))


if __name__ == '__main__':
    main()
