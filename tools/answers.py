#!/usr/bin/env python3
"""Turns each function's Proof.antt of the older form into Invariants.antt and Answers.antt, once.

The older form gave its needs by position, `tie.close (tie.spec ..)`, and named the facts through `.before`; today's names each goal. The names
come from the kit: `rt names FOLDER` at the top of the repository. What it cannot turn it names and leaves.
Usage: tools/answers.py FOLDER CRATE..
"""
import json
import os
import re
import sys

WORD = r"[^\s(){}\[\];,.:\"`|]+"


def blocks(text):
    """The declarations at the margin, each with the comments above it."""
    found, lines = [], []
    for line in text.split('\n'):
        starts = line and not line[0].isspace()
        if starts and lines and not all(l.startswith('--') for l in lines if l.strip()):
            if not continues(lines, line):
                found.append('\n'.join(lines).strip('\n'))
                lines = []
        lines.append(line)
    return [b for b in found + ['\n'.join(lines).strip('\n')] if b.strip()]


def named(block):
    """The name that a block declares or defines."""
    for line in block.split('\n'):
        if line.startswith(('--', 'use ', 'unfolding ')) or not line.strip():
            continue
        return re.sub(r'^(?:(?:abbrev|unfoldable|pub) )*', '', line).split()[0]
    return None


def continues(lines, line):
    """Whether a line at the margin goes on with the declaration of the lines before it."""
    name = named('\n'.join(lines))
    last = [l for l in lines if l.strip() and not l.startswith('--')]
    if last and last[-1].startswith('use '):
        return False
    if line.startswith('--') or line.startswith('use '):
        return False
    return line.startswith('unfolding ') or line.split()[0] == name


def arguments(text):
    """The arguments of a call: words and parenthesised terms."""
    args, at = [], 0
    while at < len(text):
        if text[at].isspace():
            at += 1
        elif text[at] == '(':
            depth, end = 0, at
            while True:
                depth += {'(': 1, ')': -1}.get(text[end], 0)
                end += 1
                if depth == 0:
                    break
            args.append(text[at:end])
            at = end
        else:
            end = at
            while end < len(text) and not text[end].isspace() and text[end] not in '()':
                end += 1
            args.append(text[at:end])
            at = end
    return args


def plain(step):
    """The name of a step whatever joins its words."""
    return re.sub('[-_]', '', step).lower()


def clauses(crate):
    """The names of the clauses of each function of a crate: its path, requires or ensures, names."""
    found = {}
    for at, _, files in os.walk('crates/%s/src' % crate):
        for file in files:
            text = open(os.path.join(at, file), encoding='utf-8').read()
            module = '' if file in ('lib.rt', 'main.rt') else file[:-3] + '::'
            for head in re.finditer(r'\bfn (\w+)(.*?)\n *\{\n', text, re.S):
                for word in ('requires', 'ensures'):
                    found.setdefault((module.split('::')[0], head[1]), {})[word] = re.findall(r'^ *%s (\w+) \{' % word, head[2], re.M)
    return found


def path_mender(names, own, called):
    """What turns the paths of facts in a body whose facts are called c."""
    steps, arms, callees, slices = {}, {}, {}, {}
    for place in names['places']:
        if place[2] and place[2][0]:
            steps.setdefault(plain(place[2][0]), place[2][1])
            if place[3]:
                callees[place[2][1]] = place[3]
    for typed in names['typed']:
        for slice_name, step in typed:
            slices[plain(step)] = slice_name
    for arm in names['arms']:
        if arm:
            for field, old, *path in arm[2]:
                if path and path[0] and field not in ('is', 'ensures') and not field.endswith('-own'):
                    arms[(plain(old), *path[0])] = (arm[0], field)
                elif path and path[0]:
                    arms[(plain(old), *path[0])] = (arm[0], field)

    def clause(parts, at, names):
        if names and len(parts) > at and parts[at].isdigit() and int(parts[at]) < len(names):
            parts[at] = names[int(parts[at])]
        return parts

    def path(owner, parts):
        parts = [p for p in parts if p != 'before']
        if not parts:
            return owner
        for length in range(len(parts), 0, -1):
            if (plain(parts[0]), *parts[1:length]) in arms:
                arm, field = arms[(plain(parts[0]), *parts[1:length])]
                return '.'.join([owner, arm, field] + parts[length:])
        if len(parts) > 1 and parts[1] == 'given' and plain(parts[0]) in slices:
            return '.'.join([owner, 'type_inv', slices[plain(parts[0])]] + parts[2:])
        parts[0] = steps.get(plain(parts[0]), parts[0])
        if parts[0] == 'requires':
            parts = clause(parts, 1, own.get('requires'))
        elif len(parts) > 1 and parts[1] == 'ensures' and parts[0] in callees:
            parts = clause(parts, 2, called(callees[parts[0]]).get('ensures'))
        return '.'.join([owner] + parts)

    def mended(body, c):
        aliases = {c}
        for alias in re.findall(r'\blet (%s) = %s(?:\.before)* in\b' % (WORD, re.escape(c)), body):
            aliases.add(alias)
        for _ in range(2):
            for alias in re.findall(r'\blet (%s) = (?:%s)(?:\.before)* in\b' % (WORD, '|'.join(map(re.escape, aliases))), body):
                aliases.add(alias)
        return re.sub(r"(?<![\w.'-])(%s)((?:\.%s)+)" % ('|'.join(sorted(map(re.escape, aliases), key=len, reverse=True)), WORD), lambda m: path(m[1], m[2][1:].split('.')), body)

    return mended


class Left(Exception):
    pass


def used(uses, body):
    """The use lines that a text needs, each with the names that it needs."""
    words = set(re.findall(WORD, body)) | set(re.findall(r'[^\s\w(){}.;,]+', body))
    out = []
    for line in uses:
        if found := re.fullmatch(r'(use \S+\.)\{(.*)\}', line):
            keep = []
            for item in found[2].split(', '):
                name = item.split(' as ')[-1]
                parts = [p for p in name.split('◌') if p]
                if '◌' in name and all(p in words or p in body for p in parts) or name in words:
                    keep.append(item)
            if keep:
                out.append('%s{%s}' % (found[1], ', '.join(keep)))
        elif found := re.fullmatch(r'use (\S+?)(?: as (\S+))?', line):
            name = found[2] or found[1].split('.')[-1]
            if re.search(r"(?<![\w.'-])%s\." % re.escape(name), body):
                out.append(line)
    return out


def turned(path, crate, names, clauses_of):
    text = open(path, encoding='utf-8').read()
    parts = blocks(text)
    uses = [l for b in parts for l in b.split('\n') if l.startswith('use ')]
    uses = [l for l in uses if not re.search(r'\.(Statement\.\{statement\}|Tie as tie|Tie\.)', l)]
    decls = {named(b): b for b in parts if named(b)}
    spec = [b for b in parts if 'tie.close' in b]
    if len(spec) != 1:
        raise Left('no tie.close')
    head = [l for l in parts[0].split('\n') if l.startswith('--')] if parts else []
    inner = spec[0].split('tie.close', 1)[1].strip()
    args = arguments(inner)
    if len(args) == 1 and args[0].startswith('('):
        args = arguments(args[0][1:-1].strip())
    if args[0] != 'tie.spec':
        raise Left('close is not of spec')
    args = args[1:]
    place = path.split('/proofs/')[1].rsplit('/', 1)[0].split('/')

    def called(callee):
        words = callee.split('::')
        return clauses_of(words[0]).get((words[-2] if len(words) > 2 else '', words[-1]), {})

    mend = path_mender(names, clauses_of(crate).get((place[-2] if len(place) > 1 else '', place[-1]), {}), called)
    loops = names['loops']
    needs = names['needs']
    if len(args) != len(needs) + 2 * len(loops):
        raise Left('%d arguments for %d needs and %d loops' % (len(args), len(needs), len(loops)))
    place = path.split('/proofs/')[1].rsplit('/', 1)[0].replace('/', '.')
    module = 'Rattle.%s.proofs.%s' % (crate, place)
    spent = {named(spec[0])}
    invariants = []
    for k, ((old, new), variables) in enumerate(loops):
        changed = [v for v, c in zip(variables, names['changed'][k]) if c]
        for n, word in ((2 * k, 'invariant'), (2 * k + 1, 'decreases')):
            invariants.append(invariant(args[n], decls, word, new, variables, changed, spent))
    answers = []
    for need, arg in zip(needs, args[2 * len(loops):]):
        answers.append(answer(need[1], arg, decls, mend, spent))
    helpers = [b for n, b in decls.items() if n not in spent and not all(l.startswith(('--', 'use ')) or not l.strip() for l in b.split('\n'))]
    return head, uses, module, invariants, [a for a in answers if a], helpers


def invariant(arg, decls, word, loop, variables, changed, spent):
    name = '%s-%s' % (word, loop)
    if arg.startswith('(λ '):
        patterns, body = re.match(r'\(λ ([^.]*?)\. ?(.*)\)$', arg, re.S).groups()
        patterns = patterns.split()
        lines = ''
    else:
        if arg not in decls:
            raise Left('no ' + arg)
        spent.add(arg)
        block = decls[arg]
        found = re.search(r"^%s((?: \S+)*) =(.*)" % re.escape(arg), block, re.S | re.M)
        patterns, body = found[1].split(), found[2]
        lines = ''.join(l + '\n' for l in block.split('\n') if l.startswith('unfolding '))
    if len(patterns) != len(variables) + len(changed):
        raise Left('%s: %d patterns for %s and %s' % (name, len(patterns), variables, changed))
    terms = {}
    for p, v in zip(patterns, variables):
        terms[p] = 'l.initial.' + v if v in changed else 'l.' + v
    for p, v in zip(patterns[len(variables):], changed):
        terms[p] = 'l.' + v
    for p in terms:
        if p != '_' and re.search(r'(\(|λ )%s( :|\.| )' % re.escape(p), body) and re.search(r'\(%s :|λ (\S+ )*%s[ .]' % (re.escape(p), re.escape(p)), body):
            raise Left('%s: binds %s again' % (name, p))
    body = re.sub(r"(?<![\w.'-])(%s)" % WORD, lambda m: terms.get(m[1], m[1]), body)
    return 'abbrev pub %s : goal.%s\n%s%s l =%s' % (name, name, lines, name, body if body[:1].isspace() else ' ' + body)


def answer(name, arg, decls, mend, spent):
    """The answer of a goal, or None where the check finds it alone."""
    if arg.startswith('('):
        found = re.match(r'\(λ (\S+?)(?: \S+?)?\. ?(.*)\)$', arg, re.S)
        if not found:
            return 'pub %s : goal.%s\n%s = %s' % (name, name, name, arg)
        c, body = found.groups()
        if body.strip() == 'search rules':
            return None
        return 'pub %s : goal.%s\n%s %s = %s' % (name, name, name, c, mend(body, c))
    if arg not in decls:
        raise Left('no ' + arg)
    spent.add(arg)
    block = decls[arg]
    found = re.search(r"^%s (\S+)(?: κs)? =(.*)" % re.escape(arg), block, re.S | re.M)
    if not found:
        raise Left('%s has no equation' % arg)
    c, body = found.groups()
    comments = ''.join(l + '\n' for l in block.split('\n') if l.startswith('--'))
    lines = ''.join(l + '\n' for l in block.split('\n') if l.startswith('unfolding '))
    if body.strip() == 'search rules' and not lines:
        return None
    return '%spub %s : goal.%s\n%s%s %s =%s' % (comments, name, name, lines, name, c, mend(body, c))


def write(path, head, uses, goal, items):
    body = '\n\n'.join(items)
    with open(path, 'w', encoding='utf-8') as file:
        file.write('\n'.join(head + used(uses, body) + [goal, '', body, '']))


def main():
    folder, done, left, kept = sys.argv[1], 0, [], {}

    def clauses_of(crate):
        if crate not in kept:
            kept[crate] = clauses(crate)
        return kept[crate]

    for crate in sys.argv[2:]:
        names = json.load(open(os.path.join(folder, 'crates', crate, 'names.json')))
        names = {key.split('-proofs.', 1)[1].rsplit('.Lts', 1)[0]: value for key, value in names.items() if key.endswith('.Lts')}
        for at, dirs, files in sorted(os.walk('crates/%s/proofs' % crate)):
            if 'Proof.antt' not in files:
                continue
            path = os.path.join(at, 'Proof.antt')
            key = path.split('/proofs/')[1].rsplit('/', 1)[0].replace('/', '.')
            try:
                if key not in names:
                    raise Left('no names')
                head, uses, module, invariants, answers, helpers = turned(path, crate, names[key], clauses_of)
            except Left as why:
                left.append('%s: %s' % (path, why))
                continue
            os.remove(path)
            if invariants:
                write(os.path.join(at, 'Invariants.antt'), head, uses, 'use %s.Given as goal' % module, invariants)
            if answers or helpers:
                write(os.path.join(at, 'Answers.antt'), head if not invariants else [], uses, 'use %s.Goals as goal' % module, helpers + answers)
            done += 1
    print('\n'.join('left: ' + l for l in left))
    print('answers: %d turned, %d left' % (done, len(left)))


if __name__ == '__main__':
    main()
