#!/usr/bin/env python3
"""Spells the repository's own definitions and lemmas in snake case, as today's Rattle writes them: `headerSize` and
`length-in-spec` become `header_size` and `length_in_spec`. It runs once, right behind port.py (docs/PORT.md), at the top
of the repository. Types, modules, operators, functions of src/ and what Rattle generates keep their names.

A name is own where a file of specs/ or proofs/ declares it. In such a file it turns where it is declared or imported by a
`use` of an own module, in a .rt file where a `ghost use` imports it. Two names that would fall together in a file are told
apart by the table APART, and the script stops where it does not say how."""
import collections
import os
import re
import sys

ROOT = 'crates'
NAME = r'[^\s(){}.;,@"«»]+'
USE = re.compile(rf'\buse (Rattle\.[^\s;{{]+?)(?:\.\{{([^}}]*)\}}|(?= as | *;|\s*$))', re.M)
DECLARED = re.compile(rf'(?m)^((?:  )+)?(?:unfoldable |abbrev )?(?:pub )?(?:abbrev |unfoldable )?(?:pub )?({NAME})(?: \{{[^{{}}\n]*\}})* :(?: |$)')
LISTED = re.compile(rf'(?m)^(?:unfolding|unfold) ')

# Old name: new name, where the plain one would meet another.
APART = {}
if os.path.exists('tools/snake_names.tsv'):
    for row in open('tools/snake_names.tsv', encoding='utf-8'):
        if row.strip() and not row.startswith('#'):
            old, new = row.split()[:2]
            APART[old] = new


CAMEL = re.compile('[a-z0-9][A-Z]')
# The names of definitions, respelled: a lemma that would have the name of a definition gets `_lem`.
DEFINITIONS = set()


def plain(name):
    return re.sub(r'(?<=[a-z0-9])[A-Z]', lambda m: '_' + m[0].lower(), name).replace('-', '_')


def snake(name):
    if name in APART:
        return APART[name]
    new = plain(name)
    return new + '_lem' if not CAMEL.search(name) and new in DEFINITIONS else new


def turns(name):
    if not name[0].islower() or '◌' in name:
        return False
    return snake(name) != name


def files(ending):
    for folder, dirs, names in os.walk(ROOT):
        dirs[:] = sorted(d for d in dirs if d != 'out')
        for name in sorted(names):
            if name.endswith(ending):
                yield os.path.join(folder, name)


def module_of(path):
    crate, rest = path[len(ROOT) + 1:].split('/', 1)
    return 'Rattle.' + crate + '.' + rest[:-len('.antt')].replace('/', '.')


def declared(text):
    """The names that a file declares, and the fields of its records."""
    names, fields, kind = set(), set(), None
    for line in text.split('\n'):
        head = re.match(r'(?:pub )?(record|data)\b', line)
        if head:
            kind = head.group(1)
        elif line and not line[0].isspace() and not line.startswith('--'):
            kind = None
        listed = kind == 'data' and re.match(rf'  ((?:{NAME} )+{NAME}) : ', line)
        if listed:
            names |= set(listed.group(1).split())
        m = DECLARED.match(line)
        if m and not m.group(2).startswith('--'):
            (fields if kind == 'record' and m.group(1) == '  ' else names).add(m.group(2))
    return names, fields


def read(path):
    with open(path, encoding='utf-8') as f:
        return f.read()


def imports(text):
    """(module, [(name, alias)]) of each `use` line with a list."""
    for m in USE.finditer(text):
        if m.group(2) is None:
            continue
        items = []
        for it in m.group(2).split(','):
            it = it.strip()
            if it:
                old, _, alias = it.partition(' as ')
                items.append((old.strip(), alias.strip()))
        yield m.group(1), items


def hidden(text, name, new):
    """Whether a clause with `name` stands at a function that has a parameter or a local word called `new`."""
    for m in re.finditer(r'\bfn \w+(?:<[^>]*>)?\(([^)]*)\)(.*?)\n *\{\n', text, re.S):
        if re.search(rf'(?<![\w.]){name}\b', m.group(2)) and re.search(rf'\b{new}:', m.group(1)):
            return True
        if re.search(rf'(?<![\w.]){name}\b', m.group(2)) and re.search(rf'(?<![\w.]){new}\b', m.group(2)):
            return True
    return False


def code_and_comments(text, mark):
    """The text cut into (is_comment, part)."""
    at = 0
    for m in re.finditer(rf'(?m)(?<![^\s]){mark}[^\n]*', text):
        yield False, text[at:m.start()]
        yield True, m.group(0)
        at = m.end()
    yield False, text[at:]


def main():
    texts = {p: read(p) for p in files('.antt')}
    sources = {p: read(p) for p in files('.rt')}
    own, members = {}, {}       # module: names that it declares, fields of its records
    everywhere = set()
    for p, t in texts.items():
        own[module_of(p)], members[module_of(p)] = declared(t)
        DEFINITIONS.update(plain(n) for n in own[module_of(p)] if n[0].islower() and CAMEL.search(n))
    for names in own.values():
        everywhere |= {n for n in names if turns(n)}
    # What a module passes on of another.
    exports = {m: set(names) for m, names in own.items()}
    for p, t in texts.items():
        for m in re.finditer(r'(?m)^pub (use \S.*)$', t):
            for module, items in imports(m.group(1)):
                exports[module_of(p)] |= {name for name, _ in items if name in own.get(module, ())}
    trouble = []
    told = collections.Counter()

    def members_in(text):
        found = set(declared(text)[1])
        for m in USE.finditer(text):
            found |= members.get(m.group(1), set())
        return found

    def turn_names(text, names, where, mark, fields=frozenset()):
        """Every unqualified token of `names`, and own camelCase names anywhere."""
        declares = declared(text)[1] if mark == '--' else set()
        own_here = declared(text)[0] if mark == '--' else set()
        anyone = {n for held in members.values() for n in held}
        code = ''.join(part for comment, part in code_and_comments(text, mark) if not comment)
        tokens = set(re.findall(rf'(?<![^\s(){{}};,@«»]){NAME}', code)) if mark == '--' else set(re.findall(r'\w+', text))
        for n in sorted(names):
            new = snake(n)
            if new in tokens and new not in names and new not in members_in(text):
                if mark == '--':
                    # A field's name in a record is no token of this kind.
                    if re.search(rf'(?<![^\s(){{}};,@«»]){re.escape(new)}(?![^\s(){{}};,.@])(?! =[^=])', text.replace('record {', 'record {')):
                        trouble.append((where, n, new))
                elif hidden(text, n, new):
                    trouble.append((where, n, new))
        by_new = collections.defaultdict(set)
        for n in names:
            by_new[snake(n)].add(n)
        for new, olds in by_new.items():
            if len(olds) > 1:
                trouble.append((where, ' '.join(sorted(olds)), new))
        out = []
        for comment, part in code_and_comments(text, mark):
            if comment:
                part = re.sub(r'`([^`\n]+)`', lambda m: '`' + re.sub(rf'{NAME}', lambda w: snake(w[0]) if w[0] in everywhere else w[0], m[1]) + '`', part)
                part = re.sub(r"(?<![\w.-])[a-z]\w*(?![\w-])", lambda m: snake(m[0]) if m[0] in everywhere and '-' not in m[0] else m[0], part)
                part = re.sub(rf"(?<![^\s(){{}};,:\"])[a-z][\w-]*-spec(?![\w-])", lambda m: snake(m[0]) if m[0] in everywhere else m[0], part)
            else:
                # A field: behind a dot, or in front of `=` or `:` in a record.
                part = re.sub(rf'(?<=\.){NAME}', lambda m: plain(m[0]) if m[0] in fields else m[0], part)
                part = re.sub(rf'(?m)(?<=[{{;] )({NAME})(?= = )|(?<=^    )( *)({NAME})(?= =(?: |$))', lambda m: '\x00' + plain(m[1]) if m[1] and (m[1] in fields or m[1] in anyone) else (m[2] + '\x00' + plain(m[3]) if m[3] and (m[3] in fields or m[3] in anyone and m[3] not in own_here) else m[0]), part)
                if fields & declares:
                    part = re.sub(rf'(?m)^(  (?:pub )?)({NAME})(?= :(?: |$))', lambda m: m[1] + '\x00' + plain(m[2]) if m[2] in fields and m[2] in declares else m[0], part)
                part = re.sub(rf'(?<![^\s(){{}};,@«»]){NAME}', lambda m: snake(m[0]) if m[0] in names else m[0], part)
                part = part.replace('\x00', '')
            out.append(part)
        told.update(names)
        return ''.join(out)

    changed = {}
    # A field that port.py turned in its record alone, and says so.
    for p, t in texts.items():
        texts[p] = re.sub(r'(?<=[.; ])total-size(?=[^\w-])', 'total_size', t)
        if texts[p] != t:
            changed[p] = texts[p]
    for p, t in texts.items():
        names = {n for n in own[module_of(p)] if turns(n)}
        fields = {n for n in members[module_of(p)] if plain(n) != n}
        for m in USE.finditer(t):
            module = m.group(1)
            fields |= {n for n in members.get(module, ()) if plain(n) != n}
        # Of a record whose module the file does not name; Rattle's own labels may end in -is.
        fields |= {n for names in members.values() for n in names if plain(n) != n and not n.endswith('-is')}
        # What a generated module declares, or a library, keeps its name.
        foreign = set()
        for module, items in imports(t):
            for name, alias in items:
                if name in exports.get(module, ()):
                    if turns(name):
                        names.add(name)
                    if alias and turns(alias):
                        names.add(alias)
                else:
                    foreign.add(alias or name)
        if re.search(r'/(Answers|Invariants)\.antt$', p) and '/proofs/' in p and re.search(r'use \S+ as goal', t):
            names = {n for n in names if n not in own[module_of(p)] or not re.search(rf'(?m)^(?:abbrev )?(?:pub )?{re.escape(n)} : goal\.', t)}
        meet = names & foreign
        if meet:
            trouble.append((p, ' '.join(sorted(meet)), 'is a name of another module here'))
        new = turn_names(t, names, p, '--', fields)
        # A name behind an own module, as `Checked.bind-then`, or behind what the module is called here.
        for m in re.finditer(r'(?m)^(?:pub )?use (Rattle\.\S+?)(?: as (\S+))?$', t):
            head, known = m.group(2) or m.group(1).rsplit('.', 1)[-1], exports.get(m.group(1), ())
            new = re.sub(rf'(?<![^\s(){{}};,@«»]){re.escape(head)}\.({NAME})', lambda w: f'{head}.{snake(w[1])}' if w[1] in known and turns(w[1]) else w[0], new)
        if new != t or p in changed:
            changed[p] = new
    for p, t in sources.items():
        names = set()
        for module, items in imports(t):
            for name, alias in items:
                if name in exports.get(module, ()) and turns(name):
                    names.add(name)
        # Rust's own words have neither dashes nor capitals within, so a name of `names` stands in clauses alone.
        new = turn_names(t, names, p, '//')
        if new != t:
            changed[p] = new
    for where, old, new in trouble:
        print(f'meets: {where}: {old} -> {new}')
    if '--check' in sys.argv:
        print(len(everywhere), 'names turn,', len(changed), 'files change,', len(trouble), 'meet')
        return 1 if trouble else 0
    if trouble:
        return 1
    for p, t in changed.items():
        with open(p, 'w', encoding='utf-8') as f:
            f.write(t)
    # Edits and pages have no imports: a name turns by its spelling, a name with a dash only in code spans of pages.
    by_case = {n for n in everywhere if '-' not in n}
    for p in files('.edit'):
        t = read(p)
        new = re.sub(rf'(?<![^\s(){{}};,@«».]){NAME}', lambda m: snake(m[0]) if m[0] in everywhere else m[0], t)
        if new != t:
            with open(p, 'w', encoding='utf-8') as f:
                f.write(new)
    pages = ['README.md'] + sorted(os.path.join('docs', n) for n in os.listdir('docs') if n.endswith('.md')) + sorted(os.path.join('docs/notes', n) for n in os.listdir('docs/notes')) + ['rust/README.md']
    for p in pages:
        t = read(p)
        new = re.sub(r"(?<![\w.-])[a-z]\w*(?![\w-])", lambda m: snake(m[0]) if m[0] in by_case else m[0], t)
        new = re.sub(r'`([^`\n]+)`', lambda m: '`' + re.sub(rf'{NAME}', lambda w: snake(w[0]) if w[0] in everywhere else w[0], m[1]) + '`', new)
        if new != t:
            with open(p, 'w', encoding='utf-8') as f:
                f.write(new)
    print(len(everywhere), 'names turned in', len(changed), 'files')
    return 0


sys.exit(main())
