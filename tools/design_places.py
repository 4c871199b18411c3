#!/usr/bin/env python3
"""Counts the places of docs/DESIGN-PASS.md in the sources: `tools/design_places.py [--list] [COMMIT]`, at the top of the
repository. Without COMMIT it reads the working tree. Each point has one rule or more; --list prints each place."""
import collections
import itertools
import re
import subprocess
import sys

FLAGS = {'refused', 'taken', 'none', 'known', 'passed', 'under_way', 'copied', 'closing'}
WORDS = sys.argv[1:]
LIST = '--list' in WORDS
COMMIT = next((w for w in WORDS if w != '--list'), None)


def git(*words):
    return subprocess.run(['git', *words], capture_output=True, text=True, check=True).stdout


def sources():
    """The text of each .rt file of crates/*/src, without comments and `ghost use` lines."""
    if COMMIT:
        names = git('ls-tree', '-r', '--name-only', COMMIT, 'crates').splitlines()
        texts = {n: git('show', f'{COMMIT}:{n}') for n in names if re.fullmatch(r'crates/\w+/src/.*\.rt', n)}
    else:
        names = git('ls-files', '--cached', '--others', '--exclude-standard', 'crates').splitlines()
        texts = {}
        for n in names:
            if re.fullmatch(r'crates/\w+/src/.*\.rt', n):
                try:
                    texts[n] = open(n).read()
                except FileNotFoundError:
                    pass
    return {n: re.sub(r'(?m)^ghost use [^;]*;\n', '', re.sub(r'(?m)^\s*//.*\n', '', t)) for n, t in sorted(texts.items())}


def items(text, word):
    """Name and body of each struct or enum."""
    for m in re.finditer(rf'(?m)^(?:pub(?:\(crate\))? )?{word} (\w+)[^{{;\n]*\{{\n(.*?)^\}}', text, re.S):
        yield m.group(1), m.group(2)


def functions(text):
    """Name, parameters and clauses of each function."""
    for m in re.finditer(r'(?m)^ *(?:pub(?:\(crate\))? )?(?:extern "C" )?fn (\w+)(?:<[^>(]*>)?\((.*?)\)(?: -> [^\n]*?)?((?:\n +(?:requires|ensures)[^\n]*(?:\n +(?:×|≡|[a-z])[^\n]*)*)*) ?\n? *\{', text, re.S):
        yield m.group(1), ' '.join(m.group(2).split()), m.group(3)


def variants(body):
    depth, parts, part = 0, [], ''
    for c in body:
        depth += c in '({'
        depth -= c in ')}'
        if c == ',' and depth == 0:
            parts.append(part.strip())
            part = ''
        else:
            part += c
    return [p for p in parts + [part.strip()] if p]


def answers(text):
    """Own enums of the shape of Option or Result: one variant holds a refusal, or one of two holds a value."""
    for name, body in items(text, 'enum'):
        those = variants(body)
        holds = [v for v in those if '(' in v or '{' in v]
        if name.endswith('Error'):
            continue
        if any(re.search(r'\((Refusal|Rule)\)', v) for v in those) or (len(those) == 2 and len(holds) == 1):
            yield name


def flags(text):
    """Structs with a flag beside a value, or a refusal as two numbers."""
    for name, body in items(text, 'struct'):
        fields = dict(re.findall(r'(\w+): ([^,\n]+)', body))
        if any(f in FLAGS and t == 'bool' for f, t in fields.items()) or {'verdict', 'answer'} & set(fields) \
                or {'number', 'place'} <= set(fields):
            yield name


def kinds(text):
    """Kinds and parts as numbers: fields of structs and answers of functions."""
    for name, body in items(text, 'struct'):
        for field in re.findall(r'(?m)^ *(?:pub )?(part|kind|opcode|file): u\d+', body):
            yield f'{name}.{field}'
    for m in re.finditer(r'fn (kind|number|part_of|opcode\w*)\([^)]*\) -> u\d+', text):
        yield m.group(1)


def count(title, places):
    places = list(places)
    print(f'{title}: {len(places)}')
    if LIST:
        for place in places:
            print(f'    {place}')


def main():
    texts = sources()
    short = {n: n.removeprefix('crates/').replace('/src/', '/') for n in texts}

    def each(rule):
        return [f'{short[n]}: {p}' for n, t in texts.items() for p in rule(t)]

    count('1 enums of the shape of Option or Result', each(answers))
    count('1 structs with a flag or a refusal beside a value', each(flags))
    count('1 numbers for kinds', each(kinds))
    declared = collections.defaultdict(list)
    for n, t in texts.items():
        for word in ('struct', 'enum'):
            for name, _ in items(t, word):
                declared[name].append(short[n])
        for name, _, _ in functions(t):
            if name not in ('main', 'from', 'fmt', 'new'):
                declared[f'{name}()'].append(short[n])
    count('2 names that two files declare', [f'{k}: {" ".join(v)}' for k, v in sorted(declared.items()) if len(v) > 1])
    numbered = collections.defaultdict(list)
    for k in declared:
        numbered[re.sub(r'\d+', '#', k)].append(k)
    count('2 names that differ only in a number', [' '.join(sorted(v)) for k, v in sorted(numbered.items()) if len(v) > 1])
    count('3 `while` loops', [f'{short[n]}: while {c}' for n, t in texts.items() for c in re.findall(r'(?m)^ *while ([^\n]*) \{$', t)])
    count('4 equality, order, conversion and printing by hand',
          [f'{short[n]}: {name}' for n, t in texts.items() for name, _, _ in functions(t)
           if re.match(r'(same_(?!part|frames|opening|segment|operation)|number$|part_of$|print_|is_stored$|wide|signed$)', name)])
    facts, named = collections.defaultdict(list), collections.defaultdict(set)
    for n, t in texts.items():
        for name, params, clauses in functions(t):
            for clause in re.findall(r'requires \{ (.*?) \}(?=\n|$)', clauses, re.S):
                for fact in clause.split(' × '):
                    facts[' '.join(fact.split()).strip('()')].append(f'{short[n]}:{name}')
            for param in re.findall(r'(\w+): ([^,]+)', params):
                named[f'{param[0]}: {param[1].replace("&mut ", "&").strip()}'].add(f'{short[n]}:{name}')
    count('5 facts that three contracts ask or more',
          [f'{k}: {len(v)}' for k, v in sorted(facts.items(), key=lambda f: -len(f[1])) if len(v) > 2])
    pairs = [(a, b, len(named[a] & named[b])) for a, b in itertools.combinations(sorted(named), 2)
             if len(named[a] & named[b]) > 2 and 5 * len(named[a] & named[b]) >= 4 * len(named[a] | named[b])]
    count('5 pairs of parameters that travel together: three functions or more, and four in five of those that have one',
          [f'{a}, {b}: {n}' for a, b, n in pairs])
    count('6 functions with two arrays beside each other',
          [f'{short[n]}: {name}' for n, t in texts.items() for name, params, _ in functions(t) if len(re.findall(r'\[u\d+; [A-Z]+\]', params)) > 1])
    count('7 switches on which step to run: a bool that is passed',
          [f'{short[n]}: {name}({p})' for n, t in texts.items() for name, params, _ in functions(t) for p in re.findall(r'(\w+): bool', params)])


main()
