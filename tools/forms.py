#!/usr/bin/env python3
"""Counts the places in src/ where an older form of the language shows.

    python3 tools/forms.py          the counts, a line for each point
    python3 tools/forms.py -v       and the places
"""
import collections
import glob
import re
import sys

VERBOSE = '-v' in sys.argv[1:]
KEYWORDS = set('''as break const continue else enum false fn for if impl in let loop match mod mut pub
    ref return self Self struct true type use while None Some Ok Err u8 u16 u32 u64 usize bool'''.split())


def sources():
    for path in sorted(glob.glob('crates/*/src/**/*.rt', recursive=True)):
        with open(path) as f:
            text = f.read()
        yield path, text, re.sub(r'//[^\n]*', '', text)


def functions():
    """Each function as its place, its name, its header and its body."""
    for path, _, code in sources():
        for m in re.finditer(r'^( *)(?:pub )?(?:extern "C" )?fn (\w+)', code, re.M):
            indent = m.group(1)
            start = re.compile(r'^' + indent + r'(\{$|.*\) *(->.*)?\{$)', re.M).search(code, m.start())
            end = re.compile(r'^' + indent + r'\}', re.M).search(code, m.start())
            if start and end and start.end() < end.start():
                line = code.count('\n', 0, m.start()) + 1
                yield f'{path}:{line}', m.group(2), code[m.start():start.end()], code[start.end():end.start()]


def show(point, places):
    print(f'{point}: {len(places)}')
    if VERBOSE:
        for place in places:
            print('   ', place)


def matches(pattern):
    found = []
    for path, _, code in sources():
        for number, line in enumerate(code.split('\n'), 1):
            if re.search(pattern, line):
                found.append(f'{path}:{number}: {line.strip()}')
    return found


def enums_like(arms_wanted):
    found = []
    for path, _, code in sources():
        for m in re.finditer(r'enum (\w+) \{\n(.*?)\n\}', code, re.S):
            arms = [a.strip() for a in re.findall(r'^    (\w+(?:\(.*?\))?),', m.group(2), re.M)]
            if arms_wanted(arms):
                found.append(f'{path}: {m.group(1)} {{ {", ".join(arms)} }}')
    return found


def option_or_result(arms):
    """Two arms of which one at least has a value, or an arm that carries a reason or an error."""
    values = [a for a in arms if '(' in a]
    refusals = [a for a in values if re.search(r'Reason|Error', a)]
    plain = [a for a in arms if '(' not in a]
    return bool(refusals) and len(arms) <= 5 or len(arms) == 2 and len(values) == 1 and len(plain) == 1


def none_as_number():
    """A comment that says which number stands for nothing, above a function."""
    found = []
    for path, text, _ in sources():
        for m in re.finditer(r'((?:^ *//[^\n]*\n)+)(?: *#\[[^\n]*\n)* *(?:pub )?fn (\w+)[^\n]*', text, re.M):
            if re.search(r'\b0 where|; 0 (if|where|for)|where none is, how many', m.group(1)):
                found.append(f'{path}: {m.group(2)}')
    return found


def skeleton(body):
    tokens = re.findall(r"b?'[^']*'|b?\"[^\"]*\"|\w+|[^\w\s]", body)
    out = []
    for t in tokens:
        if re.match(r"b?['\"]|\d", t):
            out.append('0')
        elif re.match(r'\w', t) and t not in KEYWORDS:
            out.append('x')
        else:
            out.append(t)
    return tuple(out)


def twins():
    groups = collections.defaultdict(list)
    for place, name, _, body in functions():
        s = skeleton(body)
        if len(s) >= 12:
            groups[s].append(f'{place} {name}')
    return [' = '.join(g) for g in groups.values() if len(g) > 1]


def repeated_facts():
    """A fact on a parameter that three functions or more ask for."""
    facts = collections.defaultdict(set)
    for place, name, header, _ in functions():
        for clause in re.findall(r'requires[^{]*\{(.*?)\}\n', header, re.S):
            for fact in re.findall(r'\b([A-Z]\w+) [a-z(]', clause):
                facts[fact].add(place)
    return [f'{fact} in {len(at)} functions' for fact, at in sorted(facts.items()) if len(at) >= 3]


def lengths_beside():
    """Functions that take an array or slice and its length or count as another parameter."""
    found = []
    for place, name, header, _ in functions():
        params = header.split('requires')[0].split('ensures')[0]
        if re.search(r'&(mut )?\[', params) and re.search(r'\b(len|count|kept): usize', params):
            found.append(f'{place} {name}')
    return found


show('1 enums of the shape of Option or Result', enums_like(option_or_result))
show('1 a number for none', none_as_number())
show('2 groups of functions with one skeleton', twins())
show('3 loops that count by hand', matches(r'^\s*(while |loop \{)'))
show('4 comparisons of the numbers inside', matches(r'\.0 (==|!=) [a-z_]+(\.[a-z_]+)*\.0'))
show('4 conversions by hand', matches(r'fn (wide|rank|least|greatest|either|\w*index\w*)\b'))
show('5 facts in the contracts of three functions or more', repeated_facts())
show('6 a length beside its array', lengths_beside())
show('7 a match from a rule to its function', matches(r'^\s*Rule::\w+ => \w+::\w+\('))
