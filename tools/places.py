"""The places of each point of docs/DESIGN-PASS.md in the crates' sources, found by their text.

    python3 tools/places.py [TREE] [POINT]

prints, for the tree (this one by default), a line for each place, and how many there are of each point. It reads only `crates/*/src` and, for
point 8, `crates/*/proofs`. Where a place is of a function, it says whether that is public. A place that stays has a reason beside it in the source, or on that page;
the count does not look at reasons.
"""
import glob
import os
import re
import sys
from collections import defaultdict

CLAUSE = re.compile(r'(requires|ensures)\s*\w*\s*$')


def closing(text, at, opening, close):
    depth = 0
    for i in range(at, len(text)):
        if text[i] == opening:
            depth += 1
        elif text[i] == close:
            depth -= 1
            if depth == 0:
                return i
    return len(text)


def without_comments(text):
    return re.sub(r'//[^\n]*', '', text)


def functions(text):
    """(name, line, parameters, clauses, body) of each function of a source; a public one's name has `pub fn ` before it, another's `fn `."""
    for m in re.finditer(r'^[ ]*(?:pub(?:\([a-z]+\))? )?(?:const )?(?:extern "C" )?fn (\w+)', text, re.M):
        i = m.end()
        if text[i] == '<':
            depth = 0
            while True:
                if text[i] == '<':
                    depth += 1
                elif text[i] == '>' and text[i - 1] != '-':
                    depth -= 1
                    if depth == 0:
                        break
                i += 1
        i = text.index('(', i)
        end = closing(text, i, '(', ')')
        parameters = text[i + 1:end]
        i = end + 1
        clauses = []
        while True:
            j = text.find('{', i)
            head = text[i:j] if j >= 0 else ';'
            if j < 0 or ';' in re.sub(r'\[[^\]]*\]', '', head):
                break
            if CLAUSE.search(head):
                k = closing(text, j, '{', '}')
                clauses.append((CLAUSE.search(head).group(1), text[j + 1:k]))
                i = k + 1
                continue
            k = closing(text, j, '{', '}')
            yield ('pub fn ' if re.match(r'\s*pub (?!\()', m.group(0)) else 'fn ') + m.group(1), text.count('\n', 0, m.start()) + 1, parameters, clauses, text[j + 1:k]
            break


def sources(tree):
    for path in sorted(glob.glob(os.path.join(tree, 'crates/*/src/**/*.rt'), recursive=True)):
        with open(path) as f:
            yield os.path.relpath(path, tree), without_comments(f.read())


def named(tree):
    for path, text in sources(tree):
        for f in functions(text):
            yield (path,) + f


# 1: enums of two cases of which one at least is bare or a refusal; structs with a flag beside a value; numbers for kinds
def point1(tree):
    for path, text in sources(tree):
        for m in re.finditer(r'enum (\w+)[^{]*\{', text):
            body = text[m.end():closing(text, m.end() - 1, '{', '}')]
            cases = re.findall(r'^\s{4}(\w+)\s*([({]?)', body, re.M)
            two = len(cases) == 2 and sum(1 for c in cases if c[1]) >= 1
            if two:
                yield f'{path}: enum {m.group(1)} {{{", ".join(c[0] for c in cases)}}}'
        for m in re.finditer(r'struct (\w+)[^{;(]*\{', text):
            body = text[m.end():closing(text, m.end() - 1, '{', '}')]
            if re.search(r':\s*bool,', body) or re.search(r'\b(found|number):\s*u32,', body):
                yield f'{path}: struct {m.group(1)} has a flag or a number beside a value'
        for name, line, parameters, _, _ in functions(text):
            for p in re.findall(r'\b(letter|axes|kind|kinds|code|boundary_handling|stop_after_one_substep|modified_eigenerosion)\s*:\s*(&\[u8\]|u8|u32)', parameters):
                yield f'{path}:{line}: {name} takes {p[0]}: {p[1]}'


# 2: functions and types that are the same text but for literals, types and digits in names
def shape(text):
    text = re.sub(r'\b0x[0-9a-fA-F_]+\b|\b\d[\d_.]*\w*\b', '0', text)
    text = re.sub(r'\b(?:[A-Z]\w*|u8|u32|u64|usize|f32|i32)\b', 'T', text)
    text = re.sub(r'(?<=[a-z_])\d+', '', text)
    return re.sub(r'\s+', ' ', text).strip()


def point2(tree):
    groups = defaultdict(list)
    for path, name, line, parameters, _, body in named(tree):
        if path.startswith('crates/boundary/') and name.startswith('pub fn mk_'):
            continue
        groups[('fn', shape(body))].append(f'{path}:{line}: {name}')
    for path, text in sources(tree):
        for m in re.finditer(r'struct (\w+)[^{;(]*\{', text):
            body = text[m.end():closing(text, m.end() - 1, '{', '}')]
            groups[('struct', shape(body))].append(f'{path}: struct {m.group(1)}')
    twins = defaultdict(list)
    for path, name, line, _, _, _ in named(tree):
        if 'packing/src/dim' in path:
            twins[name].append(f'{path}:{line}: {name}')
    seen = set()
    for (kind, _), places in sorted(groups.items(), key=lambda g: g[1]):
        if len(places) > 1:
            seen.update(places)
            yield f'{len(places)} alike: ' + '; '.join(places)
    for name, places in sorted(twins.items()):
        if len(places) > 1 and not set(places) <= seen:
            yield f'{len(places)} of one name: ' + '; '.join(places)


# 3: while loops whose condition's variable is counted by one in the body
def point3(tree):
    for path, text in sources(tree):
        for m in re.finditer(r'while ([^{]*?)\{', text):
            body = text[m.end():closing(text, m.end() - 1, '{', '}')]
            for v in set(re.findall(r'\b[a-z_]\w*\b', m.group(1))):
                if re.search(r'\b%s (\+|-)= 1;' % v, body) or re.search(r'\b%s = %s (\+|-) 1;' % (v, v), body):
                    yield f'{path}:{text.count(chr(10), 0, m.start()) + 1}: while {m.group(1).strip()}'
                    break


# 4: records copied field by field, copies held in a name of their own, and functions that convert or compare by hand
def point4(tree):
    for path, text in sources(tree):
        for m in re.finditer(r'\b([A-Z]\w*) \{\n', text):
            body = text[m.end():closing(text, m.end() - 2, '{', '}')]
            same = re.findall(r'^\s*(\w+): (?:\w+\.)+\1,$', body, re.M)
            if len(same) >= 2 or (same and m.group(1) in ('Point', 'Vector')):
                yield f'{path}:{text.count(chr(10), 0, m.start()) + 1}: {m.group(1)} is copied by {len(same)} fields'
        for m in re.finditer(r'^\s*let (\w+) = \w+\.\1;$', text, re.M):
            yield f'{path}:{text.count(chr(10), 0, m.start(1)) + 1}: let {m.group(1)} copies a field'
        for name, line, parameters, _, body in functions(text):
            if re.match(r'(?:pub )?fn (?:number|end_number|crossed|two_complement|signed|low|wide|least|handling_of|kinds_of\w*|kinds_in_space|size_of|number_of|is_found|numbered|value_at|flag)$', name):
                yield f'{path}:{line}: {name} converts or compares by hand'
        for m in re.finditer(r'\b(\w+): \1([,}\s])', text):
            if m.group(2) != '' and re.search(r'[{,]\s*$', text[:m.start()].rstrip(' \n') or '{'):
                yield f'{path}:{text.count(chr(10), 0, m.start()) + 1}: {m.group(1)} is named twice in a record'


def private(places):
    return sum(1 for p in places if ': pub fn ' not in p)


# 5: conditions that stand in the contracts of three functions or more; four parameters or more that stand together in three functions or more
def point5(tree):
    facts = defaultdict(set)
    groups = defaultdict(set)
    for path, name, line, parameters, clauses, _ in named(tree):
        where = f'{path}:{line}: {name}'
        for kind, clause in clauses:
            if kind == 'requires':
                for fact in re.split(r' × |\n\s*× ', clause):
                    fact = re.sub(r'\s+', ' ', fact).strip(' ()')
                    if len(fact) > 12:
                        facts[fact].add(where)
        ps = [re.sub(r'\s+', ' ', p).strip() for p in re.split(r',(?![^<\[(]*[>\])])', parameters) if p.strip()]
        names = tuple(p.split(':')[0].replace('mut ', '') for p in ps)
        for i in range(len(names) - 3):
            groups[names[i:i + 4]].add(where)
    for fact, places in sorted(facts.items()):
        if len(places) >= 3:
            yield f'{len(places)} contracts, {private(places)} of private functions: {fact}'
    together = {n: p for n, p in groups.items() if len(p) >= 3}
    for names, places in sorted(together.items()):
        yield f'{len(places)} functions, {private(places)} of them private: {", ".join(names)}'


# 6: pairs of slices that are one list of records, counts beside slices, places of lists kept as numbers, and lists searched by hand
def point6(tree):
    for path, name, line, parameters, _, body in named(tree):
        p = re.sub(r'\s+', ' ', parameters)
        pairs = re.findall(r'\b(\w*f\w*): &(?:mut )?\[f32[^\]]*\], \b(\w+): &(?:mut )?\[u32', p)
        for pair in pairs:
            yield f'{path}:{line}: {name}: {pair[0]} and {pair[1]} side by side'
        for m in re.findall(r'\b(regions|particles|colliders|proposals): usize', p):
            yield f'{path}:{line}: {name}: the count {m} beside its slices'
        for m in re.findall(r'\b(block): &\[usize', p):
            yield f'{path}:{line}: {name}: places as numbers in {m}'
        for m in re.findall(r'\b(?:from|start): usize, \b(?:to|end|count): usize', p):
            yield f'{path}:{line}: {name}: a part of a buffer by two numbers'
        if re.search(r'ids\[first \+ half\]', body):
            yield f'{path}:{line}: {name}: a sorted list searched by hand'


# 7: matches on a case that says which step to run
def point7(tree):
    for path, name, line, parameters, _, body in named(tree):
        for m in re.finditer(r'match (pass|load|rule|handling|letter|kind|proj|axes)\b', body):
            yield f'{path}:{line}: {name}: match {m.group(1)}'


# 8: goals that are answered, lemmas, and names of the logic's own modules in proof files
def point8(tree):
    counts = defaultdict(lambda: [0, 0, 0])
    for path in glob.glob(os.path.join(tree, 'crates/*/proofs/**/*.antt'), recursive=True):
        crate = os.path.relpath(path, tree).split('/')[1]
        with open(path) as f:
            text = f.read()
        counts[crate][0] += len(re.findall(r'^pub [\w\-′\']+ : (?:.*→ )?goal\.', text, re.M))
        if os.path.basename(path) not in ('Answers.antt', 'Invariants.antt'):
            counts[crate][1] += len(re.findall(r'^\s*(?:pub )?(?!abbrev|use|module|record)[a-z][\w\-]* : ', text, re.M))
        counts[crate][2] += len(re.findall(r'^use (?:mathlib|lib|native|borrow|types|denote|mir|Prim)\.', text, re.M))
    for crate in sorted(counts):
        a, b, c = counts[crate]
        yield f'{crate}: {a} answers, {b} lemmas, {c} imports of the logic\'s own modules'


POINTS = [point1, point2, point3, point4, point5, point6, point7, point8]


def main():
    tree = '.'
    only = None
    for a in sys.argv[1:]:
        if a.isdigit():
            only = int(a)
        else:
            tree = a
    for k, point in enumerate(POINTS, 1):
        if only and k != only:
            continue
        places = list(point(tree))
        print(f'== {k}: {len(places)}')
        for p in places:
            print(p)


main()
