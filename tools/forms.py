#!/usr/bin/env python3
"""The places of docs/DESIGN-PASS.md, counted: python3 tools/forms.py [FOLDER] [--list POINT].

A place is a line of crates/*/src (point 8: of crates/*/proofs) that still has a form of the older language.
Each point is one or more patterns; what a pattern finds is printed with its file and line under --list."""
import collections, glob, os, re, sys

args = [a for a in sys.argv[1:] if not a.startswith('--')]
top = args[0] if args else '.'
wanted = sys.argv[sys.argv.index('--list') + 1] if '--list' in sys.argv else None
if wanted and wanted in args:
    args.remove(wanted)
    top = args[0] if args else '.'

def sources(sub, end):
    found = []
    for f in sorted(glob.glob(top + '/crates/*/' + sub + '/**/*' + end, recursive=True)):
        if '/out/' not in f:
            found.append((os.path.relpath(f, top), open(f, encoding='utf-8').read()))
    return found

SRC = sources('src', '.rt')

def line(text, at):
    return text.count('\n', 0, at) + 1

def crate(f):
    return f.split('/')[1]

def functions():
    """Each fn of src: file, line, name, parameters, result, clauses, body."""
    out = []
    head = re.compile(r'^([ ]*)(?:pub(?:\(crate\))? )?(?:extern "C" )?fn (\w+)(?:<[^>]*>)?\(', re.M)
    for f, s in SRC:
        for m in head.finditer(s):
            i, depth = m.end(), 1
            while depth:
                depth += {'(': 1, ')': -1}.get(s[i], 0)
                i += 1
            params = s[m.end():i - 1]
            j = re.compile(r'^%s(?:\{|    .*\{$)?' % m.group(1), re.M)
            body = s.find('\n' + m.group(1) + '{\n', i - 1)
            same = s.find('{', i)
            stop = s.find('\n' + m.group(1) + '}', i)
            sign = s[i:s.find('\n', i)]
            if sign.rstrip().endswith('{'):
                clauses, start = '', s.find('\n', i)
            else:
                start = body if body >= 0 and body < stop else same
                clauses = s[s.find('\n', i):start]
            result = re.search(r'->\s*([^{\n]+)', sign)
            out.append((f, line(s, m.start()), m.group(2), params, result.group(1).strip() if result else '', clauses, s[start:stop]))
    return out

FNS = functions()
found = collections.OrderedDict()

def place(point, kind, f, n, what):
    found.setdefault(point, collections.OrderedDict()).setdefault(kind, []).append((f, n, what))

# 1. Enums of the shape of Option or Result: two cases, or a case that is a refusal or a failure.
for f, s in SRC:
    for m in re.finditer(r'enum (\w+) \{\n(.*?)\n\}', s, re.S):
        cases = re.findall(r'^    (\w+)(\s*[({][^\n]*|\s*\{)?', m.group(2), re.M)
        names = [c for c, _ in cases]
        failing = [c for c in names if c in ('Refused', 'Failed', 'Nothing', 'None', 'Full', 'Different', 'Nowhere', 'Unfit', 'Free', 'TooLong', 'Mismatch')]
        payload = any(p for _, p in cases)
        if payload and failing:
            place('1', 'enum with a case for failing', f, line(s, m.start()), m.group(1) + ': ' + ', '.join(names))
    for m in re.finditer(r'struct (\w+) \{\n(.*?)\n\}', s, re.S):
        flags = re.findall(r'(\w+): bool', m.group(2))
        if flags and len(re.findall(r'^    (?:pub )?\w+:', m.group(2), re.M)) > 1:
            place('1', 'struct with a flag beside a value', f, line(s, m.start()), m.group(1) + ': ' + ', '.join(flags))
    for m in re.finditer(r'^(?:    )?(?:pub )?const (\w+): (u8|u64|usize) = (\d+);', s, re.M):
        if int(m.group(3)) < 32 and crate(f) not in ('stored',):
            place('1', 'constant that numbers a kind, a rule or a tag', f, line(s, m.start()), m.group(1) + ' = ' + m.group(3))
for f, n, name, params, result, clauses, body in FNS:
    arms = re.findall(r'^\s+\d+(?:\s*\|\s*\d+)* =>', body, re.M)
    if arms:
        place('1', 'match on numbers', f, n, name + ': %d arms' % len(arms))
    if re.search(r'=> \d+,', body) and not arms and re.search(r'^u8|^u64', result):
        place('1', 'number told of a case', f, n, name)

# 2. Functions of one name in several crates or in one file's impl, and tables that stand twice.
by_name = collections.defaultdict(list)
for f, n, name, params, result, clauses, body in FNS:
    if name not in ('main', 'fmt', 'from', 'eq') and not (crate(f).startswith('replay') or crate(f) in ('lolli', 'memory_runs')):
        by_name[name].append((f, n, re.sub(r'\s+', ' ', body)))
for name, ps in sorted(by_name.items()):
    if len({crate(p[0]) for p in ps}) > 1:
        for p in ps:
            place('2', 'function of one name in several crates', p[0], p[1], name)
tables = collections.defaultdict(list)
for f, s in SRC:
    for m in re.finditer(r'\[((?:\d+, ){9,}\d+)(?:,)?\s*\]', s):
        tables[m.group(1)].append((f, line(s, m.start())))
for t, ps in tables.items():
    if len(ps) > 1:
        for f, n in ps:
            place('2', 'table that stands several times', f, n, t)
bodies = collections.defaultdict(list)
for f, n, name, params, result, clauses, body in FNS:
    b = re.sub(r'\b(?:un)?restricted\b|\blinear\b', 'zone', re.sub(r'\b\d+\b', '0', re.sub(r'\s+', ' ', body)))
    b = re.sub(r'\b(zone|unrestricted|linear)(_len)?\b', r'zone\2', b)
    if b.count(';') > 1:
        bodies[b].append((f, n, name))
for b, ps in bodies.items():
    if len(ps) > 1:
        for f, n, name in ps:
            place('2', 'function whose body is another one\'s but for a field, a type or a number', f, n, name)

# 3. Loops that count by hand.
for f, s in SRC:
    for m in re.finditer(r'^( *)while ([^\n{]*) \{\n(.*?)^\1\}', s, re.M | re.S):
        if re.search(r'\b(\w+) [+-]= 1;', m.group(3)):
            counted = re.findall(r'\b(\w+) [+-]= 1;', m.group(3))
            cond = m.group(2)
            if any(re.search(r'\b%s\b' % c, cond) for c in counted):
                place('3', 'while that counts', f, line(s, m.start()), 'while ' + cond)
            else:
                place('3', 'while that walks', f, line(s, m.start()), 'while ' + cond)
        else:
            place('3', 'while that walks', f, line(s, m.start()), 'while ' + m.group(2))
    for m in re.finditer(r'^ *for (\w+) in 0\.\.(\w+)\.len\(\)', s, re.M):
        place('3', 'for over the places of a slice', f, line(s, m.start()), m.group(0).strip())

# 4. Equality, order, copying, conversion and printing by hand.
for f, n, name, params, result, clauses, body in FNS:
    if re.fullmatch(r'(wide|wide_word|narrow|low|two|two_at|larger|lower|higher|lesser|less|same|copy|clear|number|number_of|copied|changed|starts)', name):
        place('4', 'conversion, comparison or copy by hand', f, n, name)
    if len(re.findall(r'put\(rt, b"', body)) > 2 and 'match' in body:
        place('4', 'names printed by a match', f, n, name)

# 5. Facts in the contracts of three or more functions, parameters that travel together.
facts = collections.defaultdict(set)
for f, n, name, params, result, clauses, body in FNS:
    for m in re.finditer(r'requires \{(.*)\}', clauses):
        for atom in re.split(r'×', m.group(1)):
            a = re.sub(r'[()]', ' ', atom).split()
            a = [w for w in a if w]
            if a:
                head = a[0] if re.match(r'[A-Z]', a[0]) else ' '.join(w for w in a)
                facts[(crate(f), head)].add((f, n, name))
for (c, h), ps in sorted(facts.items()):
    if len(ps) >= 3:
        f, n, name = sorted(ps)[0]
        place('5', 'fact required by three or more functions of a crate', f, n, '%s: %s, by %d' % (c, h, len(ps)))
runs = collections.defaultdict(set)
for f, n, name, params, result, clauses, body in FNS:
    ps = [re.sub(r'\s+', ' ', p).strip() for p in params.split(',') if p.strip() and p.strip() not in ('self', '&self', '&mut self')]
    for k in range(len(ps) - 2):
        runs[(crate(f), ' , '.join(ps[k:k + 3]))].add((f, n, name))
for (c, h), ps in sorted(runs.items()):
    if len(ps) >= 3:
        f, n, name = sorted(ps)[0]
        place('5', 'three parameters that stand together in three or more functions', f, n, '%s: %s, in %d' % (c, h, len(ps)))

# 6. Buffers with a length beside them, searches by hand, arenas of indices.
for f, s in SRC:
    for m in re.finditer(r'(\w+): (&mut )?\[\w+; \d+\],\s*(\w*(?:len|n)): usize', s):
        place('6', 'array with a length beside it', f, line(s, m.start()), re.sub(r'\s+', ' ', m.group(0)))
    for m in re.finditer(r'while lo < hi', s):
        place('6', 'search by halving', f, line(s, m.start()), m.group(0))
    for m in re.finditer(r'mem\[|fail\[|held\[', s):
        pass
    k = len(re.findall(r'\b(?:mem|fail|held)\[[^\]]*\]', s))
    if k:
        place('6', 'words of the lent memory by number (lines of one file as one place)', f, 1, '%d uses' % k)

# 7. A flag or a case that says which step to run.
for f, n, name, params, result, clauses, body in FNS:
    for m in re.finditer(r'\b(is_\w+|strict|cache): bool|\b(how|style|pass|rule|call): (How|Style|Pass|Exponential|Call)\b', params):
        place('7', 'parameter that chooses a step', f, n, name + ': ' + m.group(0))

# 8. Answers.
for f, s in sources('proofs', '.antt'):
    if f.endswith('Answers.antt'):
        k = len(re.findall(r'^pub [^\n]*: goal\.', s, re.M))
        place('8', 'answers', f, 1, str(k))

for point, kinds in found.items():
    for kind, ps in kinds.items():
        total = sum(int(w) for _, _, w in ps) if point == '8' else len(ps)
        print('%s  %4d  %s' % (point, total, kind))
        if wanted == point:
            for f, n, what in ps:
                print('          %s:%d  %s' % (f, n, what))
