#!/usr/bin/env python3
"""Counts the places of docs/DESIGN-PASS.md.

    docs/design-pass.py [TOP] [--table] [--point N[.kind]] [--crate NAME] [--beside]

TOP is the repository's top (default: the folder above this file). Each place is a line
`point.kind file:line name`. --table gives the counts per point and crate instead; --beside adds the
comment that stands right above a place, where a reason to stay would be written.

It reads crates/*/src/**/*.rt as text: comments and strings are blanked, then enums, structs,
functions (parameters, reply, clauses, body) and loops are taken by brackets and regexes. It judges
nothing: what it lists has the shape that the point speaks of, no more.
"""
import argparse
import collections
import os
import re

INT = r'(?:u8|u16|u32|u64|i8|i16|i32|i64|usize|isize)'
KEYWORDS = set('''as break const continue else enum extern false fn for if impl in let loop match mod
mut pub ref return self Self static struct super trait true type unsafe use where while crate
ensures requires decreases'''.split())

# u8 and bool fields that are bytes of a record as the file has them: no flag beside a value.
FIELDS_OF_THE_FILE = {'NameEntry'}
# u8 parameters by those names that are no refusal's number: a kind of the file, a place in a list.
NO_REFUSAL = {'unknown_word', 'print_name', 'count_libraries'}
# Bytes that are only written or compared: no kind.
NO_KIND = {'put_number', 'put_bytes', 'BEFORE'}


# ---- reading the source

def blank(text, chars):
    return re.sub(r'[^\n]', chars, text)


def clean(text):
    """The text with comments and the insides of strings blanked; nothing moves."""
    rule = re.compile(r'//[^\n]*|b?"(?:\\.|[^"\\])*"|b?\'(?:\\.|[^\\\'\n])\'', re.S)

    def swap(m):
        t = m.group(0)
        if t.startswith('//'):
            return blank(t, ' ')
        if "'" in t[:2]:
            return re.sub(r"[^b']", '0', t).replace("'", '0').replace('b', '0', 1)
        return t[0:2].rstrip('"') + '"' + blank(t[2:-1] if t[0] == 'b' else t[1:-1], ' ') + '"' \
            if t[0] == 'b' else '"' + blank(t[1:-1], ' ') + '"'
    return rule.sub(swap, text)


PAIRS = {'{': '}', '(': ')', '[': ']'}


def close(text, i):
    """The place behind the bracket that closes the one at i."""
    opened, shut, depth = text[i], PAIRS[text[i]], 0
    while i < len(text):
        if text[i] == opened:
            depth += 1
        elif text[i] == shut:
            depth -= 1
            if depth == 0:
                return i + 1
        i += 1
    return len(text)


def close_angle(text, i):
    depth = 0
    while i < len(text):
        if text[i] == '<':
            depth += 1
        elif text[i] == '>' and text[i - 1] not in '-=':
            depth -= 1
            if depth == 0:
                return i + 1
        i += 1
    return len(text)


def split(text, mark=','):
    out, depth, last = [], 0, 0
    for i, c in enumerate(text):
        if c in '([{':
            depth += 1
        elif c in ')]}':
            depth -= 1
        elif c == '<' and re.search(r'\w$', text[:i]):
            depth += 1
        elif c == '>' and i and text[i - 1] not in '-=' and depth:
            depth -= 1
        elif c == mark and depth == 0:
            out.append(text[last:i])
            last = i + 1
    out.append(text[last:])
    return [re.sub(r'\s+', ' ', x).strip() for x in out if x.strip()]


class Thing:
    def __init__(self, **k):
        self.__dict__.update(k)


class File:
    def __init__(self, top, path):
        self.path = os.path.relpath(path, top)
        self.crate = self.path.split(os.sep)[1]
        self.raw = open(path, encoding='utf8').read()
        self.text = clean(self.raw)
        self.lines = self.raw.split('\n')
        self.functions = list(self.read_functions())
        self.enums = list(self.read_enums())
        self.structs = list(self.read_structs())
        self.consts = list(self.read_consts())

    def line(self, at):
        return self.text.count('\n', 0, at) + 1

    def read_enums(self):
        for m in re.finditer(r'\benum\s+(\w+)\s*(<[^>{]*>)?\s*\{', self.text):
            end = close(self.text, m.end() - 1)
            variants = []
            for v in split(self.text[m.end():end - 1]):
                v = re.sub(r'#\[[^\]]*\]', '', v).strip()
                w = re.match(r'(\w+)\s*(\(.*\)|\{.*\})?', v)
                held = split(w.group(2)[1:-1]) if w.group(2) else []
                variants.append((w.group(1), held))
            yield Thing(file=self, line=self.line(m.start()), name=m.group(1), variants=variants)

    def read_structs(self):
        for m in re.finditer(r'\bstruct\s+(\w+)\s*(<[^>{(]*>)?\s*([{(])', self.text):
            end = close(self.text, m.end() - 1)
            fields = []
            for i, f in enumerate(split(self.text[m.end():end - 1])):
                f = re.sub(r'#\[[^\]]*\]|\bpub(\([a-z]+\))?\s', '', f).strip()
                name, _, kind = f.partition(':') if m.group(3) == '{' else (str(i), '', f)
                fields.append((name.strip(), kind.strip()))
            yield Thing(file=self, line=self.line(m.start()), name=m.group(1), fields=fields)

    def read_consts(self):
        for m in re.finditer(r'(?m)^( *)(?:pub(?:\([a-z]+\))? )?const\s+([A-Z]\w*)\s*:\s*(\[[^\]]*\]|[^=;]+?)\s*=\s*((?:\[[^\]]*\]|[^;\[])*);',
                             self.text):
            yield Thing(file=self, line=self.line(m.start()), name=m.group(2), type=m.group(3).strip(),
                        free=not m.group(1),
                        value=re.sub(r'\s+', ' ', self.raw[m.start(4):m.end(4)]))

    def read_functions(self):
        impls = []
        for m in re.finditer(r'\bimpl\b[^{;]*\{', self.text):
            name = re.sub(r'^impl\s*(<[^>]*>)?\s*', '', m.group(0)[:-1]).strip()
            impls.append((m.start(), close(self.text, m.end() - 1), name.split(' for ')[-1].strip()))
        for m in re.finditer(r'\bfn\s+(\w+)\s*', self.text):
            i = m.end()
            if i < len(self.text) and self.text[i] == '<':
                i = close_angle(self.text, i)
                i += len(self.text[i:]) - len(self.text[i:].lstrip())
            if i >= len(self.text) or self.text[i] != '(':
                continue
            j = close(self.text, i)
            params = []
            for p in split(self.text[i + 1:j - 1]):
                name, _, kind = p.partition(':')
                params.append((name.replace('mut ', '').strip(), kind.strip()))
            reply, clauses = '', []
            k = j
            while k < len(self.text):
                rest = self.text[k:]
                k += len(rest) - len(rest.lstrip())
                rest = self.text[k:]
                w = re.match(r'(requires|ensures|decreases)\b\s*([\w-]+)?\s*(?=\{)', rest)
                if rest.startswith('->'):
                    e, depth = k + 2, 0
                    while e < len(self.text) and (depth or not re.match(
                            r'[{;]|\b(?:requires|ensures|decreases|where)\b', self.text[e:e + 10])):
                        depth += {'[': 1, '(': 1, ']': -1, ')': -1}.get(self.text[e], 0)
                        e += 1
                    reply = re.sub(r'\s+', ' ', self.text[k + 2:e]).strip()
                    k = e
                elif w:
                    b = k + w.end()
                    e = close(self.text, b)
                    clauses.append((w.group(1), re.sub(r'\s+', ' ', self.raw[b + 1:e - 1]).strip()))
                    k = e
                elif rest.startswith('where'):
                    k += re.match(r'where[^{;]*', rest).end()
                else:
                    break
            body, begin = '', k
            if k < len(self.text) and self.text[k] == '{':
                body = self.text[k:close(self.text, k)]
            owner = next((n for a, b, n in impls if a < m.start() < b), '')
            start = self.text.rfind('\n', 0, m.start()) + 1
            yield Thing(file=self, line=self.line(m.start()), at=m.start(), name=m.group(1), owner=owner,
                        full=(owner + '::' if owner else '') + m.group(1), params=params, reply=reply,
                        clauses=clauses, body=body, begin=begin,
                        export='extern' in self.text[start:m.start()])


def arms(text):
    """The arms of a match, given what stands between its braces: pattern and expression."""
    out, i = [], 0
    while True:
        i += len(text[i:]) - len(text[i:].lstrip(' \n,'))
        begin, depth = i, 0
        while i < len(text) and not (text.startswith('=>', i) and depth == 0):
            depth += {'{': 1, '(': 1, '[': 1, '}': -1, ')': -1, ']': -1}.get(text[i], 0)
            i += 1
        if i >= len(text):
            return out
        pattern = text[begin:i].strip()
        i += 2
        i += len(text[i:]) - len(text[i:].lstrip())
        start, depth = i, 0
        if i < len(text) and text[i] == '{':
            i = close(text, i)
        else:
            while i < len(text) and not (text[i] == ',' and depth == 0):
                depth += {'{': 1, '(': 1, '[': 1, '}': -1, ')': -1, ']': -1}.get(text[i], 0)
                i += 1
        out.append((pattern, text[start:i].strip()))


NUMBER = re.compile(r'\d\w*(?:\s*\|\s*\d\w*)*$')


def matches(file):
    """Each match: its place, what it looks at, its arms."""
    for m in re.finditer(r'\bmatch\s+([^{}]+?)\s*\{', file.text):
        yield m.start(), re.sub(r'\s+', ' ', m.group(1)), arms(file.text[m.end():close(file.text, m.end() - 1) - 1])


TOKEN = re.compile(r'[A-Za-z_]\w*|0x[\da-fA-F_]+|\d[\w_.]*|::|->|=>|<=|>=|==|!=|&&|\|\||\+=|-=|\*=|/=|"[^"]*"|\S')


def tokens(text):
    text = re.sub(r'&(mut )?\*(?=[a-z])', '', text)
    out = TOKEN.findall(text)
    i, kept = 0, []
    while i < len(out):
        if i + 1 < len(out) and out[i + 1] == '::' and re.match(r'[a-z]', out[i]) and out[i] not in KEYWORDS - {'crate'}:
            i += 2
            continue
        kept.append(out[i])
        i += 1
    return kept


def constant(t):
    return bool(re.fullmatch(r'[A-Z][A-Z0-9_]*', t)) and len(t) > 1


def shape(f):
    """The function's tokens, names and types numbered as they come, each number a number."""
    seq = []
    for p, k in f.params:
        seq += tokens(p + ':' + k) + [',']
    seq += tokens(f.reply) + tokens(f.body)
    seen, out = {}, []
    for t in seq:
        if re.match(r'\d', t) or constant(t) or t.startswith('"'):
            out.append('N')
        elif re.match(r'[A-Za-z_]', t) and t not in KEYWORDS - {'self', 'Self'}:
            out.append('i%d' % seen.setdefault(t, len(seen)))
        else:
            out.append(t)
    return tuple(out)


def classes(f):
    """The body's tokens, types and numbers of no account, the rest by name: for what is nearly the same."""
    out = []
    for t in tokens(f.body):
        if re.match(r'\d', t) or constant(t) or t.startswith('"'):
            out.append('N')
        elif re.fullmatch(INT + '|f32|f64|bool', t) or re.match(r'[A-Z]\w*[a-z]', t):
            out.append('T')
        elif re.match(r'[A-Za-z_]', t) and t not in KEYWORDS:
            out.append(plain_name(t))
        else:
            out.append(t)
    return out


WORDS = set('''u8 u16 u32 u64 i8 i16 i32 i64 f32 f64 usize bool r4 r8 func funcs function functions var vars
variable variables param params parameter parameters guid guids import imports imp file files name
names typeinfo typeinfos impl types array pair string small medium kind memid'''.split())


def plain_name(name):
    return '_'.join('*' if w in WORDS or w.isdigit() else re.sub(r'\d+$', '*', w) for w in name.split('_'))


def grams(seq, n=3):
    return collections.Counter(tuple(seq[i:i + n]) for i in range(len(seq) - n + 1))


def alike(a, b):
    both = sum((a & b).values())
    whole = sum((a | b).values())
    return both / whole if whole else 0.0


# ---- the points

class Places:
    def __init__(self):
        self.all = []

    def add(self, point, thing, name, line=None):
        self.all.append((point, thing.file, line or thing.line, name))

    def at(self, point, file, at, name):
        self.all.append((point, file, file.line(at), name))


def inside(file, at):
    best = None
    for f in file.functions:
        if f.begin <= at < f.begin + len(f.body):
            best = f
    return best


def of_function(file, at):
    f = inside(file, at)
    return f.full if f else '-'


REFUSED = re.compile(r'Refused|Failed|Fails|Error|Err$|Malformed')


def point_1(files, out):
    for file in files:
        for e in file.enums:
            empty = [v for v in e.variants if not v[1]]
            full = [v for v in e.variants if v[1]]
            refused = [v for v in full if REFUSED.search(v[0]) and re.fullmatch(r'u8|\w*(Refusal|Error)', v[1][0])]
            if len(e.variants) == 2 and refused and len(full) == 2 and len(refused[0][1]) > 1:
                out.add('1.step', e, e.name)
            elif len(e.variants) == 2 and refused:
                out.add('1.result', e, e.name)
            elif len(e.variants) == 2 and len(empty) == 1:
                out.add('1.option', e, e.name)
            elif len(e.variants) == 3 and len(empty) == 1:
                out.add('1.three', e, e.name)
            elif refused:
                out.add('1.folded', e, e.name + ' (a refusal among ' + str(len(e.variants)) + ')')
            else:
                names = {v[0] for v in e.variants}
                odd = sorted(n for n in names if 'Null' + n in names or n + 'Nan' in names)
                if odd:
                    out.add('1.folded', e, e.name + ' (' + ', '.join(odd) + ' in two)')
        for s in file.structs:
            beside = [n for n, t in s.fields if t in ('u8', 'bool')]
            if beside and len(s.fields) > 1 and s.name not in FIELDS_OF_THE_FILE:
                out.add('1.beside', s, s.name + ' (' + ', '.join(beside) + ')')
        for f in file.functions:
            if f.export:
                continue
            named = [n for n, t in f.params if t == 'u8' and n in ('number', 'n', 'first', 'refusal', 'refused')]
            kinds = any(t == 'u8' and n == 'end' for n, t in f.params)
            if named and not kinds and f.name not in NO_REFUSAL:
                out.add('1.number', f, f.full + ' (' + ', '.join(named) + ')')
            elif f.reply == 'u8' and re.search('refus', f.name):
                out.add('1.number', f, f.full + ' (reply)')
            kinds = [n for n, t in f.params if re.fullmatch(INT, t)
                     and n in ('kind', 'reading', 'mark', 'code', 'vt', 'raw', 'varkind', 'segment')]
            if not kinds:
                kinds = [n for n, t in f.params if t == 'u8' and (n in ('first', 'end') and
                         any(m == 'end' and k == 'u8' for m, k in f.params) or f.name in ('print_name', 'count_libraries'))]
            if f.name in ('segment', 'table', 'table_place', 'segment_data'):
                kinds = [n for n, t in f.params if n in ('index', 'segment') and t == 'usize']
            if kinds and f.name not in NO_KIND:
                out.add('1.kind', f, f.full + ' (' + ', '.join(kinds) + ')')
        for c in file.consts:
            if c.type == 'u8' and c.name not in NO_KIND or re.search(r'TABLE$|^IMPORT_FILES$|^CONSTANTS$', c.name) and c.type in ('usize', 'u32'):
                out.add('1.kind', c, 'const ' + c.name)
        patterns = [
            ('1.literal', r'\bRefused\(\d+\b(?=[,)])|\brefusal\(\d+\)|\bminus\(\d+\)|\bput_refusal\([^,()]+(?:\.\w+)?, \d+\)|\bErr\(\d+\)'),
            ('1.handed', r'(?:\w+::)*\b(?:Refused|Err)\((\w+)(?:, (?:_|same|next))?\) => (?:\{\s*)?(?:return )?(?:\w+::)*(?:Refused|Err)\(\1\b'
                         r'|(?:\w+::)*\b(?:Nothing|Malformed|None) => (?:return )?(?:\w+::)*(?:Nothing|Malformed|None)\b'),
            ('1.packed', r'\bNO_TEXT \+|- NO_TEXT|< NO_TEXT|\bPAST \+ 1 \+|PAST - 1\)|[%/+] REFERENCE\b|return TOO_DEEP|\bif end != 0|'
                         r'near: 0\b|names: s\.len\(\)|return s\.len\(\)|=> s\.len\(\)|number(?:\(\))? != 0|reading == 0\b'),
            ('1.kind', r'\btables::(?:table|segment)\([^(),]*(?:\([^()]*\))?[^(),]*, \d+\)|segment_data\(s, \d+\)'),
        ]
        for kind, rule in patterns:
            for m in re.finditer(rule, file.text):
                out.at(kind, file, m.start(), of_function(file, m.start()) + ' `' + re.sub(r'\s+', ' ', m.group(0)) + '`')
        for at, what, own in matches(file):
            n = sum(1 for a, _ in own if NUMBER.match(a))
            if n >= 2:
                out.at('1.match', file, at, of_function(file, at) + ' `match ' + what + '`, ' + str(n) + ' numbers')


def point_2(files, out):
    groups = {}
    things = []
    for file in files:
        for f in file.functions:
            if f.export:
                out.add('2.export', f, f.full)
            elif f.body and len(tokens(f.body)) >= 8:
                f.accessor = bool(re.fullmatch(r'\{\s*(?:(?:\w+::)*field_\w+\([^{}]*\)|self\.\w+\(s, \d+\))\s*\}', f.body))
                things.append(f)
    parent = list(range(len(things)))

    def root(i):
        while parent[i] != i:
            parent[i] = parent[parent[i]]
            i = parent[i]
        return i

    by_shape, by_name = {}, collections.defaultdict(list)
    counts = [grams(classes(f)) for f in things]
    for i, f in enumerate(things):
        key = ('accessor', re.search(r'field_\w+|self\.\w+', f.body).group(0)) if f.accessor else shape(f)
        if key in by_shape:
            parent[root(i)] = root(by_shape[key])
        else:
            by_shape[key] = i
        if not f.accessor:
            by_name[plain_name(f.name)].append(i)
    for same in by_name.values():
        for a in same:
            for b in same:
                name = plain_name(things[a].name)
                least = 0.45 if things[a].file is not things[b].file else \
                    0 if re.match(r'\*_[a-z]', name) and '_*' not in name else 0.3
                if a < b and things[a].file.crate == things[b].file.crate and alike(counts[a], counts[b]) >= least:
                    parent[root(b)] = root(a)
    for a in range(len(things)):
        if things[a].accessor or sum(counts[a].values()) < 30:
            continue
        for b in range(a + 1, len(things)):
            x, y = sum(counts[a].values()), sum(counts[b].values())
            if things[b].accessor or y < 30 or min(x, y) / max(x, y) < 0.75:
                continue
            if root(a) != root(b) and alike(counts[a], counts[b]) >= 0.7:
                parent[root(b)] = root(a)
    for i in range(len(things)):
        groups.setdefault(root(i), []).append(things[i])
    number = 0
    for g in groups.values():
        if len(g) < 2:
            continue
        number += 1
        kind = '2.accessor' if g[0].accessor else '2.function'
        for f in g:
            out.add(kind, f, f.full + ' [group %d: %s, %d]' % (number, g[0].name, len(g)))
    types = collections.defaultdict(list)
    for file in files:
        for s in file.structs:
            if len(s.fields) > 1:
                names = tuple(n for n, t in s.fields)
                types[('struct', names)].append(s)
        for e in file.enums:
            types[('enum', tuple((v[0], len(v[1])) for v in e.variants))].append(e)
    for g in types.values():
        if len(g) < 2:
            continue
        number += 1
        for s in g:
            out.add('2.type', s, s.name + ' [group %d: %s, %d]' % (number, g[0].name, len(g)))
    consts = collections.defaultdict(list)
    for file in files:
        for c in file.consts:
            if not c.free:
                continue
            consts[(c.name, c.value if not c.value.startswith('*') else '')].append(c)
    for (name, value), g in consts.items():
        if len(g) > 1:
            for c in g:
                out.add('2.const', c, name + ' = ' + value)


def loops(file):
    for m in re.finditer(r'\b(while|loop|for)\b', file.text):
        if m.group(1) == 'for' and not re.match(r'for\s+[^{;]*\bin\b', file.text[m.start():]):
            continue
        f = inside(file, m.start())
        if not f:
            continue
        i, depth = m.end(), 0
        while file.text[i] != '{' or depth:
            depth += {'(': 1, '[': 1, ')': -1, ']': -1}.get(file.text[i], 0)
            i += 1
        yield m, f, file.text[m.end():i].strip(), file.text[i:close(file.text, i)]


def point_3(files, out):
    for file in files:
        for m, f, head, body in loops(file):
            steps = re.findall(r'(?<![\w.])(\w+) (?:\+=|-=) (\w+)|(?<![\w.])(\w+) = \3 [+-] (\w+)', body)
            stepped = {a or c: b or d for a, b, c, d in steps}
            by = sorted(v for v, k in stepped.items() if re.match(r'\d', k))
            name = f.full + ' `' + m.group(1) + (' ' + head if head else '') + '`'
            if m.group(1) == 'for':
                out.at('3.for', file, m.start(), name)
            elif by:
                out.at('3.by-hand', file, m.start(), name + ' counts ' + ', '.join(by))
            elif stepped:
                out.at('3.moved', file, m.start(), name + ' moves ' + ', '.join(sorted(stepped)))
            else:
                out.at('3.other', file, m.start(), name)
        for f in file.functions:
            n = len(re.findall(r'(?m)^\s*\w+\[(?:\w+ \+ )?\d+\] = ', f.body))
            if n >= 4 and not f.export:
                out.add('3.unrolled', f, f.full + ', %d lines' % n)
            if re.search(r'\b' + f.name + r'\([^;{}]*\b\w+ - \d\b', f.body) and not f.owner:
                out.add('3.recursion', f, f.full)


def point_4(files, out):
    rules = [
        ('4.complement', r'!\(\(|0x[f_]+ - \(!|0xffff_ffff - number'),
        ('4.bool', r'if [\w.]+ \{ 1 \} else \{ 0 \}|if [\w.]+ \{\s*1\s*\} else \{\s*0\s*\}'),
        ('4.bit', r'/ 0x\d+ % 2 == 1|bits\([^;{}]*?, 1\) == 1'),
        ('4.bytes', r'\b(?:256|65536|4294967296) \*|% 256\) as u8|(?:/=|/) 256\b|% 0x1(?:_0000|00|_0000_0000)\b'),
        ('4.copy', r'\bat: (\w+)\.at,\s*len: \1\.len,?'),
        ('4.equal', r'\b\w+\.(\w+) == \w+\.\1 &&|\w+\[i\] != [\w\[\]() %]+|\bx == y && 1\.0|if x == x\b'),
        ('4.get', r'if (\w+) < \d+ \{\s*(?:return )?[A-Z]+\[\1\b|if code < 65 \{'),
        ('4.try', r'if (\w+) < 0x8000\w* \{\s*(?:\w+::)*\w*\(?\1(?: as i64)?\)?\s*\} else \{\s*(?:\w+::)*\w*\(?0\b|if 0xff(?:ff)? < \w+ \{\s*return'),
        ('4.range', r'if (?:s|bytes|recorded|\w+)(?:\.len\(\))? <=? (\w+(?:\.\w+)?) \{\s*return[^}]*\}\s*(?:let[^;]*;\s*)?if [\w.()]+ - \1(?: - \w+)? < |'
                    r'if at <= len \{\s*if [\w +]+ <= len - at'),
    ]
    for file in files:
        for kind, rule in rules:
            for m in re.finditer(rule, file.text):
                out.at(kind, file, m.start(), of_function(file, m.start()) + ' `' + re.sub(r'\s+', ' ', m.group(0))[:60] + '`')
        for m in re.finditer(r'if ([\w.:()]+) (<=?|>=?|==) ([\w.:()]+) \{\s*(?:return )?([\w.:()]+)(?: - [\w.:()]+)?;?\s*\}(?: else \{)?\s*([\w.:()]+)(?: [-+] [\w.:()]+)?\s*\}', file.text):
            if m.group(0).count('(') != m.group(0).count(')'):
                continue
            a, b, c, d = m.group(1), m.group(3), m.group(4), m.group(5)
            sides = {a.split('::')[-1], b.split('::')[-1]}
            if c.split('::')[-1] in sides | {'0'} and d.split('::')[-1] in sides:
                out.at('4.minmax', file, m.start(), of_function(file, m.start()) + ' `' + re.sub(r'\s+', ' ', m.group(0))[:60] + '`')
        for m in re.finditer(r'if (\w+) < (\w+) \{\s*(?:\w+::\w+\()?0\)?\s*\} else \{\s*(?:\w+::\w+)?\(+\1 - \2', file.text):
            out.at('4.minmax', file, m.start(), of_function(file, m.start()) + ' `' + re.sub(r'\s+', ' ', m.group(0))[:60] + '`')
        for f in file.functions:
            if f.export:
                continue
            if f.name in ('from_raw',) or re.match(r'from_(?!bits)', f.name):
                out.add('4.from', f, f.full)
            whole = re.fullmatch(r'\{\s*match [^{}]+ \{(.*)\}\s*\}', f.body, re.S)
            if whole:
                own = arms(whole.group(1))
                plain = [e for p, e in own if re.match(
                    r'(?:\{\s*)?(?:(?:\w+::)*[A-Z]\w*::[A-Z]\w*\b|-?\d|\*?b?"|[a-z]\w*(?: as \w+)?(?:\s*\}|$)|(?:numbers?|minus)\(|\w+(?:\.0)? as \w+|(?:\w+::)*\w+\(\w+\)(?: as \w+)?$)', e)]
                named = [p for p, _ in own if re.match(r'(?:\w+::)*[A-Z]\w*::[A-Z]|Some|None|Ok|Err', p)]
                if len(own) >= 2 and len(plain) == len(own) and len(named) >= 2:
                    out.add('4.match', f, f.full + ' (%d arms)' % len(own))
            copied = re.findall(r'\b(\w+): (\w+)\.\1,', f.body)
            for whose, n in collections.Counter(w for _, w in copied).items():
                if n >= 2 and not re.search(r'\bat: %s\.at,\s*len: %s\.len' % (whose, whose), f.body) and whose != 'self':
                    out.add('4.copy', f, f.full + ' (%d fields of %s)' % (n, whose))
            if re.search(r'digit\(|DIGITS\[', f.body):
                out.add('4.print', f, f.full + ' (digits)')
            elif re.search(r'print_name\(|put_word\(|unknown_word\(|rt\.write_all\(|word_length\(', f.body):
                out.add('4.print', f, f.full + ' (names, bytes)')


def point_5(files, out):
    sets = []
    for file in files:
        for f in file.functions:
            if not f.export:
                sets.append((frozenset(p for p in f.params if p[1]), f))
    found = set()
    whole = {s for s, _ in sets}
    for a in whole:
        for b in whole:
            if len(a & b) > 1:
                found.add(a & b)
    counted = {c: [f for s, f in sets if c <= s] for c in found}
    kept = {c: g for c, g in counted.items() if len(g) > 2}
    for c, g in sorted(kept.items(), key=lambda x: (-len(x[1]), -len(x[0]), sorted(x[0]))):
        f = g[0]
        order = [n for n, t in f.params if (n, t) in c]
        out.add('5.tuple', f, '(%s) in %d functions' % (', '.join(order), len(g)))
    facts = collections.defaultdict(list)
    for file in files:
        for f in file.functions:
            seen = set()
            for kind, clause in f.clauses:
                parts = [x.strip() for x in re.split(r' × ', clause)] if kind == 'requires' else [clause]
                for p in parts:
                    p = p[1:-1] if p.startswith('(') and p.endswith(')') and kind == 'requires' else p
                    if (kind, p) not in seen:
                        seen.add((kind, p))
                        facts[(kind, p)].append(f)
    for (kind, p), g in sorted(facts.items(), key=lambda x: -len(x[1])):
        if len(g) > 2 and not all(f.export for f in g):
            out.add('5.' + kind, g[0], '{ %s } in %d functions' % (p, len(g)))
    alikes = collections.defaultdict(set)
    for (kind, p), g in facts.items():
        if kind == 'requires':
            alikes[re.sub(r'\b\d+\b', 'N', p)].update(f for f in g if not f.export)
    for p, g in sorted(alikes.items()):
        g = sorted(g, key=lambda f: (f.file.path, f.line))
        if len(g) > 2 and ' N' in p and not any(
                k == 'requires' and re.sub(r'\b\d+\b', 'N', q) == p and len(h) == len(g) for (k, q), h in facts.items()):
            out.add('5.alike', g[0], '{ %s } in %d functions' % (p, len(g)))
    views = collections.defaultdict(list)
    for file in files:
        for f in file.functions:
            whole = ' '.join(c for _, c in f.clauses)
            for v in set(re.findall(r'\(library lib\.now\)|s\.now self\.at self\.len|\btold_\w+ result|\(told_\w+ \w+\)|\bto out\.old result out\.new', whole)):
                views[v].append(f)
    for v, g in sorted(views.items(), key=lambda x: -len(x[1])):
        if len(g) > 2:
            out.add('5.view', g[0], '`%s` in %d functions' % (v, len(g)))
    guards = collections.defaultdict(list)
    for file in files:
        for f in file.functions:
            for c in set(re.findall(r'\bif ([^{}]+?) \{\s*return\b', f.body)):
                guards[re.sub(r'\s+', ' ', c)].append(f)
    for c, g in sorted(guards.items(), key=lambda x: -len(x[1])):
        if len(g) > 2:
            out.add('5.guard', g[0], '`if %s` in %d functions' % (c, len(g)))


def point_6(files, out):
    for file in files:
        for s in file.structs:
            names = [n for n, _ in s.fields]
            if names[:2] == ['at', 'len']:
                out.add('6.place', s, 'struct ' + s.name)
            for n, t in s.fields:
                if t.startswith('[') and any(k == 'usize' for _, k in s.fields):
                    out.add('6.beside', s, 'struct %s (%s)' % (s.name, n))
        for e in file.enums:
            held = [tuple(v[1]) for v in e.variants]
            if len(held) > 2 and held[0] and all(h == (held[0][0],) * (i + 1) for i, h in enumerate(held)):
                out.add('6.list', e, 'enum ' + e.name)
        for f in file.functions:
            if f.export:
                continue
            buffers = [n for n, t in f.params if re.match(r'&(mut )?\[', t)]
            names = [n for n, t in f.params if t == 'usize']
            if buffers and 'at' in names and 'len' in names:
                out.add('6.at-len', f, f.full)
            else:
                beside = [n for n in names if n in ('size', 'len', 'room')]
                asked = [n for n in [n for n, _ in f.params] if n in ('at', 'pos', 'offset', 'from')]
                if asked and 'count' in names:
                    beside.append('count')
                if buffers and beside:
                    out.add('6.wanted' if asked else '6.beside', f, '%s (%s; %s)' % (f.full, ', '.join(buffers), ', '.join(beside)))
            if 'out' in buffers and 'to' in names:
                out.add('6.out-to', f, f.full)
            if re.search(r"== 0000?\b|12 \* code|\bname == number\b|\.hreftype\) == own", f.body):
                out.add('6.searched', f, f.full)
        for c in file.consts:
            if c.type.startswith('['):
                out.add('6.table', c, 'const ' + c.name + ': ' + c.type)
        for m in re.finditer(r'\btype (\w+) = \[[^\]]*\]', file.text):
            out.at('6.list', file, m.start(), m.group(0))
        for m in re.finditer(r'(?:lib|numbers)\[(?:2 \* index(?: \+ 1)?|\d+)\]', file.text):
            out.at('6.list', file, m.start(), of_function(file, m.start()) + ' `' + m.group(0) + '`')


def point_7(files, out):
    for file in files:
        for at, what, own in matches(file):
            calls = [p for p, e in own if re.match(r'(?:\{\s*(?:let [^;]*;\s*)*)?(?:[a-z]\w*(?:::|\.))*(?!numbers?\(|minus\(|same\()[a-z]\w*\(', e)]
            numbers = [p for p in calls if NUMBER.match(p)]
            variants = [p for p in calls if re.match(r'(?:\w+::)*[A-Z]\w*::[A-Z]', p)]
            if len(numbers) >= 3:
                out.at('7.match', file, at, of_function(file, at) + ' `match ' + what + '`, %d steps' % len(numbers))
            elif len(variants) >= 3:
                out.at('7.variant', file, at, of_function(file, at) + ' `match ' + what + '`, %d steps' % len(variants))
        for f in file.functions:
            chain = re.findall(r'if ([a-z]\w*(?:\.\w+(?:\(\))?)?) (?:<=?|==) [\w:]+ \{\s*(?:return )?(?:[a-z]\w*::)*[a-z]\w*\(', f.body)
            for what, n in collections.Counter(chain).items():
                if n >= 2 and not f.export:
                    out.add('7.chain', f, f.full + ' (%s, %d steps)' % (what, n))
            flags = [n for n, t in f.params if t == 'bool']
            used = [n for n in flags if re.search(r'\bif !?%s\b' % n, f.body)]
            if used and not re.search(r'\{ 1 \} else \{ 0 \}', f.body):
                out.add('7.flag', f, f.full + ' (%s)' % ', '.join(used))
            if re.search(r'\bf\(|impl Fn|&dyn', f.body + ' '.join(t for _, t in f.params)):
                out.add('7.closure', f, f.full)


def point_8(top, crate):
    """Answer files, answers, helpers in them; invariant files, invariants; lemma files, lemmas."""
    n = collections.Counter()
    base = os.path.join(top, 'crates', crate)
    for folder, _, names in os.walk(base):
        for name in names:
            if not name.endswith('.antt'):
                continue
            text = open(os.path.join(folder, name), encoding='utf8').read()
            at = os.path.relpath(folder, base).split(os.sep)[0]
            stated = re.findall(r'(?m)^(?:abbrev )?(?:pub )?([^\s:]+) : (\S+)', text)
            if name == 'Answers.antt' and at == 'proofs':
                n['answer files'] += 1
                n['answers'] += sum(1 for _, t in stated if t.startswith('goal.'))
                n['helpers'] += sum(1 for _, t in stated if not t.startswith('goal.'))
                n['lines'] += len(text.strip().split('\n'))
            elif name == 'Invariants.antt' and at == 'proofs':
                n['invariant files'] += 1
                n['invariants'] += sum(1 for _, t in stated if t.startswith('goal.'))
                n['lines'] += len(text.strip().split('\n'))
            elif at == 'proofs' or at == 'specs' and re.search(r'Laws?\d*\.antt$', name):
                n['lemma files'] += 1
                said = re.findall(r'(?m)^( *)(?:abbrev )?(?:pub )?([^\s:=(){}]+) : ', text)
                n['lemmas'] += sum(1 for dent, who in said if re.search(r'(?m)^%s%s(?: [^\n]*)?(?:=|$)' % (dent, re.escape(who)), text))
                n['lines'] += len(text.strip().split('\n'))
    return n


EIGHT = ['answer files', 'answers', 'helpers', 'invariant files', 'invariants', 'lemma files', 'lemmas', 'lines']


def all_places(top):
    paths = []
    for folder, _, names in os.walk(os.path.join(top, 'crates')):
        if 'src' in os.path.relpath(folder, top).split(os.sep)[2:]:
            paths += [os.path.join(folder, n) for n in names if n.endswith('.rt')]
    files = [File(top, p) for p in sorted(paths)]
    out = Places()
    for point in (point_1, point_2, point_3, point_4, point_5, point_6, point_7):
        point(files, out)
    return files, sorted(set(out.all), key=lambda p: (p[0], p[1].path, p[2], p[3]))


# Listed, but not counted: the C interface, and what is written so already.
SHOWN_ONLY = {'2.export', '3.for', '7.closure'}


def table(top, places):
    crates = sorted(d for d in os.listdir(os.path.join(top, 'crates')) if os.path.isdir(os.path.join(top, 'crates', d)))
    kinds = sorted({p[0] for p in places})
    counts = collections.Counter((p[0], p[1].crate) for p in places)
    groups = collections.defaultdict(set)
    for kind, _, _, name in places:
        m = re.search(r'\[group (\d+)', name)
        if m:
            groups[kind].add(m.group(1))
    proofs = {c: point_8(top, c) for c in crates}
    print('\n| crate | ' + ' | '.join('1234567') + ' | 8 |')
    print('| --- |' + ' ---: |' * 8)
    whole = [0] * 8
    for c in crates:
        row = [sum(counts[(k, c)] for k in kinds if k[0] == p and k not in SHOWN_ONLY) for p in '1234567']
        row.append(proofs[c]['answers'])
        whole = [a + b for a, b in zip(whole, row)]
        print('| ' + c + ' | ' + ' | '.join(str(x) for x in row) + ' |')
    print('| **all** | ' + ' | '.join(str(x) for x in whole) + ' |')
    print('\nGroups of twins: ' + ', '.join('%d of %s' % (len(g), k) for k, g in sorted(groups.items())) + '.')
    for point in '1234567':
        own = [k for k in kinds if k.startswith(point)]
        print('\n| crate | ' + ' | '.join(own) + ' | all |')
        print('| --- |' + ' ---: |' * (len(own) + 1))
        for c in crates:
            row = [counts[(k, c)] for k in own]
            counted = sum(n for k, n in zip(own, row) if k not in SHOWN_ONLY)
            if sum(row):
                print('| ' + c + ' | ' + ' | '.join(str(x) for x in row) + ' | ' + str(counted) + ' |')
        row = [sum(counts[(k, c)] for c in crates) for k in own]
        counted = sum(n for k, n in zip(own, row) if k not in SHOWN_ONLY)
        print('| **all** | ' + ' | '.join(str(x) for x in row) + ' | ' + str(counted) + ' |')
    print('\n| crate | 8 ' + ' | 8 '.join(EIGHT) + ' |')
    print('| --- |' + ' ---: |' * len(EIGHT))
    whole = collections.Counter()
    for c in crates:
        n = proofs[c]
        whole.update(n)
        print('| ' + c + ' | ' + ' | '.join(str(n[k]) for k in EIGHT) + ' |')
    print('| **all** | ' + ' | '.join(str(whole[k]) for k in EIGHT) + ' |')


def main():
    here = os.path.dirname(os.path.dirname(os.path.abspath(__file__)))
    a = argparse.ArgumentParser(description=__doc__.split('\n')[0])
    a.add_argument('top', nargs='?', default=here)
    a.add_argument('--table', action='store_true')
    a.add_argument('--point', default='')
    a.add_argument('--crate', default='')
    a.add_argument('--beside', action='store_true')
    o = a.parse_args()
    files, places = all_places(o.top)
    if o.table:
        return table(o.top, places)
    for kind, file, line, name in places:
        if o.point and kind != o.point and kind.split('.')[0] != o.point or o.crate and file.crate != o.crate:
            continue
        print(kind, file.path + ':' + str(line), name)
        if o.beside:
            i = line - 2
            while i >= 0 and re.match(r'\s*(//|#\[)', file.lines[i]):
                if '//' in file.lines[i]:
                    print('    ' + file.lines[i].strip())
                i -= 1
    if not o.point or o.point == '8':
        for c in sorted(os.listdir(os.path.join(o.top, 'crates'))):
            n = point_8(o.top, c)
            if not o.crate or o.crate == c:
                print('8 crates/' + c + ': ' + ', '.join('%d %s' % (n[k], k) for k in EIGHT))


if __name__ == '__main__':
    main()
