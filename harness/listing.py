#!/usr/bin/env python3
"""Prints from a raw sheet what `tlb members` must list of its library, and writes to three files which of its names
`tlb check` must tell as not UTF-8, which references as hitting no typeinfo, and the figures that it must say:
listing.py SHEET NAMES REFERENCES FIGURES.

The tool reads the library's records; this reads the sheet, which is proved to be the library's
description, by document 01's layout. The tests hold the two against each other. The sheet has no
numbers: a function's or a variable's is its place in the sheet's list, from 0. The library's help
string is in no sheet, and `extends` is left out where the reference is nothing. Where a name stops being UTF-8
is what Python's decoder says; a line has numbers and no names, and no offsets into tables. Figures are counted as
the sheet is taken apart: each type, function, parameter and variable, each reference whatever its code, and its bytes."""
import math
import struct
import sys

KINDS = ['ENUM', 'RECORD', 'MODULE', 'INTERFACE', 'DISPATCH', 'COCLASS', 'ALIAS', 'UNION']
CODES = {0: 'void', 2: 'Integer', 3: 'Long', 4: 'Single', 5: 'Double', 6: 'Currency', 7: 'Date', 8: 'String',
         9: 'Object', 10: 'SCODE', 11: 'Boolean', 12: 'Variant', 13: 'IUnknown', 16: 'SignedByte', 17: 'Byte',
         18: 'UShort', 19: 'ULong', 20: 'LongLong', 21: 'ULongLong', 22: 'Int', 23: 'UInt', 24: 'void',
         25: 'HRESULT', 26: 'Ptr', 27: 'SafeArray', 28: 'CArray', 29: 'UserDefined'}
INVOKE = {1: 'func', 2: 'propget', 4: 'propput', 8: 'propputref'}
VARIABLE = {0: 'field', 1: 'static', 2: 'const', 3: 'property'}
PARAMETER = [(1, 'in'), (2, 'out'), (4, 'lcid'), (8, 'retval'), (16, 'optional')]
IMPLEMENTED = [(1, 'default'), (2, 'source'), (4, 'restricted'), (8, 'defaultvtable')]
HEADS = '    number  memid       offset  kind        member'
SIGNED = {2: 2, 3: 4, 16: 1, 20: 8, 22: 4}
UNSIGNED = {17: 1, 18: 2, 19: 4, 21: 8, 23: 4}


class Reader:
    def __init__(self, data):
        self.data, self.at = data, 0
        self.where, self.faults, self.misplaced = ['the library'], [], []
        self.counts = dict.fromkeys(['type', 'function', 'parameter', 'variable', 'interface', 'reference'], 0)

    def within(self, part, number, read):
        """What `read` reads is a part, by that number, of what is read now."""
        self.counts[part] += 1
        self.where.append('%s %d' % (part, number))
        found = read(self, number)
        self.where.pop()
        return found

    def place(self):
        return ', '.join(self.where[1:] or self.where)

    def text(self, what, text):
        words = fault(text)
        if words:
            self.faults.append('%s: %s: %s' % (self.place(), what, words))
        return text

    def take(self, count):
        part = self.data[self.at:self.at + count]
        assert len(part) == count, 'the sheet ends early'
        self.at += count
        return part

    def number(self, width):
        return int.from_bytes(self.take(width), 'little')

    def opt(self, read):
        code = self.number(1)
        assert code < 2
        return read() if code else None

    def name(self):
        return self.text('its name', self.take(self.number(1)))

    def guid(self):
        a, b, c, d = struct.unpack('<IHH8s', self.take(16))
        h = d.hex().upper()
        return '{%08X-%04X-%04X-%s-%s}' % (a, b, c, h[:4], h[4:])

    def reference(self, of):
        self.counts['reference'] += 1
        code = self.number(1)
        if code == 0:
            return None
        assert self.number(1) < 2
        if code == 1:
            return self.number(2)
        if code == 3:
            return self.no_typeinfo(of, self.number(4))
        assert code == 2
        if self.number(4) & 0x10000:
            what = self.opt(self.guid) or '(nothing)'
        else:
            what = '#%d' % struct.unpack('<i', self.take(4))
        file = self.opt(lambda: self.file(of))
        return ('(no file)' if file is None else file) + ':' + what

    def no_typeinfo(self, of, offset):
        assert offset % 4 == 0 and offset % 100 != 0 and offset & 0x81000000 == 0
        self.misplaced.append('%s: %s refers to %d, where no typeinfo is' % (self.place(), of, offset))
        return '(no typeinfo at %d)' % offset

    def file(self, of):
        self.opt(self.guid)
        self.take(8)
        return words(self.text('the file name in the import file of ' + of, self.take(self.number(2))))

    def tree(self, of):
        code = self.number(1)
        if code == 0:
            return lambda names: '(nothing)'
        if code == 1:
            base = self.number(2)
            return lambda names: CODES.get(base, 'Unknown(%d)' % base)
        if code == 4:
            bounds = ''.join(bound(*struct.unpack('<Ii', self.take(8))) for _ in range(self.number(2)))
            inner = self.tree(of)
            return lambda names: inner(names) + bounds
        if code == 5:
            to = self.reference(of)
            return lambda names: referred(to, names)
        inner = self.tree(of)
        return lambda names: ('SAFEARRAY(%s)' if code == 3 else '%s*') % inner(names)

    def constant(self):
        code = self.number(2)
        if code in (0, 1, 24):
            return {0: '(empty)', 1: '(null)', 24: '(void)'}[code]
        if code in SIGNED:
            return str(int.from_bytes(self.take(SIGNED[code]), 'little', signed=True))
        if code in UNSIGNED:
            return str(self.number(UNSIGNED[code]))
        if code == 8:
            text = self.opt(lambda: self.take(self.number(4)))
            return '(null string)' if text is None else '"%s"' % words(text)
        if code == 11:
            return 'true' if self.number(1) else 'false'
        if code == 14:
            return 'decimal(%s)' % self.take(16).hex()
        if code in (4, 5, 7):
            text = floating(self.take(4 if code == 4 else 8))
            return 'date(%s)' % text if code == 7 else text
        if code == 6:
            value = int.from_bytes(self.take(8), 'little', signed=True)
            return '%s%d.%04d' % ('-' if value < 0 else '', abs(value) // 10000, abs(value) % 10000)
        if code == 64:
            return '0x%016x' % self.number(8)
        form = '0x%08x' if code in (10, 25) else 'raw(' + str(code) + ', 0x%08x)'
        return form % self.number(4)


def fault(text):
    """At which byte a text stops being UTF-8, in words; '' where it does not."""
    try:
        text.decode('utf-8')
        return ''
    except UnicodeDecodeError as error:
        first, behind, reason = error.start, error.end, error.reason
    if reason == 'unexpected end of data':
        return 'its last character breaks off behind byte %d, 0x%02x' % (len(text) - 1, text[-1])
    if reason == 'invalid start byte':
        return 'byte %d, 0x%02x, begins no character' % (first, text[first])
    assert reason == 'invalid continuation byte'
    return 'byte %d, 0x%02x, cannot follow%s' % (behind, text[behind], ''.join(' 0x%02x' % b for b in text[first:behind]))


def words(text):
    return ''.join('\\x%02x' % b if b < 0x20 or 0x7e < b else '\\' + chr(b) if chr(b) in '\\"' else chr(b)
                   for b in text)


def bound(elements, lower):
    return '[%d]' % elements if lower == 0 else '[%d..%d]' % (lower, lower + elements - 1)


def floating(data):
    form = '<f' if len(data) == 4 else '<d'
    value = struct.unpack(form, data)[0]
    if math.isnan(value):
        return 'nan(0x%x)' % int.from_bytes(data, 'little')
    for digits in range(1, 18):
        text = '%.*g' % (digits, value)
        if struct.pack(form, float(text)) == data or float(text) == value:
            break
    return text


def named(name):
    return '(no name)' if name is None else words(name)


def referred(to, names):
    if to is None:
        return '(nothing)'
    if isinstance(to, str):
        return to
    return '[%d]' % to if names[to] is None else words(names[to])


def brackets(flags, table):
    found = [word for mask, word in table if flags & mask]
    rest = flags & ~sum(mask for mask, _ in table)
    found += ['0x%x' % rest] if rest else []
    return '[%s] ' % ', '.join(found) if found else ''


def row(number, memid, offset, kind, rest):
    return '    %6d  %-10s  %-6s  %-10s  %s' % (number, '-' if memid is None else '0x%08x' % memid,
                                                '-' if offset is None else '0x%04x' % offset, kind, rest)


def parameter(r, _):
    tree, name, flags, default = r.tree('its type'), r.opt(r.name), r.number(4), r.opt(r.constant)
    value = ' = ' + (default or '(nothing)') if flags & 0x20 else ''
    return lambda names: brackets(flags & ~0x20, PARAMETER) + tree(names) + ' ' + named(name) + value


def function(r, number):
    memid, name, tree = r.opt(lambda: r.number(4)), r.opt(r.name), r.tree('its result')
    r.number(4)
    offset, kind = r.number(2), INVOKE.get(r.number(4) >> 3 & 15, 'unknown')
    r.take(4)
    parameters = [r.within('parameter', i, parameter) for i in range(r.number(2))]
    return lambda names: row(number, memid, offset, kind, '%s %s(%s)' % (
        tree(names), named(name), ', '.join(p(names) for p in parameters)))


def variable(r, number):
    memid, name, tree = r.opt(lambda: r.number(4)), r.opt(r.name), r.tree('its type')
    r.number(4)
    kind = r.number(2)
    value = r.opt(r.constant) if kind == 2 else r.number(4)
    rest = ' = ' + (value or '(nothing)') if kind == 2 else ''
    return lambda names: row(number, memid, None if kind == 2 else value, VARIABLE.get(kind, 'unknown'),
                             tree(names) + ' ' + named(name) + rest)


def interface(r, _):
    return r.reference('its type'), r.number(4)


def base(r, kind):
    if kind == 5:
        found = [r.within('interface', i, interface) for i in range(r.number(4))]
        return lambda names: ['    implements ' + brackets(f, IMPLEMENTED) + referred(to, names) for to, f in found]
    if kind in (3, 4):
        to = r.reference('its base')
        return lambda names: [] if to is None else ['    extends ' + referred(to, names)]
    if kind == 6:
        tree = r.tree('what it stands for')
        return lambda names: ['    stands for ' + tree(names)]
    return lambda names: []


def members(r, what, declared, read):
    found = [r.within(what[:-1], number, read) for number in range(r.number(2))]
    short = ['    (declares %d %s, found %d)' % (declared, what, len(found))] if declared != len(found) else []
    return found, short


def type_body(r, index):
    kind, flags, version = r.number(1), r.number(4), r.number(4)
    guid, name = r.opt(r.guid), r.opt(r.name)
    functions, variables = r.number(2), r.number(2)
    rests = base(r, kind)
    functions, few = members(r, 'functions', functions, function)
    variables, fewer = members(r, 'variables', variables, variable)

    def lines(names):
        word = KINDS[kind] if kind < 8 else 'UNKNOWN(%d)' % kind
        out = ['', '[%d] %s %s%s' % (index, word, named(name), ' ' + guid if guid else ''),
               '    flags 0x%08x, %s' % (flags, versions(version))] + rests(names)
        out += [HEADS] if functions else []
        out += [f(names) for f in functions] + few
        out += [HEADS] if variables and not functions else []
        return out + [v(names) for v in variables] + fewer
    return name, lines


def counted(number, thing):
    return '{:,} {}{}'.format(number, thing, '' if number == 1 else 's')


def figures(r):
    things = ['type', 'function', 'parameter', 'variable', 'reference']
    return '%s; sheet of %s' % (', '.join(counted(r.counts[thing], thing) for thing in things), counted(len(r.data), 'byte'))


def versions(version):
    return 'version %d.%d' % (version & 0xffff, version >> 16)


def main():
    r = Reader(open(sys.argv[1], 'rb').read())
    count = r.number(4)
    lengths = [r.number(4) for _ in range(1 + count)]
    ends, at = [], r.at
    for length in lengths:
        at += length
        ends.append(at)
    lcid, version, guid, name = r.number(4), r.number(4), r.opt(r.guid), r.opt(r.name)
    assert r.at == ends[0]
    types = []
    for i in range(count):
        types.append(r.within('type', i, type_body))
        assert r.at == ends[i + 1]
    assert r.at == len(r.data)
    names = [name for name, _ in types]
    print('library ' + named(name) + (' ' + guid if guid else ''))
    print('    %s, lcid 0x%04x, %d types' % (versions(version), lcid, count))
    for _, lines in types:
        print('\n'.join(lines(names)))
    for path, told in zip(sys.argv[2:], (r.faults, r.misplaced, [figures(r)])):
        with open(path, 'w') as file:
            file.writelines(line + '\n' for line in told)


main()
