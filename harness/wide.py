#!/usr/bin/env python3
"""Writes a library whose types are all one, for the tests, to standard output:
wide.py TYPES FUNCTIONS PARAMETERS VARIABLES [TEXT..]

TYPES times the same typeinfo, an enum with so many functions, each with so many parameters, and so many variables, and
behind these one more for each TEXT: a constant, a text of that many bytes. The type of each parameter is a reference to
type 0, that of all else a Long. Nothing has a name, an identifier or a GUID."""
import struct
import sys

NONE, LONG = 0xffffffff, 0x80030003


def words(*numbers):
    return struct.pack('<%dI' % len(numbers), *numbers)


def main():
    types, functions, parameters, variables, *texts = map(int, sys.argv[1:])
    function = words(24 + 12 * parameters, LONG, 0, 0, 0, parameters) + parameters * words(0, NONE, 0)
    # A text's word is its offset in the table of constants; an offset in a record is 0.
    constants, kept = b'', b''
    for text in texts:
        kept += words(20, LONG, 0, 2, len(constants))
        constants += struct.pack('<HI', 8, text) + b'x' * text
        constants += b'\0' * (-len(constants) % 4)
    members = functions * function + variables * words(20, LONG, 0, 0, 0) + kept
    segments = 84 + 4 * types
    at_type = segments + 240
    at_descriptor = at_type + 100
    at_constants = at_descriptor + 8
    at_members = at_constants + len(constants)
    table = [(NONE, 0)] * 15
    table[0], table[9], table[11] = (at_type, 100), (at_descriptor, 8), (at_constants, len(constants))
    header = bytearray(b'MSFT' + bytes(80))
    struct.pack_into('<I', header, 8, NONE)
    struct.pack_into('<I', header, 32, types)
    struct.pack_into('<I', header, 56, NONE)
    typeinfo = bytearray(100)
    struct.pack_into('<I', typeinfo, 4, at_members)
    struct.pack_into('<HH', typeinfo, 24, functions, variables + len(texts))
    struct.pack_into('<I', typeinfo, 44, NONE)
    struct.pack_into('<I', typeinfo, 52, NONE)
    out = sys.stdout.buffer
    out.write(header + bytes(4 * types))
    out.write(b''.join(words(at, length, NONE, 15) for at, length in table))
    out.write(typeinfo + words(29, 0) + constants + words(len(members)) + members)


main()
