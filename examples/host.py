#!/usr/bin/env python3
"""The exporter's host of host.c in Python, through the shared object; it needs a Python for x86-64.

    ./install DIR
    python3 examples/host.py DIR

It writes what host.c writes, but no words: those are zk_words in the header."""
import ctypes
import sys
from pathlib import Path

DIGITS, LINE, PACKED, LETTERS, NAMED_LINE = 64, 68, 16, 64, 142  # the sizes to lend, as the header has them
size, byte = ctypes.c_size_t, ctypes.c_char_p
number = ctypes.POINTER(size)

library = ctypes.CDLL(str(Path(sys.argv[1]).resolve() / "lib" / "libzurkhovel.so"))
for name, arguments in {
    "zk_read_line": [byte, size, byte, size],
    "zk_write_line": [size, byte, size, byte, size],
    "zk_same_skeleton": [size, byte, size, size, byte, size],
    "zk_pack": [size, byte, size, size, byte, size],
    "zk_read_line_edition": [size, byte, size, byte, size],
    "zk_named_read_line": [byte, size, byte, size, byte, size],
    "zk_named_write_line": [size, byte, size, byte, size, byte, size, number],
    "zk_named_same_skeleton": [size, byte, size, byte, size] * 2 + [number],
}.items():
    function = getattr(library, name)
    function.argtypes, function.restype = arguments, ctypes.c_uint32

BRANCHED, RENUMBERED = bytes([1, 2, 2, 3, 3, 4, 4, 5, 2, 6]), bytes([6, 5, 5, 4, 4, 3, 3, 2, 5, 1])
CHAIN, RING = bytes([1, 2, 2, 3, 3, 4, 4, 5, 5, 6]), bytes([1, 2, 2, 3, 3, 4, 4, 1, 5, 6])


def told(answer, given):
    """The refusal that an answer tells, or what is given where it tells none."""
    if answer < 256:
        return given(answer)
    number, place = answer // 256 % 256, answer % 256
    return f"refusal {number}" + (f" at {place}" if place else "") + (" of the second list" if answer >= 65536 else "")


def shown(digits, n):
    return f"{n} digits " + " ".join(map(str, digits.raw[:n]))


def same(answer):
    return told(answer, lambda same: "the same skeleton" if same else "not the same skeleton")


def read_line(line, edition=None):
    """In edition 1, or in one that is named."""
    out = ctypes.create_string_buffer(DIGITS)
    lent = line, len(line), out, DIGITS
    answer = library.zk_read_line(*lent) if edition is None else library.zk_read_line_edition(edition, *lent)
    where = "" if edition is None else f"in edition {edition} "
    print(f"read {where}{line.decode().rstrip()}:", told(answer, lambda n: shown(out, n)))


def write_line(name, n, edges):
    out = ctypes.create_string_buffer(LINE)
    answer = library.zk_write_line(n, edges, len(edges), out, LINE)
    print(f"write {name}:", told(answer, lambda n: out.raw[:n].decode().rstrip()))


def compare(name, one, other):
    print(f"compare {name}:", same(library.zk_same_skeleton(6, one, len(one), 6, other, len(other))))


def pack(name, root, room):
    out = ctypes.create_string_buffer(PACKED)
    answer = library.zk_pack(6, BRANCHED, len(BRANCHED), root, out, room)
    print(f"pack {name}:", told(answer, lambda n: out.raw[:n].hex()))


def read_named(line):
    out, letters = ctypes.create_string_buffer(DIGITS), ctypes.create_string_buffer(LETTERS)
    answer = library.zk_named_read_line(line, len(line), out, DIGITS, letters, LETTERS)
    print(f"read named {line.decode().rstrip()}:", told(answer, lambda n: f"{letters.raw[:n].decode()}, {shown(out, n)}"))


def write_named(name, edges, letters):
    out, n = ctypes.create_string_buffer(NAMED_LINE), len(letters)
    answer = library.zk_named_write_line(n, edges, 2 * (n - 1), letters, n, out, NAMED_LINE, size())
    print(f"write named {name}:", told(answer, lambda n: out.raw[:n].decode().rstrip()))


def compare_named(name, one, other):
    answer = library.zk_named_same_skeleton(4, CHAIN, 6, one, 4, 4, CHAIN, 6, other, 4, size())
    print(f"compare named {name}:", same(answer))


read_line(b"6 220010\n")
read_line(b"6 2200,10\n")
read_line(b"4 2010\n")
read_line(b"6 311000\n")
read_line(b"1 0")
write_line("2-methylpentane", 6, BRANCHED)
write_line("a ring", 6, RING)
write_line("with an edge too few", 6, BRANCHED[:-2])
compare("2-methylpentane renumbered", BRANCHED, RENUMBERED)
compare("2-methylpentane and hexane", BRANCHED, CHAIN)
compare("2-methylpentane and a ring", BRANCHED, RING)
pack("at vertex 2", 2, PACKED)
pack("at vertex 7", 7, PACKED)
pack("into one byte", 2, 1)
read_line(b"10 9000000000\n", 1)
read_line(b"10 9000000000\n", 2)
read_line(b"10 9000000000\n", 3)
read_named(b"2 10 OC 1 0 1\n")
read_named(b"2 10 CO 1 0 1\n")
read_named(b"2 10 OC 0 1 1\n")
read_named(b"4 3000 OCCC 3 0 1\n")
read_named(b"2 10\n")
write_named("methanol", CHAIN, b"CO")
write_named("with an O that has three neighbours", BRANCHED, b"COCCCC")
compare_named("propanol renumbered", b"CCCO", b"OCCC")
compare_named("propanol and methoxyethane", b"CCCO", b"COCC")
