"""The cases of crates/pool_test: a damaged pool for every rule of 01 and 02 and what is next to it; the ranges of the letterlike classes.

`pool_cases.py` makes that crate's stdin (the pools) and stdout (what 01 says of each). Numbers, places and ranges are written here by hand from 01's sentences; the model
has to give the same numbers and places.

stdin: little-endian words of four bytes. Word 0 is the number of cases. A case is
  word 0   words of this case
  word 1   bytes of the title
  word 2   bytes of the pool
  word 3   words of the pool
  word 4   words of the pool that follow here; the others are 0
  word 5   the pool's bytes, padded to 8
  word 7   the title, padded to 64 bytes
  word 23  the pool's words
"""
import os
import struct

import model
from pools import DECLARS, EXPRS, HEAD_WORDS, LEVELS, LISTS, NAMES, NOTATION, ROW_WORDS, STRINGS, WORDS

CRATE = os.path.join(os.path.dirname(os.path.abspath(__file__)), os.pardir, "crates", "pool_test")
MOST = 2 ** 32 - 1

# A row of every kind, accepted.
BYTES = "ab10α".encode()
BASE = [
    [(0, 2), (2, 2), (3, 1), (4, 2)],  # "ab" "10" "0" "α"
    [(0, 0, 0, 0), (1, 0, 0, 0), (2, 1, 7, 9)],  # anonymous, string, number
    [(0, 0, 0), (1, 0, 0), (2, 0, 1), (3, 1, 2), (4, 1, 0)],  # zero, successor, max, imax, parameter
    [(0, 1), (1, 1)],
    [(1,), (4,)],
    [(0, 5, 0, 0, 0, 0, 1, 6),  # variable
     (1, 1, 0, 0, 0, 0, 1, 0),  # sort
     (2, 1, 1, 0, 0, 0, 1, 0),  # constant
     (3, 0, 2, 0, 0, 0, 2, 6),  # application
     (4, 1, 0, 1, 0, 0, 2, 5),  # pi
     (5, 2, 3, 0, 3, 0, 3, 6),  # lambda
     (6, 1, 1, 0, 3, 1, 3, 6),  # let
     (7, 1, 65534, 3, 0, 0, 3, 6),  # projection
     (8, 1, 0, 0, 0, 0, 1, 0),  # natural
     (9, 3, 0, 0, 0, 0, 1, 0)],  # string literal
    [(0, 1, 0, 1, 0), (3, 1, 1, 1, 9), (7, 2, 0, 0, 0)],  # axiom, def, recursor
    [(1, 0, 1, 3), (2, 2, 1023, 0)]]  # prefix, postfix

# Notation alone: of two trees there are two name rows each, and the second string row of "b" is another one of equal bytes.
NOTED = [
    [(0, 1), (1, 1), (1, 1), (2, 1)],  # "a" "b" "b" "7"
    [(0, 0, 0, 0), (1, 0, 0, 0), (1, 0, 1, 0), (1, 0, 2, 0), (2, 2, 7, 0), (2, 3, 7, 0)],  # anonymous, a, b, b again, b.7, b.7 again
    [], [], [], [], [],
    [(1, 0, 1, 0), (2, 1, 1023, 1), (4, 2, 512, 2)]]  # a, b and b.7: prefix, infix, postfix

# Title, number and place, and what is changed in the base pool: a table's count, or (table, row, word).
CHANGED = [
    ("nothing changed", (0, 0), {}),
    ("a count one too high", (1, 0), {STRINGS: 5}),
    ("a count one too low", (1, 0), {DECLARS: 2}),
    ("two counts that make up for each other: rows differ", (4, 2), {WORDS: 4, LISTS: 1}),
    ("a count of 2^32 - 1", (1, 0), {STRINGS: MOST}),

    ("string: past the end", (3, 3), {(STRINGS, 3, 1): 3}),
    ("string: offset past the end, empty", (3, 3), {(STRINGS, 3, 0): 7, (STRINGS, 3, 1): 0}),
    ("string: offset at the end, empty", (0, 0), {(STRINGS, 3, 0): 6, (STRINGS, 3, 1): 0}),
    ("string: an offset that falls", (3, 2), {(STRINGS, 2, 0): 1, (STRINGS, 2, 1): 1}),
    ("string: offset and length that wrap", (3, 0), {(STRINGS, 0, 0): MOST, (STRINGS, 0, 1): 2}),
    ("string: half a character", (3, 3), {(STRINGS, 3, 1): 1}),
    ("string: the other half", (3, 3), {(STRINGS, 3, 0): 5, (STRINGS, 3, 1): 1}),
    ("string: equal offsets", (0, 0), {(STRINGS, 2, 0): 2, (STRINGS, 2, 1): 1}),

    ("name, anonymous: a prefix", (4, 0), {(NAMES, 0, 1): 1}),
    ("name, anonymous: a low word", (4, 0), {(NAMES, 0, 2): 1}),
    ("name, anonymous: a high word", (4, 0), {(NAMES, 0, 3): 1}),
    ("name, string: the prefix is itself", (4, 1), {(NAMES, 1, 1): 1}),
    ("name, string: no such string", (4, 1), {(NAMES, 1, 2): 4}),
    ("name, string: the last string", (0, 0), {(NAMES, 1, 2): 3}),
    ("name, string: a high word", (4, 1), {(NAMES, 1, 3): 1}),
    ("name, number: the prefix is itself", (4, 2), {(NAMES, 2, 1): 2}),
    ("name, number: prefix 0", (0, 0), {(NAMES, 2, 1): 0}),
    ("name, number: all bits", (0, 0), {(NAMES, 2, 2): MOST, (NAMES, 2, 3): MOST}),
    ("name of kind 3", (4, 2), {(NAMES, 2, 0): 3}),
    ("name of kind 2^32 - 1", (4, 0), {(NAMES, 0, 0): MOST}),
    ("name, number: in row 0", (4, 0), {(NAMES, 0, 0): 2}),

    ("level, zero: a first word", (4, 0), {(LEVELS, 0, 1): 1}),
    ("level, zero: a second word", (4, 0), {(LEVELS, 0, 2): 1}),
    ("level, successor: of itself", (4, 1), {(LEVELS, 1, 1): 1}),
    ("level, successor: a second word", (4, 1), {(LEVELS, 1, 2): 1}),
    ("level, max: the first is itself", (4, 2), {(LEVELS, 2, 1): 2}),
    ("level, max: the second is itself", (4, 2), {(LEVELS, 2, 2): 2}),
    ("level, imax: the first is itself", (4, 3), {(LEVELS, 3, 1): 3}),
    ("level, imax: the second is itself", (4, 3), {(LEVELS, 3, 2): 3}),
    ("level, parameter: no such name", (4, 4), {(LEVELS, 4, 1): 3}),
    ("level, parameter: the last name", (0, 0), {(LEVELS, 4, 1): 2}),
    ("level, parameter: a second word", (4, 4), {(LEVELS, 4, 2): 1}),
    ("level of kind 5", (4, 4), {(LEVELS, 4, 0): 5}),
    ("level of kind 2^32 - 1", (4, 1), {(LEVELS, 1, 0): MOST}),

    ("list: past the end", (4, 1), {(LISTS, 1, 1): 2}),
    ("list: offset past the end, empty", (4, 1), {(LISTS, 1, 0): 3, (LISTS, 1, 1): 0}),
    ("list: an offset that falls", (4, 1), {(LISTS, 0, 0): 1, (LISTS, 1, 0): 0}),
    ("list: offset and length that wrap", (4, 0), {(LISTS, 0, 0): MOST, (LISTS, 0, 1): 2}),
    ("list word: no such level", (4, 1), {(WORDS, 1, 0): 5}),
    ("list word: the last level", (0, 0), {(WORDS, 0, 0): 4}),
    ("list word 2^32 - 1", (4, 0), {(WORDS, 0, 0): MOST}),

    ("variable 4,095", (0, 0), {(EXPRS, 0, 1): 4095, (EXPRS, 0, 7): 4096, (EXPRS, 3, 7): 4096, (EXPRS, 4, 7): 4095, (EXPRS, 5, 7): 4096,
                                (EXPRS, 6, 7): 4096, (EXPRS, 7, 7): 4096}),
    ("variable 4,096", (4, 0), {(EXPRS, 0, 1): 4096, (EXPRS, 0, 7): 4097}),
    ("variable: a field more", (4, 0), {(EXPRS, 0, 2): 1}),
    ("variable: the last field", (4, 0), {(EXPRS, 0, 5): 1}),
    ("sort: no such level", (4, 1), {(EXPRS, 1, 1): 5}),
    ("sort: a field more", (4, 1), {(EXPRS, 1, 3): 1}),
    ("constant: no such name", (4, 2), {(EXPRS, 2, 1): 3}),
    ("constant: no such list", (4, 2), {(EXPRS, 2, 2): 2}),
    ("constant: a field more", (4, 2), {(EXPRS, 2, 3): 1}),
    ("natural: no such string", (4, 8), {(EXPRS, 8, 1): 4}),
    ("natural: letters", (4, 8), {(EXPRS, 8, 1): 0}),
    ("natural: a field more", (4, 8), {(EXPRS, 8, 2): 1}),
    ("natural: the one digit 0", (0, 0), {(EXPRS, 8, 1): 2}),
    ("natural: no digit", (4, 8), {(STRINGS, 1, 0): 3, (STRINGS, 1, 1): 1, (STRINGS, 2, 0): 3, (STRINGS, 2, 1): 0, (EXPRS, 8, 1): 2}),
    ("string literal: no such string", (4, 9), {(EXPRS, 9, 1): 4}),
    ("string literal: a field more", (4, 9), {(EXPRS, 9, 4): 1}),

    ("application: the function is itself", (4, 3), {(EXPRS, 3, 1): 3}),
    ("application: the argument is itself", (4, 3), {(EXPRS, 3, 2): 3}),
    ("application: a field more", (4, 3), {(EXPRS, 3, 3): 1}),
    ("application: depth one too high", (4, 3), {(EXPRS, 3, 6): 3}),
    ("application: depth one too low", (4, 3), {(EXPRS, 3, 6): 1}),
    ("application: loose one too high", (4, 3), {(EXPRS, 3, 7): 7}),
    ("application: loose one too low", (4, 3), {(EXPRS, 3, 7): 5}),

    ("projection: no such name", (4, 7), {(EXPRS, 7, 1): 3}),
    ("projection: index 65,535", (0, 0), {(EXPRS, 7, 2): 65535}),
    ("projection: index 65,536", (4, 7), {(EXPRS, 7, 2): 65536}),
    ("projection: index 2^32 - 1", (4, 7), {(EXPRS, 7, 2): MOST}),
    ("projection: the structure is itself", (4, 7), {(EXPRS, 7, 3): 7}),
    ("projection: a field more", (4, 7), {(EXPRS, 7, 4): 1}),
    ("projection: the last field", (4, 7), {(EXPRS, 7, 5): 1}),
    ("projection: depth one too low", (4, 7), {(EXPRS, 7, 6): 2}),
    ("projection: loose one too high", (4, 7), {(EXPRS, 7, 7): 7}),
    ("expression of kind 10", (4, 9), {(EXPRS, 9, 0): 10}),
    ("expression of kind 2^32 - 1", (4, 9), {(EXPRS, 9, 0): MOST}),

    ("pi: no such name", (4, 4), {(EXPRS, 4, 1): 3}),
    ("pi: style 4", (4, 4), {(EXPRS, 4, 2): 4}),
    ("pi: style 3", (0, 0), {(EXPRS, 4, 2): 3}),
    ("pi: the type is itself", (4, 4), {(EXPRS, 4, 3): 4}),
    ("pi: the body is itself", (4, 4), {(EXPRS, 4, 4): 4}),
    ("pi: a field more", (4, 4), {(EXPRS, 4, 5): 1}),
    ("pi: loose without the minus one", (4, 4), {(EXPRS, 4, 7): 6}),
    ("pi: depth one too high", (4, 4), {(EXPRS, 4, 6): 3}),

    ("lambda: no such name", (4, 5), {(EXPRS, 5, 1): 3}),
    ("lambda: style 4", (4, 5), {(EXPRS, 5, 2): 4}),
    ("lambda: the type is itself", (4, 5), {(EXPRS, 5, 3): 5}),
    ("lambda: the body is itself", (4, 5), {(EXPRS, 5, 4): 5}),
    ("lambda: a field more", (4, 5), {(EXPRS, 5, 5): 1}),
    ("lambda: loose one too low", (4, 5), {(EXPRS, 5, 7): 5}),
    ("lambda: depth one too low", (4, 5), {(EXPRS, 5, 6): 2}),

    ("let: no such name", (4, 6), {(EXPRS, 6, 1): 3}),
    ("let: the type is itself", (4, 6), {(EXPRS, 6, 2): 6}),
    ("let: the value is itself", (4, 6), {(EXPRS, 6, 3): 6}),
    ("let: the body is itself", (4, 6), {(EXPRS, 6, 4): 6}),
    ("let: nondep 2", (4, 6), {(EXPRS, 6, 5): 2}),
    ("let: nondep 0", (0, 0), {(EXPRS, 6, 5): 0}),
    ("let: loose one too low", (4, 6), {(EXPRS, 6, 7): 5}),
    ("let: depth one too high", (4, 6), {(EXPRS, 6, 6): 4}),

    ("declaration of kind 8", (4, 2), {(DECLARS, 2, 0): 8}),
    ("declaration: no such name", (4, 0), {(DECLARS, 0, 1): 3}),
    ("declaration: no such list", (4, 1), {(DECLARS, 1, 2): 2}),
    ("declaration: no such type", (4, 2), {(DECLARS, 2, 3): 10}),
    ("declaration: no such value", (4, 1), {(DECLARS, 1, 4): 10}),
    ("an axiom with a value", (4, 0), {(DECLARS, 0, 4): 1}),
    ("a recursor with a value", (4, 2), {(DECLARS, 2, 4): 1}),
    ("a theorem with a value", (0, 0), {(DECLARS, 1, 0): 2}),
    ("an opaque with a value", (0, 0), {(DECLARS, 1, 0): 4}),
    ("an inductive with a value", (4, 1), {(DECLARS, 1, 0): 5}),

    ("two faults: a string before a name", (3, 3), {(STRINGS, 3, 1): 3, (NAMES, 0, 1): 1}),
    ("two faults: a name before a level", (4, 2), {(NAMES, 2, 0): 3, (LEVELS, 0, 1): 1}),
    ("two faults: a list word before an expression", (4, 1), {(WORDS, 1, 0): 5, (EXPRS, 0, 7): 9}),
    ("two faults: a declaration before notation", (4, 0), {(DECLARS, 0, 0): 8, (NOTATION, 0, 1): 3}),
    ("two faults: a string before notation", (3, 3), {(STRINGS, 3, 1): 3, (NOTATION, 0, 1): 3}),
    ("two faults: the total before all", (1, 0), {STRINGS: 5, (STRINGS, 3, 1): 3}),
    ("notation: one name twice, behind all tables", (31, 0), {(NOTATION, 1, 0): 1}),
    ("notation: a row that the head does not count", (1, 0), {NOTATION: 1}),
    ("notation: a row fewer than the head counts", (1, 0), {NOTATION: 3})]

# The same of the pool with notation alone.
NOTED_CHANGES = [
    ("nothing changed", 0, {}),
    ("the first name", 0, {(NOTATION, 0, 0): 0}),
    ("the last name", 0, {(NOTATION, 2, 0): 5}),
    ("no such name", 31, {(NOTATION, 2, 0): 6}),
    ("name 2^32 - 1", 31, {(NOTATION, 0, 0): MOST}),
    ("kind 2 in the first row", 0, {(NOTATION, 0, 1): 2}),
    ("kind 3", 31, {(NOTATION, 2, 1): 3}),
    ("kind 2^32 - 1", 31, {(NOTATION, 0, 1): MOST}),
    ("priority 0", 31, {(NOTATION, 0, 2): 0}),
    ("priority 1,023", 0, {(NOTATION, 2, 2): 1023}),
    ("priority 1,024", 31, {(NOTATION, 1, 2): 1024}),
    ("priority 65,537", 31, {(NOTATION, 2, 2): 65537}),
    ("priority 2^32 - 1", 31, {(NOTATION, 0, 2): MOST}),
    ("the last string", 0, {(NOTATION, 0, 3): 3}),
    ("one string for all", 0, {(NOTATION, 0, 3): 2, (NOTATION, 1, 3): 2}),
    ("no such string", 31, {(NOTATION, 1, 3): 4}),
    ("string 2^32 - 1", 31, {(NOTATION, 2, 3): MOST}),
    ("one name row twice", 31, {(NOTATION, 2, 0): 1}),
    ("one name row twice, side by side", 31, {(NOTATION, 1, 0): 1}),
    ("one tree in two rows of names", 31, {(NOTATION, 0, 0): 3, (NAMES, 3, 2): 1}),
    ("one tree in two rows of names, of two strings", 31, {(NOTATION, 0, 0): 3}),
    ("one tree in two rows of names, the higher one first", 31, {(NOTATION, 0, 0): 5}),
    ("the other row of a name alone", 0, {(NOTATION, 1, 0): 3}),
    ("a name and its prefix", 0, {(NOTATION, 0, 0): 3, (NOTATION, 1, 0): 0}),
    ("a number and its digits", 0, {(NAMES, 5, 0): 1, (NAMES, 5, 2): 3, (NOTATION, 0, 0): 5}),
    ("numbers that differ in the high word", 0, {(NAMES, 5, 3): 1, (NOTATION, 0, 0): 5}),
    ("numbers behind other prefixes", 0, {(NAMES, 5, 1): 1, (NOTATION, 0, 0): 5}),
    ("names of an empty string and of none", 0, {(STRINGS, 0, 1): 0, (NOTATION, 1, 0): 0}),
    ("equal kinds, priorities and strings", 0, {(NOTATION, 1, 1): 0, (NOTATION, 1, 2): 1, (NOTATION, 1, 3): 0}),
    ("a fault in the last row alone", 31, {(NOTATION, 2, 2): 0}),
    ("faults in all rows", 31, {(NOTATION, 0, 1): 3, (NOTATION, 1, 2): 0, (NOTATION, 2, 3): 9}),
    ("another number before", 4, {(NAMES, 0, 1): 1, (NOTATION, 0, 1): 3})]

# Pools of one string: title, number, its bytes.
UTF8 = [
    ("ASCII", 0, "61"),
    ("the last of one byte", 0, "7f"),
    ("a lone follower", 3, "80"),
    ("the last follower alone", 3, "bf"),
    ("two bytes, too long a form of U+0000", 3, "c080"),
    ("two bytes, too long a form of U+007F", 3, "c1bf"),
    ("U+0080", 0, "c280"),
    ("U+07FF", 0, "dfbf"),
    ("two bytes cut short", 3, "c2"),
    ("two bytes with no follower", 3, "c241"),
    ("two bytes with a lead as follower", 3, "c2c2"),
    ("three bytes, too long a form of U+07FF", 3, "e09fbf"),
    ("U+0800", 0, "e0a080"),
    ("U+D7FF", 0, "ed9fbf"),
    ("the first surrogate", 3, "eda080"),
    ("the last surrogate", 3, "edbfbf"),
    ("U+E000", 0, "ee8080"),
    ("U+FFFF", 0, "efbfbf"),
    ("three bytes cut short after one", 3, "e1"),
    ("three bytes cut short after two", 3, "e180"),
    ("three bytes with a bad last one", 3, "e18041"),
    ("four bytes, too long a form of U+FFFF", 3, "f08fbfbf"),
    ("U+10000", 0, "f0908080"),
    ("U+10FFFF", 0, "f48fbfbf"),
    ("U+110000", 3, "f4908080"),
    ("lead F5", 3, "f5808080"),
    ("lead F7", 3, "f7bfbfbf"),
    ("lead F8", 3, "f8808080"),
    ("lead FF", 3, "ff"),
    ("four bytes cut short", 3, "f09080"),
    ("four bytes with a bad second one", 3, "f0418080"),
    ("a follower too many", 3, "c28080")]

# First and last code point of each piece; Greek without λ, Π and Σ.
GREEK = [(0x3b1, 0x3ba), (0x3bc, 0x3c8), (0x391, 0x39f), (0x3a1, 0x3a2), (0x3a4, 0x3a8), (0x1f00, 0x1ffd)]
START = GREEK + [(0x41, 0x5a), (0x61, 0x7a), (0x5f, 0x5f), (0x3ca, 0x3fa), (0x2100, 0x214e)]
REST = START + [(0x30, 0x39), (0x21, 0x21), (0x3f, 0x3f), (0x27, 0x27), (0x2080, 0x2088), (0x2090, 0x209b), (0x1d62, 0x1d69)]


def pool(tables):
    """The words of a pool of these tables."""
    return [len(t) for t in tables] + [w for t in tables for row in t for w in row]


def only(table, rows):
    return pool([rows if t == table else [] for t in range(HEAD_WORDS)])


def word_at(tables, key):
    if isinstance(key, int):
        return key
    table, row, word = key
    return HEAD_WORDS + sum(w * len(t) for w, t in zip(ROW_WORDS[:table], tables)) + row * ROW_WORDS[table] + word


def with_changes(tables, changes):
    words = pool(tables)
    for key, value in changes.items():
        words[word_at(tables, key)] = value
    return words


def changed():
    for title, answer, changes in CHANGED:
        yield title, answer, BYTES, with_changes(BASE, changes)
    yield "natural: a leading zero", (4, 8), b"ab01\xce\xb1", pool(BASE)
    yield "natural: two zeros", (4, 8), b"ab00\xce\xb1", pool(BASE)


def strings():
    for title, number, data in UTF8:
        data = bytes.fromhex(data)
        yield "UTF-8: " + title, (number, 0), data, only(STRINGS, [(0, len(data))])


def notation():
    for title, number, changes in NOTED_CHANGES:
        yield "notation: " + title, (number, 0), b"ab7", with_changes(NOTED, changes)


def depths():
    """At the limit and over it: each row is made of the one before."""
    row = {
        "names": (NAMES, (0, 0, 0, 0), lambda r: (2, r - 1, 0, 0)),
        "levels, successors": (LEVELS, (0, 0, 0), lambda r: (1, r - 1, 0)),
        # as a tree, twice as large at each row: no walk of it would end
        "levels, max of one row": (LEVELS, (0, 0, 0), lambda r: (2, r - 1, r - 1)),
        "expressions": (EXPRS, (0, 0, 0, 0, 0, 0, 1, 1), lambda r: (3, r - 1, r - 1, 0, 0, 0, r + 1, 1))}
    for what, (table, first, after) in row.items():
        limit = 256 if table == EXPRS else 64
        for n, answer in ((limit, (0, 0)), (limit + 1, (4, limit))):
            yield "%s %d deep" % (what, n), answer, b"", only(table, [first] + [after(r) for r in range(1, n)])


def counts():
    """Rows of zeros: accepted in the first four tables. A byte area over its limit, 16 MiB, does not fit the program's stack and is not run."""
    names = ("strings", "names", "levels", "lists", "list words", "expressions", "declarations", "notation rows")
    for table, name in enumerate(names):
        for n, number in ((65536, 0 if table < 4 else 31 if table == NOTATION else 4), (65537, 2)):
            yield "%d %s" % (n, name), (number, 0), b"", only(table, [(0,) * ROW_WORDS[table]] * n)
    yield "no word", (1, 0), b"", []
    yield "seven words", (1, 0), b"", [0] * 7
    yield "eight words", (0, 0), b"", [0] * 8


def cases():
    for part in (changed, notation, strings, depths, counts):
        yield from part()


def case_bytes(title, data, words):
    given = len(words)
    while given and words[given - 1] == 0:
        given -= 1
    title = title.encode()
    assert len(data) <= 8 and len(title) <= 64, title
    head = struct.pack("<5I", 23 + given, len(title), len(data), len(words), given)
    return head + data.ljust(8, b"\0") + title.ljust(64, b"\0") + struct.pack("<%dI" % given, *words[:given])


def class_changes():
    """Each code point at which the classes change, with 2 for a start and 1 for a rest."""
    inside = lambda pieces, c: any(first <= c <= last for first, last in pieces)
    known = 0
    for c in sorted({c for first, last in REST for c in (first, last + 1)}):
        now = 2 * inside(START, c) + inside(REST, c)
        if now != known:
            yield c, now
        known = now


def main():
    chosen = list(cases())
    for title, answer, data, words in chosen:
        assert model.Pool(data, words).fault == answer, (title, answer, model.Pool(data, words).fault)
    with open(os.path.join(CRATE, "stdin"), "wb") as f:
        f.write(struct.pack("<I", len(chosen)) + b"".join(case_bytes(title, data, words) for title, _, data, words in chosen))
    with open(os.path.join(CRATE, "stdout"), "w") as f:
        f.writelines("%s: %d %d\n" % (title, number, place) for title, (number, place), _, _ in chosen)
        f.writelines("letterlike class from: %d %d\n" % change for change in class_changes())


if __name__ == "__main__":
    main()
