"""Inputs that documents 01 and 02 refuse, with the number and place worked out by hand from their sentences; run through the model and the product.

The Rust refuses nothing. `cases()` gives (title, call, expected (number, place)); `judged(program)` what is wrong with the answers."""
import product
from pools import Builder, DECLARS, EXPRS, INFIX, LEVELS, LISTS, NAMES, NOTATION, POSTFIX, PREFIX, STRINGS, WORDS, const, of_declar, of_expr
from specimens import NAT, deep, doubled, nested_chains, pi, sort, var

ARROW = pi("n", NAT, NAT)  # 17 rows, 12 text bytes, 13 listed


def base():
    """A pool with two rows or more in each table."""
    b = Builder()
    b.string("ab")
    b.string("é")
    b.expr(pi("n", const("Nat", ("zero",), ("param", ("u",))), sort(("succ", ("max", ("zero",), ("param", ("u",)))))))
    b.expr(("proj", ("S",), 3, ("let", ("v",), var(2), ("nat", "12"), ("str", "t"), 1)))
    b.list((("zero",),))
    b.declar(0, ("k",), (), NAT)
    b.declar(3, ("k",), (), NAT, var(0))
    b.notation(PREFIX, ("k",), 1, "ab")
    b.notation(INFIX, ("Nat",), 1023, "é")
    return b


def check(area, words):
    return product.Call(product.CHECK, area, words, 0, 0, 0, (0, 0, 0))


def changed(table, row, word, value):
    """The base pool with one word changed; a row or word of -1 is the last one."""
    b = base()
    fields = list(b.tables[table][row])
    fields[word] = value
    b.tables[table][row] = tuple(fields)
    return check(*b.pool())


def row_of(kind):
    return next(i for i, r in enumerate(base().tables[EXPRS]) if r[0] == kind)


def with_row(table, fields):
    """The base pool with one row more, and the row's number."""
    b = base()
    at = b.append(table, fields)
    return check(*b.pool()), at


def string_check(*pairs, area=b"abcdef\xc3\xa9\xed\xa0\x80\xc0\x80\xf4\x90\x80\x80"):
    return check(area, [len(pairs), 0, 0, 0, 0, 0, 0, 0] + [w for p in pairs for w in p])


def counts_and_strings():
    area, words = base().pool()
    yield "seven words", check(b"", [0] * 7), (1, 0)
    yield "no row at all", check(b"", [0] * 8), (0, 0)
    yield "a word too many", check(area, words + [0]), (1, 0)
    yield "a word too few", check(area, words[:-1]), (1, 0)
    yield "a count over its limit, total wrong", check(b"", [65537] + [0] * 7), (1, 0)
    yield "65,537 list words, total right", check(b"", [0, 0, 0, 0, 65537, 0, 0, 0] + [0] * 65537), (2, 0)
    yield "byte area over its limit", check(bytes(16777217), [0] * 8), (2, 0)
    yield "byte area at its limit", check(bytes(16777216), [0] * 8), (0, 0)
    yield "offsets fall", string_check((1, 1), (0, 1)), (3, 1)
    yield "offsets equal, pairs overlap", string_check((1, 3), (1, 1), (2, 1)), (0, 0)
    yield "past the end", string_check((0, 1), (16, 2)), (3, 1)
    yield "empty at the end", string_check((17, 0)), (0, 0)
    yield "empty past the end", string_check((18, 0)), (3, 0)
    yield "offset and length past 32 bits", string_check((1, 0xFFFFFFFF)), (3, 0)
    yield "two bytes of one character", string_check((6, 2)), (0, 0)
    yield "half a character", string_check((6, 1)), (3, 0)
    yield "a surrogate", string_check((8, 3)), (3, 0)
    yield "an overlong form", string_check((11, 2)), (3, 0)
    yield "above U+10FFFF", string_check((13, 4)), (3, 0)


def names_levels_lists():
    rows = [(NAMES, (3, 0, 0, 0)), (NAMES, (0, 0, 0, 1)), (NAMES, (1, 0, 99, 0)), (NAMES, (1, 0, 0, 1)), (NAMES, (2, 99, 0, 0)),
            (LEVELS, (5, 0, 0)), (LEVELS, (0, 0, 1)), (LEVELS, (1, 0, 1)), (LEVELS, (2, 0, 99)), (LEVELS, (4, 99, 0)),
            (LISTS, (0, 1)), (LISTS, (3, 1)), (LISTS, (4, 0)), (WORDS, (99,))]
    for table, fields in rows:
        call, at = with_row(table, fields)
        yield "row %r in table %d" % (fields, table), call, (4, at)
    yield "a list of none at the end of the list words", with_row(LISTS, (3, 0))[0], (0, 0)
    b = base()
    own = b.append(NAMES, (2, len(b.tables[NAMES]), 0, 0))
    yield "a name that is its own prefix", check(*b.pool()), (4, own)
    b = Builder()
    b.name(("a",) * 63)
    yield "a name of depth 64", check(*b.pool()), (0, 0)
    b.name(("a",) * 64)
    yield "a name of depth 65", check(*b.pool()), (4, 64)
    b = Builder()
    l = ("zero",)
    for _ in range(63):
        l = ("succ", l)
    b.level(l)
    yield "a level of depth 64", check(*b.pool()), (0, 0)
    b.level(("succ", l))
    yield "a level of depth 65", check(*b.pool()), (4, 64)


def expressions_declarations():
    for kind, word, value in ((0, 1, 4096), (0, 2, 1), (0, 6, 2), (0, 7, 4), (1, 1, 99), (2, 2, 99), (4, 2, 4), (4, 3, 99), (4, 5, 1),
                              (6, 5, 2), (6, 7, 2), (7, 2, 65536), (7, 2, 2 ** 32 - 1), (7, 6, 4), (8, 1, 0), (9, 1, 99), (9, 5, 1)):
        at = row_of(kind)
        yield "expression of kind %d with word %d = %d" % (kind, word, value), changed(EXPRS, at, word, value), (4, at)
    call, at = with_row(EXPRS, (10, 0, 0, 0, 0, 0, 1, 0))
    yield "kind 10", call, (4, at)
    call, at = with_row(EXPRS, (3, 0, len(base().tables[EXPRS]), 0, 0, 0, 2, 0))
    yield "an application to itself", call, (4, at)
    for digits in ("", "00", "01", "1a", "-1", "٣"):
        area, words, root = of_expr(("nat", digits))
        yield "natural %r" % digits, check(area, words), (4, root)
    area, words, _ = of_expr(deep(257))
    yield "depth 257", check(area, words), (4, 257)
    for row, word, value in ((0, 0, 8), (0, 1, 99), (0, 2, 99), (0, 3, 99), (0, 4, 1), (1, 4, 99)):
        yield "declaration %d with word %d = %d" % (row, word, value), changed(DECLARS, row, word, value), (4, row)
    b = base()
    b.tables[STRINGS][1], b.tables[NAMES][0], b.tables[DECLARS][0] = (99, 1), (7, 0, 0, 0), (9, 0, 0, 0, 0)
    yield "faults in three tables", check(*b.pool()), (3, 1)


# Names for the rows below: more rows than one of a tree, by one string row and by two with equal bytes; and what is near to these.
NAMED = [(0, 0, 0, 0), (1, 0, 0, 0), (0, 0, 0, 0), (1, 2, 0, 0), (1, 0, 1, 0), (2, 1, 7, 0), (2, 3, 7, 0), (2, 0, 7, 0), (2, 0, 7, 1),
         (1, 0, 2, 0)]
ANON, A, ANON_AGAIN, A_AGAIN, A_IN_OTHER_STRING, A_7, A_7_AGAIN, SEVEN, SEVEN_AND_2_TO_32, TEXT_7 = range(10)


def notation_pool(*rows):
    """A pool of strings, names and these notation rows: (name, kind, priority, string)."""
    b = Builder()
    b.bytes = bytearray(b"aa7")
    b.tables[STRINGS], b.tables[NAMES], b.tables[NOTATION] = [(0, 1), (1, 1), (2, 1)], list(NAMED), list(rows)
    return b


def notation_check(*rows):
    return check(*notation_pool(*rows).pool())


def twice(one, other):
    """Rows for two names, with another between them."""
    return notation_check((one, 0, 9, 0), (A_7, 1, 9, 0), (other, 2, 8, 1))


def notation_rules():
    row, most = (A, PREFIX, 9, 1), 2 ** 32 - 1
    good = (("the first name", (ANON, 0, 9, 1)), ("the last name", (TEXT_7, 0, 9, 1)), ("priority 1", (A, 0, 1, 1)),
            ("priority 1,023", (A, 0, 1023, 1)), ("the last string", (A, 0, 9, 2)), ("infix", (A, 1, 9, 1)), ("postfix", (A, 2, 9, 1)))
    for title, fields in good:
        yield "notation: %s" % title, notation_check(fields), (0, 0)
    bad = (("no such name", 0, 10), ("name 2^32 - 1", 0, most), ("kind 3", 1, 3), ("kind 2^32 - 1", 1, most), ("priority 0", 2, 0),
           ("priority 1,024", 2, 1024), ("priority 65,537", 2, 65537), ("priority 2^32 - 1", 2, most), ("no such string", 3, 3),
           ("string 2^32 - 1", 3, most))
    for title, word, value in bad:
        fields = row[:word] + (value,) + row[word + 1:]
        yield "notation: %s" % title, notation_check(fields), (31, 0)
        yield "notation: %s in the last of three rows" % title, notation_check((SEVEN, 2, 1, 0), (A_7, 1, 1023, 2), fields), (31, 0)
    yield "notation: a row of zeros", notation_check((0, 0, 0, 0)), (31, 0)
    yield "notation: one row and no string", check(b"", [0, 1, 0, 0, 0, 0, 0, 1, 0, 0, 0, 0, 0, 0, 9, 0]), (31, 0)
    yield "notation: one row and no name", check(b"", [1, 0, 0, 0, 0, 0, 0, 1, 0, 0, 0, 0, 9, 0]), (31, 0)


def notation_names():
    """A name's tree given twice, and trees that are near to each other."""
    for title, one, other in (("one row", A, A), ("rows of one string", A, A_AGAIN), ("strings of equal bytes", A, A_IN_OTHER_STRING),
                              ("strings of equal bytes, turned", A_IN_OTHER_STRING, A), ("the anonymous one", ANON, ANON),
                              ("anonymous rows", ANON, ANON_AGAIN), ("a number", SEVEN, SEVEN)):
        yield "notation: a name twice, %s" % title, twice(one, other), (31, 0)
    yield "notation: a name twice, of the row between", twice(A, A_7_AGAIN), (31, 0)
    yield "notation: a name twice, rows in all alike", notation_check((A, 0, 9, 0), (A, 0, 9, 0)), (31, 0)
    for title, one, other in (("a number and its digits", SEVEN, TEXT_7), ("numbers alike in 32 bits", SEVEN, SEVEN_AND_2_TO_32),
                              ("a name and its prefix", A, ANON), ("a number and a text", SEVEN, A)):
        yield "notation: two names, %s" % title, twice(one, other), (0, 0)
    yield "notation: equal strings, kinds and priorities", notation_check((A, 0, 9, 0), (SEVEN, 0, 9, 0)), (0, 0)
    deep = ("a",) * 62
    for title, one, other, expected in (("in the first component", ("b",) + deep, ("c",) + deep, (0, 0)),
                                        ("in the last component", deep + ("b",), deep + ("c",), (0, 0)), ("in nothing", deep, deep, (31, 0))):
        b = Builder(False)
        b.notation(PREFIX, one, 9, "-")
        b.notation(PREFIX, other, 9, "-")
        yield "notation: long names of their own rows that differ %s" % title, check(*b.pool()), expected
    many = [(0, 0, 0, 0)] + [(2, 0, n, 0) for n in range(65535)]
    rows = [(n, n % 3, 1 + n % 1023, n % 3) for n in range(65535)]
    for title, last, expected in (("for as many names", 65535, (0, 0)), ("the last for the first one's name", 0, (31, 0))):
        b = notation_pool()
        b.tables[NAMES], b.tables[NOTATION] = many, rows + [(last, 0, 1, 0)]
        yield "65,536 notation rows, " + title, check(*b.pool()), expected
    yield "65,537 notation rows, total right", check(b"", [0] * 7 + [65537] + [0] * (4 * 65537)), (2, 0)
    yield "65,536 notation rows of zeros", check(b"", [0] * 7 + [65536] + [0] * (4 * 65536)), (31, 0)


def notation_order():
    """31 after 1 to 4, and before all that is refused later."""
    area, words = base().pool()
    yield "a head of seven words before all tables", check(area, words[:7] + words[8:]), (1, 0)
    b = base()
    b.tables[NOTATION] = []
    old = b.pool()[1]
    yield "no notation rows", check(area, old), (0, 0)
    yield "a head of seven words and no notation rows", check(area, old[:7] + old[8:]), (1, 0)
    yield "a notation row too few", check(area, words[:-4]), (1, 0)
    yield "a notation row too many", check(area, words + [0, 0, 9, 0]), (1, 0)
    yield "a notation row of three words", check(area, words[:-1]), (1, 0)
    for table, row, value, number in ((STRINGS, 1, 99, 3), (NAMES, 0, 7, 4), (LEVELS, 1, 5, 4), (EXPRS, 2, 10, 4), (DECLARS, 1, 9, 4)):
        b = base()
        b.tables[NOTATION][0] = (0, 3, 0, 99)
        b.tables[table][row] = (value,) + b.tables[table][row][1:]
        yield "a faulty notation row, and one in table %d before it" % table, check(*b.pool()), (number, row)
    b = base()
    b.tables[NOTATION][1] = b.tables[NOTATION][0]
    pool = b.pool()
    yield "a name twice, behind rows of all tables", check(*pool), (31, 0)
    for mode in (0, 1):
        call = product.Call(mode, *pool, 0, 2, 80, (7 * 99, 99, 999))
        yield "31, print in mode %d" % mode, call, (31, 0)
        yield "31 before 5, print in mode %d" % mode, call._replace(root=99), (31, 0)
        yield "31 before 6, print in mode %d: width" % mode, call._replace(width=65536), (31, 0)
        yield "31 before 6, print in mode %d: indent" % mode, call._replace(indent=65), (31, 0)
        yield "31 before 20, print in mode %d" % mode, call._replace(lengths=(0, 0, 0)), (31, 0)
    yield "31, two rows compared", compared(0, 1, pool), (31, 0)
    yield "31 before 5, two rows compared", compared(99, 99, pool), (31, 0)


def called(tree, rows=7 * 17, text=12, listing=13, indent=2, width=13, root=None, mode=0):
    """A print in areas of these lengths."""
    area, words, at = of_expr(tree)
    return product.Call(mode, area, words, at if root is None else root, indent, width, (rows, text, listing))


def declared(kind, type, value=None, rows=7 * 16384):
    area, words, root = of_declar((kind, ("k",), (), type, value))
    return product.Call(1, area, words, root, 2, 80, (rows, 65536, 99999))


def prints():
    yield "areas just long enough", called(ARROW), (0, 0)
    yield "no such expression", called(ARROW, root=99), (5, 0)
    yield "no such declaration", called(ARROW, root=0, mode=1), (5, 0)
    yield "no such root and a width over the limit", called(ARROW, root=99, width=65536), (5, 0)
    yield "indent 65", called(ARROW, indent=65), (6, 0)
    yield "width 65,536", called(ARROW, width=65536), (6, 0)
    yield "indent 64, width 65,535", called(ARROW, indent=64, width=65535), (0, 0)
    for title, last, expected in (("the last projection", 65535, (0, 0)), ("one past the last projection", 65536, (4, 1))):
        yield title, called(("proj", ("S",), last, const("s")), 7 * 9, 8, 8), expected
    yield "a row area a word short", called(ARROW, rows=7 * 17 - 1), (20, 16)
    yield "a row area of six words", called(ARROW, rows=6), (20, 0)
    yield "a text area a byte short", called(ARROW, text=11), (21, 13)
    yield "no areas at all", called(ARROW, 0, 0, 0), (21, 0)
    yield "no room for a text's row", called(ARROW, rows=7 * 13), (20, 13)
    yield "no room for a text's last byte, nor for its row", called(ARROW, rows=7 * 13, text=11), (21, 13)
    yield "no room for an earlier row", called(ARROW, rows=7 * 12, text=11), (20, 12)
    yield "a listing area a byte short", called(ARROW, listing=12), (22, 0)
    yield "no listing area", called(ARROW, listing=0), (22, 0)
    yield "rows short and listing short", called(ARROW, rows=0, listing=0), (20, 0)
    many = nested_chains((255, 254, 253, 252, 11))
    chain_row = 11  # @C, ten tails of it, then the chain of eleven
    yield "1,025 names", called(many, 7 * 16384, 65536, 99999), (7, chain_row)
    yield "1,025 names, row area of 48 rows", called(many, 7 * 48, 65536, 99999), (7, chain_row)
    yield "1,025 names, row area of 47 rows", called(many, 7 * 47, 65536, 99999), (20, 47)
    yield "1,025 names in an axiom's type", declared(0, many), (7, chain_row)
    yield "1,025 names in a definition's value", declared(3, const("C"), many), (7, chain_row)
    literal = ("str", "a" * 65535)
    yield "65,537 text bytes", called(literal, 7 * 16384, 70000, 99999), (8, 3)
    yield "65,537 text bytes, text area of 65,536", called(literal, 7 * 16384, 65536, 99999), (8, 3)
    yield "65,537 text bytes, text area of 65,535", called(literal, 7 * 16384, 65535, 99999), (21, 1)
    wide = const("c")
    for _ in range(11):
        wide = ("app", wide, wide)
    yield "over 16,384 rows", called(wide, 7 * 20000, 65536, 99999), (8, 16384)
    yield "over 16,384 rows, row area of 16,384", called(wide, 7 * 16384, 65536, 99999), (8, 16384)
    yield "over 16,384 rows, row area of 16,383", called(wide, 7 * 16384 - 1, 65536, 99999), (20, 16383)
    yield "over 16,384 rows in an axiom's type", declared(0, wide), (8, 16384)
    yield "over 16,384 rows in a theorem's type, row area of 16,383", declared(2, wide, wide, 7 * 16383), (20, 16383)
    yield "equal types nested 40 deep", called(doubled(40), 7 * 16384, 65536, 99999), (0, 0)


def names():
    """A name with its marks is one text: @a.«b c» has four rows (two texts, a join, the group round all), 10 text bytes."""
    marked = ("const", ("a", "b c"), ())
    yield "a name in areas just long enough", called(marked, 7 * 4, 10, 10), (0, 0)
    for text in (3, 4, 9):
        yield "room for %d bytes, none for the rest of a name" % text, called(marked, 7 * 4, text, 10), (21, 1)
    yield "no room for a name's row", called(marked, 7 * 1, 10, 10), (20, 1)
    yield "no room for the join behind a name", called(marked, 7 * 2, 10, 10), (20, 2)
    yield "no room for a name's row, nor for its last byte", called(marked, 7 * 1, 9, 10), (21, 1)
    yield "the anonymous name", called(("const", (), ()), 7 * 4, 5, 5), (0, 0)
    yield "no room for the anonymous name's last byte", called(("const", (), ()), 7 * 4, 4, 5), (21, 1)
    for more, expected in ((0, (0, 0)), (1, (8, 1))):
        long = ("const", ("b " + "c" * (65529 + more),), ())
        yield "%s with @ and marks" % ("65,536 bytes", "65,537 bytes")[more], called(long, 7 * 4, 65536, 65536), expected


def operated(kind, string, rows, text, listing=99):
    """An operator of priority 9 over one operand or two, in areas of these lengths."""
    tree = const("f")
    for operand in "ab" if kind == INFIX else "a":
        tree = ("app", tree, const(operand))
    area, words, root = of_expr(tree, True, [(kind, ("f",), 9, string)])
    return product.Call(0, area, words, root, 2, 80, (7 * rows, text, listing))


def operators():
    """-@a has nine rows: its string, break, join and group, @ and a and their join, a join, the group round all. @a! has nine too, and
    @a+@b has fourteen."""
    yield "prefix in areas just long enough", operated(PREFIX, "--", 9, 4, 4), (0, 0)
    yield "prefix, an empty string", operated(PREFIX, "", 9, 2, 2), (0, 0)
    yield "prefix, no room for its string's last byte", operated(PREFIX, "--", 9, 1), (21, 0)
    yield "prefix, no room for its string's row", operated(PREFIX, "--", 0, 2), (20, 0)
    yield "prefix, an empty string and no room for its row", operated(PREFIX, "", 0, 0), (20, 0)
    yield "prefix, no room for the break", operated(PREFIX, "--", 1, 9), (20, 1)
    yield "prefix, no room for the operand's last byte", operated(PREFIX, "--", 9, 3), (21, 5)
    yield "prefix, no room for the join of both", operated(PREFIX, "--", 7, 9), (20, 7)
    yield "infix in areas just long enough", operated(INFIX, "+", 14, 5, 5), (0, 0)
    yield "infix, no room for its string's byte", operated(INFIX, "+", 14, 2), (21, 3)
    yield "infix, no room for its string's row", operated(INFIX, "+", 3, 5), (20, 3)
    yield "infix, no room for the break", operated(INFIX, "+", 5, 5), (20, 5)
    yield "infix, no room for the right operand's byte", operated(INFIX, "+", 14, 4), (21, 8)
    yield "infix, no room for the nest", operated(INFIX, "+", 12, 5), (20, 12)
    yield "infix, listing area a byte short", operated(INFIX, "+", 14, 5, 4), (22, 0)
    yield "postfix in areas just long enough", operated(POSTFIX, "!", 9, 3, 3), (0, 0)
    yield "postfix, no room for its string's byte", operated(POSTFIX, "!", 9, 2), (21, 5)
    yield "postfix, no room for the break", operated(POSTFIX, "!", 3, 9), (20, 3)
    yield "postfix, no room for the group", operated(POSTFIX, "!", 7, 3), (20, 7)
    for more, expected in ((0, (0, 0)), (1, (8, 5)), (3, (8, 0))):
        yield "prefix, %d text bytes" % (65536 + more), operated(PREFIX, "-" * (65534 + more), 9, 65536, 65537), expected
    prop = of_expr(sort(("zero",)))
    for text, expected in ((4, (0, 0)), (3, (21, 0))):
        yield "Prop in a text area of %d bytes" % text, product.Call(0, *prop, 2, 80, (7 * 2, text, 4)), expected


GIVEN = [(0, 0, 1, 1, 1, 1, 0), (2, 1, 0, 1, 1, 0, 1), (1, 0, 0, 3, 2, 1, 1), (0, 1, 2, 1, 2, 2, 0), (1, 0, 0, 5, 4, 1, 1),
         (3, 64, 0, 6, 4, 1, 1), (4, 0, 0, 7, 4, 1, 1)]  # G(N(("a" | "bc")))


def given(rows=GIVEN, row_count=None, text=b"abc", text_count=3, width=80, listing=100):
    words = [w for r in rows for w in r]
    return product.Call(2, text, words, 0, 0, width, (len(rows) if row_count is None else row_count, text_count, listing))


def given_pending(pending, **changes):
    """The same with a pending area of so many words; the document has 7 rows, unless it is another."""
    return given(**changes)._replace(mode=product.PENDING, pending=pending)


def with_word(row, word, value):
    rows = [list(r) for r in GIVEN]
    rows[row][word] = value
    return given(rows)


def documents():
    yield "given document", given(), (0, 0)
    yield "slices longer than counted", given(GIVEN + [(9,) * 7], 7, b"abc????", 3), (0, 0)
    yield "no row", given(row_count=0), (9, 0)
    yield "more rows than the slice", given(row_count=8), (9, 0)
    yield "16,385 rows", given([(2, 0, 0, 1, 0, 0, 1)] * 16385), (9, 0)
    yield "more text than the slice", given(text_count=4), (9, 0)
    yield "65,537 text bytes", given(text=b"a" * 65537, text_count=65537), (9, 0)
    for row, word, value in ((0, 0, 5), (0, 1, 1), (0, 2, 2), (0, 3, 2), (0, 4, 2), (0, 5, 0), (0, 6, 1), (1, 1, 2), (1, 2, 1), (1, 4, 0),
                             (1, 5, 1), (1, 6, 0), (2, 1, 1), (2, 3, 2), (2, 6, 0), (4, 5, 3), (5, 1, 65), (5, 2, 1), (6, 1, 1), (6, 4, 5)):
        yield "row %d with word %d = %d" % (row, word, value), with_word(row, word, value), (9, row)
    yield "a text past the text count", given(text_count=2), (9, 3)
    yield "text bytes left over", given(text=b"abcd", text_count=4), (9, 6)
    yield "two trees", given(GIVEN[:2], text_count=1), (9, 1)
    yield "a join of one", given([GIVEN[0], (1, 0, 0, 2, 1, 1, 0)], text_count=1), (9, 1)
    yield "a group of none", given([(4, 0, 0, 1, 0, 0, 0)], text_count=0), (9, 0)
    yield "width 65,536", given(width=65536), (6, 0)
    yield "faulty and width 65,536", given(width=65536, text_count=4), (9, 0)
    yield "listing area a byte short", given(listing=3), (22, 0)
    yield "listing area just long enough", given(listing=4), (0, 0)


def pending_areas():
    yield "pending area just long enough", given_pending(21), (0, 0)
    yield "pending area a word short", given_pending(20), (30, 0)
    yield "pending area of three words for all rows but one", given_pending(18), (30, 0)
    yield "no pending area", given_pending(0), (30, 0)
    yield "pending area far too long", given_pending(49152), (0, 0)
    yield "pending area of one row", given_pending(3, rows=[(2, 1, 0, 1, 1, 0, 1)], text_count=0), (0, 0)
    yield "pending area of one row a word short", given_pending(2, rows=[(2, 1, 0, 1, 1, 0, 1)], text_count=0), (30, 0)
    yield "slice longer than counted, pending area for the rows counted", given_pending(21, rows=GIVEN + [(9,) * 7], row_count=7), (0, 0)
    yield "slice longer than counted, pending area a word short", given_pending(20, rows=GIVEN + [(9,) * 7], row_count=7), (30, 0)
    yield "9 before 30", given_pending(0, text_count=2), (9, 3)
    yield "9 before 30, of counts", given_pending(0, row_count=8), (9, 0)
    yield "9 before 30, three times the row count being 2 in 32 bits", given_pending(2, row_count=(1 << 32) // 3 + 1), (9, 0)
    yield "6 before 30", given_pending(20, width=65536), (6, 0)
    yield "9 before 6 before 30", given_pending(20, width=65536, text_count=4), (9, 0)
    yield "30 before 22", given_pending(20, listing=3), (30, 0)
    yield "6 before 30 and 22", given_pending(20, width=65536, listing=3), (6, 0)
    yield "22 with a pending area just long enough", given_pending(21, listing=3), (22, 0)
    yield "22 with a pending area far too long", given_pending(400, listing=0), (22, 0)
    yield "listing area just long enough, pending too", given_pending(21, listing=4), (0, 0)
    deep = [(0, 0, 1, 1, 1, 1, 0)] + [(4, 0, 0, n, 1, 1, 0) for n in range(2, 16385)]
    yield "16,384 rows in each other", given_pending(49152, rows=deep, text_count=1), (0, 0)
    yield "16,384 rows in each other, pending area a word short", given_pending(49151, rows=deep, text_count=1), (30, 0)


def compared(first, second, pool=None):
    """Two rows of the base pool, or of another."""
    return product.Call(product.COMPARE, *(pool or base().pool()), first, 0, 0, (0, 0, 0), second=second)


def comparisons():
    """Rows that are missing; 5 after 1 to 4."""
    rows = len(base().tables[EXPRS])
    yield "two rows that are there", compared(0, rows - 1), (0, 0)
    yield "a row with itself", compared(rows - 1, rows - 1), (0, 0)
    for missing in (rows, rows + 1, 65535, 65536, 1 << 31, (1 << 32) - 1):
        yield "the first row missing, %d" % missing, compared(missing, 0), (5, 0)
        yield "the second row missing, %d" % missing, compared(0, missing), (5, 0)
        yield "both rows missing, %d" % missing, compared(missing, missing), (5, 0)
    yield "rows of a pool without expressions", compared(0, 0, (b"", [0] * 8)), (5, 0)
    area, words = base().pool()
    yield "a missing row of a pool with a word too many", compared(rows, 0, (area, words + [0])), (1, 0)
    b = base()
    at = b.append(EXPRS, (10, 0, 0, 0, 0, 0, 1, 0))
    yield "a faulty row above both", compared(0, 1, b.pool()), (4, at)
    yield "a faulty row above both, and one missing", compared(0, at + 1, b.pool()), (4, at)
    b = base()
    b.tables[STRINGS][1] = (99, 1)
    yield "a faulty string, and both rows missing", compared(99, 99, b.pool()), (3, 1)
    full = [0, 0, 0, 0, 0, 65536, 0, 0] + [0, 0, 0, 0, 0, 0, 1, 1] * 65536
    yield "the last of 65,536 rows", compared(65535, 65535, (b"", full)), (0, 0)
    yield "one past the last of 65,536 rows", compared(65535, 65536, (b"", full)), (5, 0)


def cases():
    for part in (counts_and_strings, names_levels_lists, expressions_declarations, notation_rules, notation_names, notation_order, prints,
                 operators, names, documents, pending_areas, comparisons):
        yield from part()


def others_of_refused():
    """Whatever check refuses, both prints and the comparison of two rows refuse with the same number and place."""
    for title, call, expected in cases():
        if call.mode == product.CHECK and expected[0]:
            for mode in (0, 1):
                yield "print, mode %d: %s" % (mode, title), call._replace(mode=mode, indent=2, width=80, lengths=(15, 5, 9)), expected
            for rows in ((0, 0), (1, 0), (0, 65536)):
                yield "rows %d and %d: %s" % (*rows, title), call._replace(mode=product.COMPARE, root=rows[0], second=rows[1]), expected


def laid_out_pending():
    """Each document that is laid out, with pending areas just long enough, a word short, none and longer: the answer is that of the layout without one, or 30 in
    its place among them."""
    for title, call, expected in documents():
        exact = 3 * call.lengths[0]
        for words in {exact, max(exact - 1, 0), 0, exact + 50}:
            number = expected if expected[0] in (9, 6) or words >= exact else (30, 0)
            yield "pending area of %d words: %s" % (words, title), call._replace(mode=product.PENDING, pending=words), number


def handed_out():
    """Of each pool that is checked and each document that is laid out, the first rows and some that are not there: nothing is refused."""
    for title, call, _ in cases():
        if call.mode == product.CHECK:
            for row in (0, 1, 2, 65535, 65536):
                yield "hand out string %d: %s" % (row, title), call._replace(mode=product.STRING, root=row), (0, 0)
        elif call.mode == 2:
            for row in (*range(9), 16384, 1 << 31):
                yield "hand out text %d: %s" % (row, title), call._replace(mode=product.TEXT, root=row), (0, 0)


def areas_hold(call, answer):
    """Whether the areas are as 01 and 02 say of the number; a success and 22 against a print in long areas, or against the layout without a pending area."""
    if call.mode == product.PENDING:
        return pending_holds(call, answer)
    if call.mode >= 2:
        return True
    rows, text, listing = answer.areas
    untouched = lambda a, fill: all(x == fill for x in a)
    if answer.number in (1, 2, 3, 4, 31, 5, 6):
        return untouched(rows, product.FILL * 0x01010101) and untouched(text, product.FILL) and untouched(listing, product.FILL)
    if answer.number in (7, 8, 20, 21):
        return not any(rows) and not any(text) and untouched(listing, product.FILL)
    full = product.by_model(call._replace(lengths=(7 * 16384, 65536, 1 << 17)))
    length = min(full.counts[2], len(listing))
    past = all(x == product.FILL for x in listing[length:])
    return listing[:length] == full.areas.listing[:length] and past and rows == full.areas.rows[:len(rows)] and text == full.areas.text[:len(text)]


def pending_holds(call, answer):
    pending, _, listing = answer.areas
    if answer.number in (9, 6, 30):
        return set(pending) <= {product.FILL * 0x01010101} and set(listing) <= {product.FILL}
    first = product.by_model(call._replace(mode=2))
    return not any(pending) and (answer.number, answer.counts, listing) == (first.number, first.counts, first.areas.listing)


def judged(program=None):
    """(good, what) for each case by the model and, if there is a program, by the product: there the areas and counts are the model's too."""
    chosen = list(cases()) + list(laid_out_pending())
    by_model = [product.by_model(call) for _, call, _ in chosen]
    for (title, call, expected), answer in zip(chosen, by_model):
        yield answer[:2] == expected and areas_hold(call, answer), "by the model: %s: %r, expected %r" % (title, answer[:3], expected)
    if program:
        more = list(others_of_refused()) + list(handed_out())
        chosen, by_model = chosen + more, by_model + [product.by_model(call) for _, call, _ in more]
        for (title, call, expected), known, answer in zip(chosen, by_model, product.call(program, [call for _, call, _ in chosen])):
            what = "by the product: %s: %r, expected %r" % (title, answer.fault or answer[:3], expected)
            yield answer[:2] == expected and answer == known, what


if __name__ == "__main__":
    program, why = product.build()
    if program is None:
        print("No comparison with the product: %s." % why)
    results = list(judged(program))
    for good, what in results:
        if not good:
            print("FAILED:", what)
    failed = sum(not good for good, _ in results)
    print("%d passed, %d failed" % (len(results) - failed, failed))
    raise SystemExit(bool(failed))
