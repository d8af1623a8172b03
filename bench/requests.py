"""Writes what bench/prints.rs prints: requests as differential/README.md has them (NAME.req) and a title for each (NAME.txt).

    requests.py FOLDER
"""
import os
import sys

sys.path.insert(0, os.path.join(os.path.dirname(os.path.abspath(__file__)), "..", "differential"))
import model
import record
import rust
from pools import EXPRS, IMPLICIT, INSTANCE, LEVELS, LISTS, WORDS, Builder, apply, const, of_declar, of_expr
from specimens import doubled, lam, pi, sort, succ, var

EXPRESSION, DECLARATION = 0, 1
C, F = const("C"), const("f")


def expression(title, tree, width=80):
    area, words, root = of_expr(tree)
    return title, rust.Request(EXPRESSION, root, 2, width, area, words)


def declaration(title, tree, width=80):
    area, words, root = of_declar(tree)
    return title, rust.Request(DECLARATION, root, 2, width, area, words)


def corpus():
    """All recorded prints; the title says what they are."""
    for r in record.read():
        for p in r.prints:
            kind = "declaration" if p.mode else "expression"
            yield "%s %d" % (kind, p.counts[0]), rust.Request(p.mode, p.root, p.indent, p.width, r.area, r.words)


# ---- documents of about 16,000 rows

def chain(make, count, body, type_of):
    e = body
    for i in range(count - 1, -1, -1):
        e = make("x%d" % i, type_of(i), e)
    return e


def lets(count):
    e = C
    for i in range(count):
        e = ("let", ("v%d" % i,), C, ("nat", str(i)), apply(F, e, var(0)) if i % 50 == 0 else e, 0)
    return e


def whole(parts):
    return apply(F, *parts)


def documents():
    spine = lambda k: apply(const("g%d" % k), *(const("a%d" % i) for i in range(240)))
    foralls = lambda k: chain(pi, 120, apply(const("P"), *(var(i) for i in range(120))), lambda i: const("T%d" % (i % 7 + k)))
    dependent = lambda k: chain(lam, 60, var(0), lambda i: apply(const("T%d" % k), *(var(j) for j in range(min(i, 4)))))
    equal = lambda k: chain(lam, 230, var(0), lambda i: apply(const("T%d" % k), const("a"), const("b")))
    arrows = lambda k: chain(pi, 200, C, lambda i: apply(const("T%d" % (i + k)), const("a")))
    made = [("applications of 240 arguments, 8 of them", whole([spine(k) for k in range(8)])),
            ("foralls over 120 variables, 4 chains", whole([foralls(k) for k in range(4)])),
            ("lambdas of types over the variables before, 5 chains of 60", whole([dependent(k) for k in range(5)])),
            ("lambdas of equal types, 230 each, 13 chains", whole([equal(k) for k in range(13)])),
            ("arrows, 200 each, 3 chains", whole([arrows(k) for k in range(3)])),
            ("lets, 200 each, 2 chains", whole([lets(200) for k in range(2)])),
            ("c applied to itself, doubled 10 times, in 13 rows", whole([self_applied(10, C)]))]
    for title, tree in made:
        title, q = expression(title, tree)
        yield title, printable(title, q)


# ---- operators

SIGNS = ((0, ("neg",), 75, "-"), (1, ("add",), 65, "+"), (2, ("fact",), 80, "!"))
NEG, ADD, FACT = const("neg"), const("add"), const("fact")
# operators that nothing uses, their names in rows of their own
UNUSED = tuple((1, ("unused%d" % i,), 1 + i % 1023, "+") for i in range(60000))


def requested(mode, tree, notation, width=80):
    """An expression or a declaration of a pool with these notation rows."""
    b = Builder()
    root = b.expr(tree) if mode == EXPRESSION else b.declar(*tree)
    for row in notation:
        b.notation(*row)
    return rust.Request(mode, root, 2, width, *b.pool())


def sums(terms):
    """A sum of so many terms that are sums on the left, plus one of as many that are sums on the right."""
    left = right = const("a")
    for i in range(terms - 1):
        left, right = apply(ADD, left, const("l%d" % i)), apply(ADD, const("r%d" % i), right)
    return apply(ADD, left, right)


def signs(count):
    e = C
    for _ in range(count):
        e = apply(NEG, e)
    return e


def tiled_sums(k):
    return apply(const("g%d" % k), *(apply(ADD, const("a%d" % i), const("b%d" % i)) for i in range(160)))


def operators():
    """Each with its operators, without notation rows, and with 60,000 notation rows more."""
    made = [("prefix operators, 255 deep", signs(255)),
            ("a sum of two sums of 120 terms, one on each side", sums(120)),
            ("applications of 160 sums, 3 of them", whole([tiled_sums(k) for k in range(3)]))]
    for title, tree in made:
        for more, notation in (("", SIGNS), ("; no notation row", ()), ("; 60,000 notation rows more", UNUSED + SIGNS)):
            yield title + more, printable(title, requested(EXPRESSION, tree, notation))


# ---- groups of binders whose types share a long front and part in the last argument

def parting(count, arguments, share, of=lambda i: const("a")):
    """fun (x : T a .. a b0) (x : T a .. a b1) ..: so many types, each with so many equal arguments before the one that is its own. Types of separate rows share
    nothing."""
    b = Builder(share)
    return b, chain(lam, count, C, lambda i: apply(const("T"), *[of(i)] * arguments, const("b%d" % i)))


def doubling_front(b, count, doublings):
    """Such types whose equal part is one argument, `fun (x x : T) => c` nested so deep: far larger as a tree than as it is listed."""
    c, fronts = doubling_types(b, doublings, count)
    row, name = c, b.name(("x",))
    for i in reversed(range(count)):
        of = applied_row(b, b.expr(const("T")), fronts[i], b.expr(const("b%d" % i)))
        row = b.row(5, (name, 0, of, row), (of,), row)
    return rust.Request(EXPRESSION, row, 2, 80, *b.pool())


def applied_row(b, head, *arguments):
    for a in arguments:
        head = b.row(3, (head, a), (head, a))
    return head


def groups():
    """A document has room for some 2,000 arguments, so the more types, the fewer arguments."""
    made = []
    for count, arguments in ((100, 16), (50, 36), (10, 190)):
        for share, rows in ((True, "shared rows"), (False, "separate rows")):
            b, tree = parting(count, arguments, share)
            made.append(("%d types of %d equal arguments and one of their own, %s" % (count, arguments, rows), b, tree))
        b, tree = parting(count, arguments + arguments // 4, True, lambda i: var(i))
        made.append(("%d types of %d arguments that are equal after lifting and one of their own" % (count, arguments + arguments // 4), b, tree))
    for title, b, tree in made:
        root = b.expr(tree)
        yield title, printable(title, rust.Request(EXPRESSION, root, 2, 80, *b.pool()))
    for count, doublings in ((50, 6), (20, 15)):
        title = "%d types over `fun (x x : T) => c` nested %d deep, rows of their own, and an argument of their own" % (count, doublings)
        yield title, printable(title, doubling_front(Builder(False), count, doublings))


def printable(title, q):
    """The request, which is accepted and whose document is within the limits."""
    pool = model.Pool(q.area, q.words)
    assert pool.fault == (0, 0), (title, pool.fault)
    rows, text = model.rows_of(model.document(pool, q.mode, q.root, q.indent))
    assert text is not None, (title, rows)
    return q


# ---- small declarations

def declarations():
    u = ("param", ("u",))
    lemma = pi("x", const("Nat"), pi("y", const("Nat"), pi("a", apply(const("Pos"), var(1)), pi("b", apply(const("Even"), var(1)), apply(
        const("And"), apply(const("Pos"), apply(const("add"), var(3), var(2))), apply(const("Le"), var(3), apply(const("mul"), var(3), var(2))))))))
    proof = lam("x", const("Nat"), lam("y", const("Nat"), lam("a", apply(const("Pos"), var(1)), lam("b", apply(const("Even"), var(1)), apply(
        const("And.intro"), apply(const("pos"), var(3), var(2), var(1), var(0)), apply(const("le"), var(3), var(2)))))))
    yield declaration("axiom k : @C", (0, ("k",), (), C, None))
    yield declaration("def k.{u} (a : Sort u) : Sort u := a", (3, ("k",), (u,), pi("a", sort(u), sort(u)), lam("a", sort(u), var(0))))
    yield declaration("a theorem of four hypotheses", (2, ("Register", "cross"), (), lemma, proof))
    yield declaration("the same at width 20", (2, ("Register", "cross"), (), lemma, proof), 20)
    yield declaration("constructor k.{u} {a : Sort u} : a -> C", (6, ("k",), (u,), pi("a", sort(u), pi("", var(0), C), IMPLICIT), None))


# ---- pools whose trees are far larger than their rows

def self_applied(times, leaf):
    for _ in range(times):
        leaf = ("app", leaf, leaf)
    return leaf


def level_tower(b, height):
    """`max l l` so often over zero: a row for each step, and none of an earlier tower."""
    row = b.append(LEVELS, (0, 0, 0))
    for _ in range(height):
        row = b.append(LEVELS, (2, row, row))
    return row


def constants_of_towers(separate):
    """fun (a : C.{l}) (b : C.{l}) => c, the lists in rows of their own, the levels in the same rows or in others."""
    b = Builder()
    name, first = b.name(("C",)), level_tower(b, 62)
    types = []
    for level in (first, level_tower(b, 62) if separate else first):
        at = b.append(LISTS, (len(b.tables[WORDS]), 1))
        b.append(WORDS, (level,))
        types.append(b.append(EXPRS, (2, name, at, 0, 0, 0, 1, 0)))
    body = b.expr(const("c"))
    inner = b.append(EXPRS, (5, b.name(("b",)), 0, types[1], body, 0, 2, 0))
    root = b.append(EXPRS, (5, b.name(("a",)), 0, types[0], inner, 0, 3, 0))
    return rust.Request(EXPRESSION, root, 2, 80, *b.pool())


def closed_pairs(n):
    """`fun (a b : T) => c` with T the term before, a closed one."""
    e = C
    for _ in range(n):
        e = lam("a", e, lam("b", e, const("c")))
    return e


def layers(count):
    """Layers of two rows, an application and a lambda, each over both rows of the layer below, under a pi that has to know whether its variable occurs: a row
    stands under as many different numbers of binders as there are layers above it."""
    first, second = var(300), var(301)
    for i in range(count):
        applied, bound = ("app", first, second), lam("x", second, first)
        first, second = (applied, bound) if i % 2 else (lam("x", first, second), ("app", second, first))
    return pi("n", C, first)


def neighbours(i, wide):
    return i, min(i + 1, wide - 1)


def twice(i, wide):
    return 2 * i % wide, (2 * i + 1) % wide


def lambda_layers(b, count, wide, leaf, below):
    """The top one of so many layers of lambdas, each over two rows of the layer below; the lowest are variables."""
    name, rows = b.name(("x",)), [b.expr(var(leaf + i)) for i in range(wide)]
    for _ in range(count):
        pairs = [(rows[below(i, wide)[0]], rows[below(i, wide)[1]]) for i in range(wide)]
        rows = [b.row(5, (name, 0, of, body), (of,), body) for of, body in pairs]
    return rows


def lambdas_under_a_pi(count, wide, below):
    b = Builder(False)
    c, body = b.expr(C), lambda_layers(b, count, wide, 300, below)[0]
    root = b.row(4, (b.name(("n",)), 0, c, body), (c,), body)
    return rust.Request(EXPRESSION, root, 2, 80, *b.pool())


def two_lambdas(first, second, b):
    """fun (a : first) (b : second) => c"""
    c = b.expr(C)
    inner = b.row(5, (b.name(("b",)), 0, second, c), (second,), c)
    return rust.Request(EXPRESSION, b.row(5, (b.name(("a",)), 0, first, inner), (first,), inner), 2, 80, *b.pool())


def separate_layers(count, wide, below):
    """The two types in rows of their own: the second's variables are one higher."""
    b = Builder(False)
    first = lambda_layers(b, count, wide, 300, below)[0]
    return two_lambdas(first, lambda_layers(b, count, wide, 301, below)[0], b)


def neighbour_layers(count):
    """The two types are neighbours of one layer: each layer has rows enough that no edge is met."""
    b = Builder(False)
    top = lambda_layers(b, count, count + 2, 300, neighbours)
    return two_lambdas(top[0], top[1], b)


def level_layers(count, wide):
    """fun (a : Sort l) (b : Sort l) => c over layers of `max`, the second in rows of their own."""
    b, types = Builder(False), []
    for _ in range(2):
        rows = [b.append(LEVELS, (4, b.name(("u%d" % i,)), 0)) for i in range(wide)]
        for _ in range(count):
            rows = [b.append(LEVELS, (2, rows[twice(i, wide)[0]], rows[twice(i, wide)[1]])) for i in range(wide)]
        types.append(b.row(1, (rows[0],)))
    return two_lambdas(types[0], types[1], b)


def doubling_types(b, doublings, count):
    """So many types, each the one before lifted by one: `fun (x x : T) => c` over the type below, a loose variable at the bottom. The second of two equal types is
    not shown, so that the tree doubles and the listing does not."""
    c, name, rows = b.expr(const("c")), b.name(("x",)), [b.expr(var(300 + i)) for i in range(doublings + count)]
    for _ in range(doublings):
        inner = [b.row(5, (name, 0, of, c), (of,), c) for of in rows[1:]]
        rows = [b.row(5, (name, 0, of, body), (of,), body) for of, body in zip(rows, inner)]
    return c, rows


def applied(b, head, row, copies):
    """A constant applied to so many copies of a row."""
    for _ in range(copies):
        head = b.row(3, (head, row), (head, row))
    return rust.Request(EXPRESSION, head, 2, 80, *b.pool())


def padded(rows):
    """A builder with so many constants that nothing names."""
    b = Builder(False)
    row = b.tables[EXPRS][b.expr(C)]
    for _ in range(rows):
        b.append(EXPRS, row)
    return b


def names_over_doublings(doublings, count, copies):
    """Lambdas with no name over such a type: each asks whether its variable occurs in what follows it."""
    b = padded(50000)
    c, types = doubling_types(b, doublings, 1)
    row, name = types[0], b.name(())
    for _ in range(count):
        row = b.row(5, (name, 0, c, row), (c,), row)
    return applied(b, c, row, copies)


def group_of_doublings(doublings, count, copies):
    """A group of so many lambdas whose types are equal after lifting, each in rows of its own."""
    b = padded(40000)
    c, types = doubling_types(b, doublings, count)
    row, name = c, b.name(("x",))
    for of in reversed(types):
        row = b.row(5, (name, 0, of, row), (of,), row)
    return applied(b, c, row, copies)


def lists_of_towers(count):
    """fun (a : C) (b : C) => c, where the constants' lists have so many levels, `max l l` 62 deep, of two towers in turn."""
    b = Builder(False)
    for _ in range(60000):
        b.append(LEVELS, (0, 0, 0))
    towers = [level_tower(b, 62), level_tower(b, 62)]
    for i in range(count + 1):
        b.append(WORDS, (towers[i % 2],))
    lists = [b.append(LISTS, (i, count)) for i in range(2)]
    first, second = [b.row(2, (b.name(("C",)), at)) for at in lists]
    return two_lambdas(first, second, b)


def separate_lambdas(n):
    """fun (a : X) (b : X) => c over X = `app x x` n deep, the second X in rows of its own and its variable lifted by one."""
    return lam("a", self_applied(n, var(0)), lam("b", self_applied(n, var(1)), const("c")))


def pools():
    yield "two constants with `max l l` 62 deep in their lists, shared rows", constants_of_towers(False)
    yield "the same, separate rows", constants_of_towers(True)
    yield expression("`fun (a b : T) => c` nested 127 deep, T closed", closed_pairs(127))
    yield expression("the same over a loose variable", doubled(127))
    yield expression("`fun (a : T v) (b : T (v+1)) => c` nested 100 deep over open terms", doubled(100))
    for n in (60, 200):
        yield expression("an arrow over `app x x` nested %d deep, a variable loose" % n, pi("n", C, self_applied(n, var(1))))
        yield expression("two lambdas over `app x x` nested %d deep, a variable loose" % n, separate_lambdas(n))
    for n in (30, 45, 60, 120, 240):
        yield expression("%d layers of an application and a lambda, each over both of the layer below, under a pi" % n, layers(n))
    for wide in (2, 16, 250):
        for below, over in ((neighbours, "two neighbours"), (twice, "the rows 2i and 2i + 1")):
            yield "250 layers of %d lambdas, each over %s of the layer below, under a pi" % (wide, over), lambdas_under_a_pi(250, wide, below)
    for wide in (2, 16, 125):
        for below, over in ((neighbours, "two neighbours"), (twice, "the rows 2i and 2i + 1")):
            yield "250 layers of %d lambdas over %s as two lambdas' types, rows of their own" % (wide, over), separate_layers(250, wide, below)
    yield "250 layers of 252 lambdas over two neighbours, two of the top layer as two lambdas' types", neighbour_layers(250)
    for wide in (2, 500):
        yield "62 layers of %d levels `max`, over the rows 2i and 2i + 1, in two lambdas' sorts, rows of their own" % wide, level_layers(62, wide)
    yield "8 times 210 lambdas without names over `fun (x x : T) => c` nested 17 deep, a variable loose", names_over_doublings(17, 210, 8)
    yield "8 groups of 200 lambdas of types `fun (x x : T) => c` nested 17 deep, rows of their own", group_of_doublings(17, 200, 8)
    yield "4 groups of 125 lambdas of such types nested 60 deep", group_of_doublings(60, 125, 4)
    yield "two constants with lists of 65,000 levels `max l l` 62 deep, separate rows", lists_of_towers(65000)
    for letter, marks in (("x", "plain"), (" ", "in marks")):
        long = ("const", (letter * (1 << 24),) * 63, ())
        yield expression("a constant applied to itself 255 times, its name 63 components of 16 MiB, %s" % marks, apply(long, *[long] * 255))


# ---- two rows compared: they stand where a print's root and indent do

def pair(b, first, second):
    return rust.Request(EXPRESSION, first, second, 0, *b.pool())


def pair_of_trees(first, second):
    b = Builder(False)
    return pair(b, b.expr(first), b.expr(second))


def application_layers(b, count, wide, leaves, below):
    """As lambda_layers, of applications over these leaves in turn."""
    rows = [b.expr(leaves[i % len(leaves)]) for i in range(wide)]
    for _ in range(count):
        rows = [applied_row(b, rows[below(i, wide)[0]], rows[below(i, wide)[1]]) for i in range(wide)]
    return rows


def layered(wide, first, second, leaves=(C,), others=(C,)):
    b = Builder(False)
    return pair(b, application_layers(b, 250, wide, leaves, first)[0], application_layers(b, 250, wide, others, second)[0])


def behind_fronts(first, second):
    """The same 250 layers of four rows, behind these two functions."""
    b = Builder(False)
    tops = [application_layers(b, 250, 4, (C,), twice)[0] for _ in range(2)]
    return pair(b, *(applied_row(b, b.expr(front), top) for front, top in zip((first, second), tops)))


def another_head(count):
    """Two heads, each applied to `c`, to `c` applied to itself, and so on: the heads are met last, after all that is equal."""
    b = Builder(False)
    tops, parts = [b.expr(F), b.expr(C)], [b.expr(const("c")), b.expr(const("c"))]
    for _ in range(count):
        tops = [applied_row(b, top, part) for top, part in zip(tops, parts)]
        parts = [applied_row(b, part, part) for part in parts]
    return pair(b, *tops)


def level_sorts(wide):
    b = Builder(False)
    rows = []
    for _ in range(2):
        levels = [b.append(LEVELS, (4, b.name(("u%d" % i,)), 0)) for i in range(wide)]
        for _ in range(62):
            levels = [b.append(LEVELS, (2, levels[twice(i, wide)[0]], levels[twice(i, wide)[1]])) for i in range(wide)]
        rows.append(b.row(1, (levels[0],)))
    return pair(b, *rows)


def strings_of(length):
    b = Builder(False)
    return pair(b, *(b.expr(("str", "a" * length)) for _ in range(2)))


def comparisons():
    spine = lambda head, last: apply(const(head), *[const("a")] * 200, const(last))
    yield "constants, the same name", pair_of_trees(C, C)
    yield "200 equal arguments and one more, equal", pair_of_trees(spine("f", "b"), spine("f", "b"))
    yield "the same, parting in the last argument", pair_of_trees(spine("f", "b"), spine("f", "c"))
    yield "the same, parting in the function", pair_of_trees(spine("f", "b"), spine("g", "b"))
    yield "200 lambdas, parting in the body", pair_of_trees(chain(lam, 200, C, lambda i: F), chain(lam, 200, F, lambda i: F))
    yield "200 lambdas, parting in the first type", pair_of_trees(chain(lam, 200, C, lambda i: F), chain(lam, 200, C, lambda i: F if i else C))
    yield "c applied to itself, doubled 255 times", pair_of_shared(255)
    yield "250 layers of 4 applications over the rows 2i and 2i + 1, equal", layered(4, twice, twice)
    yield "the same, one over two neighbours", layered(4, twice, neighbours)
    yield "the same, another leaf: the first of the four", layered(4, twice, twice, (C, F, C, F), (const("d"), F, C, F))
    yield "the same, equal, behind different functions", behind_fronts(C, F)
    yield "two heads, each applied to `c` doubled 0 to 249 times", another_head(250)
    yield "250 layers of 125 applications over the rows 2i and 2i + 1, equal", layered(125, twice, twice)
    yield "the same, one over two neighbours", layered(125, twice, neighbours)
    yield "sorts of 62 layers of 500 levels `max`", level_sorts(500)
    yield "string literals of 8 MiB, equal", strings_of(1 << 23)


def pair_of_shared(times):
    """Each tree in rows that are shared within it."""
    b, rows = Builder(False), []
    for _ in range(2):
        row = b.expr(const("c"))
        for _ in range(times):
            row = applied_row(b, row, row)
        rows.append(row)
    return pair(b, *rows)


def compared_stacks():
    """The deepest trees of each shape, in rows of their own, and layers."""
    for title, hole in HOLES:
        b = Builder(True)
        first = b.expr(deepest(hole))
        b.known.clear()
        b.done.clear()
        yield title, pair(b, first, b.expr(deepest(hole)))
    yield "250 layers of 4 applications", layered(4, twice, neighbours)
    yield "250 layers of 125 applications", layered(125, twice, neighbours)


# ---- the deepest trees

HOLES = (
    ("an argument", lambda e: ("app", F, e)),
    ("a head", lambda e: ("app", e, C)),
    ("an arrow's type", lambda e: pi("x", e, C)),
    ("a forall's type", lambda e: pi("x", e, apply(const("P"), var(0)), IMPLICIT)),
    ("an arrow's body", lambda e: pi("x", C, e)),
    ("a forall's body", lambda e: pi("x", C, e, IMPLICIT)),
    ("a lambda's body", lambda e: lam("x", C, e)),
    ("a lambda's type", lambda e: lam("x", e, var(0), INSTANCE)),
    ("a let's type", lambda e: ("let", ("x",), e, C, C, 0)),
    ("a let's value", lambda e: ("let", ("x",), C, e, C, 0)),
    ("a let's body", lambda e: ("let", ("x",), C, C, e, 0)),
    ("a projection", lambda e: ("proj", ("S",), 0, e)),
    ("an argument's lambda", lambda e: ("app", F, lam("x", C, e))),
    ("a lambda's type's argument", lambda e: lam("x", ("app", F, e), var(0))),
    ("a let's value's lambda", lambda e: ("let", ("x",), C, lam("x", C, e), C, 0)),
    ("the type of a group of three", lambda e: lam("x", e, lam("y", e, lam("z", e, C)))),
)
OPERANDS = (
    ("a prefix operator's operand", lambda e: apply(NEG, e)),
    ("an infix operator's left operand", lambda e: apply(ADD, e, C)),
    ("an infix operator's right operand", lambda e: apply(ADD, C, e)),
    ("a postfix operator's operand", lambda e: apply(FACT, e)),
)


def deepest(hole):
    """The deepest term of the shape that is accepted."""
    b, e = Builder(), C
    while True:
        more = hole(e)
        if b.tables[EXPRS][b.expr(more)][6] > 256:
            return e
        e = more


def stacks():
    """Each shape as an expression, as an axiom's type and as a definition's value."""
    for title, hole in HOLES + OPERANDS:
        e, notation = deepest(hole), SIGNS if (title, hole) in OPERANDS else ()
        yield title + "|expression", requested(EXPRESSION, e, notation, 40)
        yield title + "|type", requested(DECLARATION, (0, ("k",), (), e, None), notation, 40)
        yield title + "|value", requested(DECLARATION, (3, ("k",), (), C, e), notation, 40)


def write(folder, name, made):
    made = list(made)
    with open(os.path.join(folder, name + ".req"), "wb") as f:
        f.writelines(rust.encode(q) for _, q in made)
    with open(os.path.join(folder, name + ".txt"), "w") as f:
        f.writelines(title + "\n" for title, _ in made)


def main():
    for made in (corpus, documents, operators, groups, declarations, pools, stacks, comparisons, compared_stacks):
        write(sys.argv[1], made.__name__, made())


if __name__ == "__main__":
    main()
