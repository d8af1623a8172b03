"""Two expressions of a pool compared (02, P3): pairs by hand, one for each field and for each order, and pairs made by changing a tree at known places.

What is expected is a place: the words of the rows that lead from each of the two roots to the first pair that differs, or None for equal trees."""
import random
from collections import namedtuple

import model
import product
from generate import Case
from pools import EXPRS, HEAD_WORDS, ROW_WORDS, Builder, apply, const

# Two rows of a pool, and the place where they part.
Pair = namedtuple("Pair", "title area words first second place")
# The words of a row that are its children; the parts of a tree have the same numbers.
CHILDREN = {"app": (1, 2), "pi": (3, 4), "lam": (3, 4), "let": (2, 3, 4), "proj": (3,)}
A, B, C, D, F, G = (const(n) for n in "ABCDfg")
U, V = ("param", ("u",)), ("param", ("v",))


def call(pair, swapped=False):
    rows = (pair.second, pair.first) if swapped else (pair.first, pair.second)
    return product.Call(product.COMPARE, pair.area, pair.words, rows[0], 0, 0, (0, 0, 0), second=rows[1])


def row_at(words, row, place):
    """The row that a place leads to."""
    start = HEAD_WORDS + sum(n * w for n, w in zip(words[:EXPRS], ROW_WORDS))
    for word in place:
        row = words[start + 8 * row + word]
    return row


def expected(pair, swapped=False):
    """What the call is to answer."""
    if pair.place is None:
        return 0, 0, (1, 0, 0)
    a, b = (row_at(pair.words, row, pair.place) for row in (pair.first, pair.second))
    return 0, 0, (0, b, a) if swapped else (0, a, b)


def builder(share, seed=0):
    """As Case.pool: None shares at random."""
    r = random.Random(seed)
    return Builder(share) if share is not None else Builder(lambda: r.random() < 0.5, lambda: r.choice((b"", b"", b"\xff", b"\x80x")))


def of_trees(title, one, other, place, share=False, seed=0):
    b = builder(share, seed)
    first, second = b.expr(one), b.expr(other)
    return Pair(title, *b.pool(), first, second, place)


# ---- by hand

def bound(kind, name="x", style=0, type=A, body=B):
    return (kind, (name,) if name else (), style, type, body)


def let(name="x", type=A, value=C, body=B, nondep=0):
    return ("let", (name,), type, value, body, nondep)


def proj(name="S", index=0, structure=C):
    return ("proj", (name,), index, structure)


def fields():
    """A pair for each field that is no expression."""
    yield "variable", ("var", 0), ("var", 1)
    yield "sort", ("sort", U), ("sort", V)
    yield "sort, number of successors", ("sort", ("succ", U)), ("sort", ("succ", ("succ", U)))
    yield "sort, max and imax", ("sort", ("max", U, V)), ("sort", ("imax", U, V))
    yield "sort, operands", ("sort", ("max", U, V)), ("sort", ("max", V, U))
    yield "constant, name", const("a"), const("b")
    yield "constant, components", const("a.b"), ("const", ("a.b",), ())
    yield "constant, number and digits", const("a.5"), ("const", ("a", "5"), ())
    yield "constant, numbers alike in 32 bits", ("const", (5,), ()), ("const", (5 + (1 << 32),), ())
    yield "constant, anonymous and empty", ("const", (), ()), ("const", ("",), ())
    yield "constant, a level", const("C", U), const("C", V)
    yield "constant, order of levels", const("C", U, V), const("C", V, U)
    yield "constant, number of levels", const("C", U), const("C", U, U)
    yield "constant, no level", const("C"), const("C", U)
    for kind in ("pi", "lam"):
        yield kind + ", name", bound(kind), bound(kind, "y")
        yield kind + ", no name", bound(kind), bound(kind, "")
        for style in (1, 2, 3):
            yield "%s, style %d" % (kind, style), bound(kind), bound(kind, style=style)
    yield "let, name", let(), let("y")
    yield "let, nondep", let(), let(nondep=1)
    yield "projection, type name", proj(), proj("T")
    yield "projection, index", proj(), proj(index=1)
    yield "natural", ("nat", "1"), ("nat", "10")
    yield "string literal", ("str", "ab"), ("str", "aB")
    yield "string literal, empty", ("str", ""), ("str", "a")


def orders():
    """Pairs that differ in more than one place, and where they do first."""
    yield "argument before function", ("app", F, A), ("app", G, B), (2,)
    yield "function, where the arguments are equal", ("app", F, A), ("app", G, A), (1,)
    yield "the last of three arguments", apply(F, A, B, C), apply(G, B, A, D), (2,)
    yield "the second of three arguments", apply(F, A, B, C), apply(G, B, A, C), (1, 2)
    yield "the head", apply(F, A, B, C), apply(G, A, B, C), (1, 1, 1)
    for kind in ("pi", "lam"):
        yield kind + ", body before type", bound(kind), bound(kind, type=C, body=D), (4,)
        yield kind + ", type", bound(kind), bound(kind, type=C), (3,)
        yield kind + ", name before body", bound(kind), bound(kind, "y", body=D), ()
        yield kind + ", style before body and type", bound(kind), bound(kind, style=1, type=C, body=D), ()
    yield "let, body before value and type", let(), let(type=D, value=D, body=D), (4,)
    yield "let, value before type", let(), let(type=D, value=D), (3,)
    yield "let, type", let(), let(type=D), (2,)
    yield "let, nondep before all parts", let(), let(type=D, value=D, body=D, nondep=1), ()
    yield "projection, index before structure", proj(), proj(index=1, structure=D), ()
    yield "projection, structure", proj(), proj(structure=D), (3,)
    yield "kinds before all", bound("pi"), bound("lam", "y", 1, C, D), ()
    yield "far in the last argument before a near front", ("app", F, apply(F, A, ("app", F, A))), ("app", G, apply(F, A, ("app", F, B))), (2, 2, 2)


def layers(b, count, wide, leaves, below):
    """The top one of so many layers of applications, each over two rows of the layer below."""
    rows = [b.expr(leaves[i % len(leaves)]) for i in range(wide)]
    for _ in range(count):
        rows = [b.row(3, fields, fields) for fields in ((rows[x], rows[y]) for x, y in (below(i, wide) for i in range(wide)))]
    return rows[0]


def twice(i, wide):
    return 2 * i % wide, (2 * i + 1) % wide


def turned(i, wide):
    return twice(i, wide)[::-1]


def layered():
    """Trees that are far larger than their rows, in rows of their own."""
    for title, count, one, other in (("250 layers of four rows", 250, twice, twice), ("250 layers put together otherwise", 250, twice, turned)):
        b = Builder(False)
        first, second = layers(b, count, 4, [C], one), layers(b, count, 4, [C], other)
        yield Pair(title, *b.pool(), first, second, None)
        front, behind = b.expr(F), b.expr(G)
        first, second = b.row(3, (front, first), (front, first)), b.row(3, (behind, second), (behind, second))
        yield Pair(title + " behind another front", *b.pool(), first, second, (1,))
    # the leaf that only functions lead to: at each layer the argument is equal
    b = Builder(False)
    same = [b.expr(C), b.expr(C)]
    tops = [b.expr(C), b.expr(D)]
    for _ in range(250):
        tops = [b.row(3, (t, s), (t, s)) for t, s in zip(tops, same)]
        same = [b.row(3, (s, s), (s, s)) for s in same]
    yield Pair("250 layers, another front at the bottom", *b.pool(), *tops, (1,) * 250)


def by_hand():
    for title, one, other in fields():
        for share in (True, False):
            yield of_trees(title, one, other, (), share)
            yield of_trees(title + ", with itself", one, one, None, share)
            yield of_trees(title + ", in an argument and in the head", apply(one, A, one), apply(other, A, other), (2,), share)
            yield of_trees(title + ", in a body and in a type", bound("pi", type=one, body=one), bound("pi", type=other, body=other), (4,), share)
    kinds = [("var", 0), ("sort", U), A, ("app", F, A), bound("pi"), bound("lam"), let(), proj(), ("nat", "1"), ("str", "1")]
    for i, one in enumerate(kinds):
        for j, other in enumerate(kinds):
            yield of_trees("kinds %d and %d" % (i, j), one, other, None if i == j else (), False)
    for title, one, other, place in orders():
        for share in (True, False):
            yield of_trees(title, one, other, place, share)
    yield from layered()


# ---- by changes

def places(tree, at=()):
    """All places of a tree."""
    yield at
    for word in CHILDREN.get(tree[0], ()):
        yield from places(tree[word], at + (word,))


def part_at(tree, place):
    for word in place:
        tree = tree[word]
    return tree


def with_part(tree, place, change):
    if not place:
        return change(tree)
    return tree[:place[0]] + (with_part(tree[place[0]], place[1:], change),) + tree[place[0] + 1:]


def has_projection(mode, tree):
    """Of an expression, or of a declaration in mode 1."""
    return with_index(mode, tree, 0) != with_index(mode, tree, 1)


def with_index(mode, tree, index):
    """The tree of an expression, or of a declaration in mode 1, with this index at each of its projections."""
    if mode == 1:
        return tree[:3] + tuple(t and with_index(0, t, index) for t in tree[3:])
    for place in places(tree):
        if part_at(tree, place)[0] == "proj":
            tree = with_part(tree, place, lambda part: part[:2] + (index,) + part[3:])
    return tree


def other_name(r, name):
    return r.choice((name + ("other",), name + (7,), name[:-1] if name else ("_",)))


def other_level(r, level):
    return r.choice((("succ", level), ("max", level, level))) if level[0] != "max" else ("imax",) + level[1:]


def other_levels(r, levels):
    if not levels:
        return (U,)
    at = r.randrange(len(levels))
    return r.choice((levels + levels[-1:], levels[:-1], levels[:at] + (other_level(r, levels[at]),) + levels[at + 1:]))


def other_row(r, tree):
    """The tree with its root's kind, or one field of the root that is no expression, changed."""
    kind = tree[0]
    if kind == "var":
        return ("var", r.choice([i for i in (tree[1] - 1, tree[1] + 1) if 0 <= i <= 4095]))
    if kind == "sort":
        return ("sort", other_level(r, tree[1]))
    if kind == "const":
        return r.choice((("const", other_name(r, tree[1]), tree[2]), ("const", tree[1], other_levels(r, tree[2]))))
    if kind == "app":
        return ("proj", ("S",), 0, tree[1])
    if kind in ("pi", "lam"):
        swapped = ("lam" if kind == "pi" else "pi",) + tree[1:]
        return r.choice(((kind, other_name(r, tree[1])) + tree[2:], tree[:2] + ((tree[2] + r.randint(1, 3)) % 4,) + tree[3:], swapped))
    if kind == "let":
        return r.choice((("let", other_name(r, tree[1])) + tree[2:], tree[:5] + (1 - tree[5],)))
    if kind == "proj":
        return r.choice((("proj", other_name(r, tree[1])) + tree[2:], tree[:2] + ((tree[2] + 1) % (model.LAST_PROJECTION + 1),) + tree[3:]))
    return ("nat", tree[1] + "1" if tree[1] != "0" else "1") if kind == "nat" else ("str", tree[1] + r.choice("ab"))


def changed(r, tree, count):
    """The tree changed in so many places, or fewer, and the first of them: a row before its children, and these last field first."""
    chosen = {r.choice(list(places(tree))) for _ in range(count)}
    # what is deeper first, since a change of kind takes parts away
    for place in sorted(chosen, key=len, reverse=True):
        tree = with_part(tree, place, lambda part: other_row(r, part))
    return tree, min(chosen, key=lambda place: [-word for word in place]) if chosen else None


def by_changes(seed, count):
    """Trees of the generator against themselves changed in none to three places, in pools shared, unshared and mixed."""
    for number in range(count):
        r = random.Random(seed * 1000003 + number)
        trees = [tree if mode == 0 else tree[3] for mode, tree in Case(seed * 1000003 + number).trees]
        tree = r.choice(trees)
        other, place = changed(r, tree, (0, 1, 1, 2, 3)[number % 5])
        yield of_trees("seed %d, number %d" % (seed, number), tree, other, place, (True, False, None)[number % 3], number)


def by_rows(pool, most, seed):
    """Pairs of rows of a pool that is accepted, most of one kind and depth: nothing is known of the place."""
    r, alike = random.Random(seed), {}
    for e in pool.exprs:
        alike.setdefault((e.kind, e.depth), []).append(e.row)
    near = [(a, b) for rows in alike.values() for a in rows for b in rows]
    return r.sample(near, min(most, len(near))) + [(r.randrange(len(pool.exprs)), r.randrange(len(pool.exprs))) for _ in range(most // 8)]


def by_trees(a, b):
    """The first pair that differs, told by the numbers that equal trees have in common: of unequal trees the last child that is not equal leads on,
    if the rows differ in nothing else."""
    while a.tree != b.tree:
        unequal = [(x, y) for x, y in zip(a.fields, b.fields) if model.key_of(x) != model.key_of(y)]
        if a.kind != b.kind or a.kind == model.SORT or not all(isinstance(x, model.Node) for x, _ in unequal):
            return a.row, b.row
        a, b = unequal[-1]
    return None
