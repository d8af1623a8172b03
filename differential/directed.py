"""Small trees laid out by rule, so that each clause of document 01, and of 02's operators (P5), is met by inputs that show it alone."""
from itertools import product

from generate import LITERALS, ODD, PLAIN, SIGNS
from pools import DEFAULT, IMPLICIT, INFIX, INSTANCE, POSTFIX, PREFIX, STRICT, apply, const

A, B, P = const("A"), const("B"), const("P")
STYLES = (DEFAULT, IMPLICIT, STRICT, INSTANCE)
NAMES = [()] + [(n,) for n in PLAIN + ODD] + [
    ("a", "b"), ("a", 5), (5,), (5, 6), ("a", 0, "b"), ("a", (1 << 64) - 1), ("a", 1 << 32), ("",), ("", "a"), ("a", ""), ("", ""),
    ("", 3),
    ("_hyg",), ("_hyg", 3), ("x", "_@", "Mod", 5, "_hyg", 12), ("a", "_hyg", "b"), ("_hyg", "x", 4), ("b c", "_hyg", 7), ("_hyg",) * 3,
    ("a",) * 63, ("_@", "_@"), ("a", "b c"), ("b c", "a"), ("a", "b c", 4), ("b c", "d e"), ("", "b c"), ("b c", "", 5), (5, "b c")]


def var(index):
    return ("var", index)


def pi(name, style, type, body):
    return ("pi", name, style, type, body)


def lam(name, style, type, body):
    return ("lam", name, style, type, body)


def names():
    """Each name as a constant, a lambda's, a pi's with and without occurrence, a let's, and a parameter's."""
    for n in NAMES:
        yield 0, apply(("const", n, ()), ("sort", ("param", n)))
        yield 0, lam(n, DEFAULT, A, var(0))
        yield 0, pi(n, DEFAULT, A, apply(P, var(0)))
        yield 0, pi(n, IMPLICIT, A, ("let", n, A, P, apply(var(0), var(1)), 0))
        yield 1, (3, n, (), pi(n, DEFAULT, A, apply(P, var(0))), lam(("y",), IMPLICIT, B, var(0)))


def levels():
    """Every level of up to two steps over zero and a parameter, in a sort and in a declaration's list."""
    base = [("zero",), ("param", ("u",))]
    one = [("succ", l) for l in base] + [(k, a, b) for k in ("max", "imax") for a in base for b in base]
    two = [("succ", l) for l in one] + [(k, a, b) for k in ("max", "imax") for a in one[:6] for b in base] + [
        (k, b, a) for k in ("max", "imax") for a in one[:6] for b in base]
    for l in base + one + two:
        yield 0, ("sort", l)
    for i in range(0, len(two), 3):
        yield 1, (i % 8, ("k",), tuple(two[i:i + 3]), A, P if 2 <= i % 8 <= 4 else None)


def shapes(scope):
    """One expression of each kind, and of each form that a chain takes."""
    x = var(scope)
    return [x, ("sort", ("succ", ("param", ("u",)))), const("C"), apply(P, x), pi((), DEFAULT, A, B),
            pi(("n",), DEFAULT, A, apply(P, var(0))), pi(("n",), STRICT, A, B), lam(("n",), DEFAULT, A, var(0)),
            ("let", ("v",), A, x, apply(P, var(0)), 0), ("proj", ("S",), 4, x),
            ("nat", "12"), ("str", "s t")]


def places():
    """Each kind of expression in each place that sets an outer level."""
    for e in shapes(3):
        yield 0, apply(e, A)
        yield 0, apply(P, e, e)
        yield 0, ("proj", ("S",), 0, e)
        yield 0, pi((), DEFAULT, e, B)
        yield 0, pi(("x",), IMPLICIT, e, B)
        yield 0, lam(("x",), INSTANCE, e, e)
        yield 0, ("let", ("x",), e, B, A, 0)
        yield 0, ("let", ("x",), A, e, e, 1)
        yield 0, pi((), DEFAULT, A, e)
        yield 0, pi(("x",), IMPLICIT, A, e)
        yield 1, (0, ("k",), (), e, None)
        yield 1, (2, ("k",), (), e, e)


def pairs():
    """Two binders: equal or not in style, in type after lifting, and in what a type does not show."""
    for s, t in product(STYLES, STYLES):
        yield 0, lam(("a",), s, A, lam(("b",), t, A, var(0)))
        yield 0, pi(("a",), s, A, pi(("b",), t, A, apply(P, var(0), var(1))))
    let = lambda nondep: ("let", ("v",), A, B, var(0), nondep)
    types = [("let", ("w",), A, B, var(0), 0), let(0), let(1), ("proj", ("S",), 1, A), ("proj", ("R",), 1, A), const("A", ("zero",)), A,
             const("A", ("succ", ("zero",))), const("A", ("zero",), ("zero",)), lam(("x",), DEFAULT, A, A), lam(("y",), DEFAULT, A, A),
             lam(("x",), IMPLICIT, A, A), var(0), var(1), var(2), apply(P, var(0)), apply(P, var(1)), lam(("x",), DEFAULT, A, var(1)),
             lam(("x",), DEFAULT, A, var(2)), lam(("x",), DEFAULT, A, var(0)), ("sort", ("zero",)), ("sort", ("param", ("u",)))]
    for s, t in product(types, types):
        yield 0, lam(("a",), IMPLICIT, s, lam(("b",), IMPLICIT, t, A))


def plan(roles, first=A):
    """A chain by roles: "f" a pi that occurs, "a" one that does not, "l" a lambda, "i" an implicit pi that does not occur."""
    body = P
    for i, role in enumerate(roles):
        if role == "f":
            body = apply(body, var(len(roles) - 1 - i))
    for i in range(len(roles) - 1, -1, -1):
        style = IMPLICIT if roles[i] == "i" else DEFAULT
        body = ("lam" if roles[i] == "l" else "pi", ("abcd"[i],), style, A if i < 2 else B, body)
    return body


def chains():
    """Every order of up to three roles, as an expression, an axiom, and a definition whose value opens none, some or all."""
    for length in (1, 2, 3):
        for roles in product("fali", repeat=length):
            type = plan(roles)
            yield 0, type
            yield 1, ((0, 1, 5, 6, 7)[length], ("k",), (), type, None)
            for lambdas in range(length + 2):
                value = apply(var(0), var(lambdas), var(9))
                for i in range(lambdas):
                    value = lam(("w", i), DEFAULT, A, value)
                yield 1, ((2, 3, 4)[lambdas % 3], ("k",), (), type, value)


def literals():
    for text in LITERALS:
        yield 0, apply(P, ("str", text), A, ("str", text))


EDGES = (0x21, 0x27, 0x30, 0x3A, 0x3F, 0x41, 0x5B, 0x5F, 0x61, 0x7B, 0x0391, 0x03A0, 0x03A1, 0x03A3, 0x03A4, 0x03A9, 0x03B1, 0x03BB, 0x03BC,
         0x03C9, 0x03CA, 0x03FB, 0x1D62, 0x1D6A, 0x1F00, 0x1FFE, 0x2080, 0x2089, 0x2090, 0x209C, 0x2100, 0x214F, 0xFFFF, 0x10000)


def letters():
    """The characters just before and at each edge of 01's ranges, as first and as second character."""
    for edge in EDGES:
        parts = [("const", (text,), ()) for c in (chr(edge - 1), chr(edge)) for text in (c, "x" + c)]
        yield 0, apply(*parts)


# Operators: a tree with the rows for it. A name says kind and priority.

KINDS = (PREFIX, INFIX, POSTFIX)
EDGE_PRIORITIES = (1, 24, 25, 26, 1022, 1023)


def row(kind, priority, string=None, name=None):
    return kind, name or ("pre", "in", "post")[kind:kind + 1] + (priority,), priority, "-+!"[kind] if string is None else string


def over(notation, *arguments, levels=()):
    return apply(("const", notation[1], levels), *arguments)


def operation(notation, e, other=B):
    """The operator over an operand; if it is infix, with another one on the right."""
    return over(notation, e, other) if notation[0] == INFIX else over(notation, e)


def arguments():
    """Each kind over none to four arguments, with levels and without, the row's string empty or not."""
    for kind in KINDS:
        for string, levels in product(("#", ""), ((), (("zero",), ("param", ("u",))))):
            r = row(kind, 65, string)
            for count in range(5):
                yield 0, over(r, *(A, var(0), P, B)[:count], levels=levels), (r,)


def operands():
    """Each kind of expression as an operand, where it gets parentheses and where it does not; of an infix operator on either side."""
    for kind, priority in product(KINDS, (1, 24, 25, 1023)):
        r = row(kind, priority)
        for e in shapes(3) + [("sort", ("zero",)), over(r, A, B, P)]:
            yield 0, operation(r, e), (r,)
            if kind == INFIX and priority in (1, 1023):
                yield 0, operation(r, B, e), (r,)


def results():
    """The result in each place that sets an outer level, for priorities next to it."""
    for kind, priority in product(KINDS, EDGE_PRIORITIES):
        r = row(kind, priority)
        e = operation(r, A)
        for tree in (apply(e, A), apply(P, e, A), ("proj", ("S",), 0, e), pi((), DEFAULT, e, e), pi(("x",), IMPLICIT, e, B),
                     lam(("x",), INSTANCE, e, e), ("let", ("x",), e, e, e, 0)):
            yield 0, tree, (r,)
        yield 1, (0, ("k",), (), pi(("x",), DEFAULT, e, operation(r, var(0))), None), (r,)
        yield 1, (3, ("k",), (), pi(("x",), DEFAULT, A, e), lam(("y",), DEFAULT, A, operation(r, var(0), var(1)))), (r,)
        yield 1, (2, ("k",), (), e, e), (r,)


def nested():
    """Operators over operators, of equal priority and of one more or less; an infix one under either operand."""
    for (one, other), low in product(product(KINDS, KINDS), (1, 24, 1022)):
        for p, q in ((low, low), (low, low + 1), (low + 1, low)):
            outer, inner = row(one, p, "*"), row(other, q, name=("inner", other))
            yield 0, operation(outer, operation(inner, A)), (outer, inner)
            if one == INFIX:
                yield 0, operation(outer, A, operation(inner, B, P)), (outer, inner)


def signs():
    """Strings of every kind, in an argument and over each other."""
    for string, kind in product(SIGNS + ("-" * 300,), KINDS):
        r = row(kind, 30, string)
        yield 0, apply(P, operation(r, operation(r, A))), (r,)


def operator_names():
    """Operators of every name: an application by it, one by its prefix, and one by a name that differs in a component's kind."""
    for n in [n for n in NAMES if len(n) < 9][::3]:
        r = row(PREFIX, 9, name=n) if n else (PREFIX, (), 9, "-")
        others = [n[:-1], tuple(str(c) if isinstance(c, int) else c for c in n), n + (0,)]
        yield 0, apply(P, over(r, A), *(apply(("const", other, ()), A) for other in others)), (r, row(POSTFIX, 9, name=("a", "5")))
    long = ("a",) * 62
    r = row(PREFIX, 9, name=long + ("b",))
    yield 0, apply(P, over(r, A), apply(("const", long + ("c",), ()), A)), (r,)


def props():
    """The sort of zero, and sorts that are not."""
    zero = ("zero",)
    for level in (zero, ("max", zero, zero), ("imax", zero, zero), ("succ", zero), ("imax", ("param", ("u",)), zero)):
        e = ("sort", level)
        yield 0, apply(e, e)
        yield 0, pi((), DEFAULT, e, ("proj", ("S",), 0, e))
        yield 0, lam(("a",), DEFAULT, e, lam(("b",), DEFAULT, ("sort", zero), e))
        yield 1, (5, ("k",), (level,), e, None)


def operators():
    for part in (arguments, operands, results, nested, signs, operator_names):
        yield from part()


def trees():
    """(mode, tree, notation rows)"""
    for part in (names, levels, places, pairs, chains, literals, letters, props):
        for mode, tree in part():
            yield mode, tree, ()
    yield from operators()
