"""Pools with infix rows for the published Rust, which lists the operands of an infix operator the other way round (docs/DIFFERENCES.md, 6):
it is given the same trees with these operands turned, and has to print what 02 says of the pool itself."""
from functools import lru_cache

import model
import rust
from pools import INFIX, NOTATION, apply, of_tree, table


def has_infix(words):
    return any(row[1] == INFIX for row in table(words, NOTATION))


# The parts of a tree that are expressions.
CHILDREN = {"pi": (3, 4), "lam": (3, 4), "let": (2, 3, 4), "proj": (3,)}


def turned(tree, infix):
    """The expression with the two operands of each application of an infix operator the other way round. `infix`: the operators' names."""
    arguments = []
    while tree[0] == "app":
        arguments.insert(0, turned(tree[2], infix))
        tree = tree[1]
    if tree[0] == "const" and tree[1] in infix and len(arguments) == 2:
        arguments.reverse()
    parts = CHILDREN.get(tree[0], ())
    return apply(tuple(turned(part, infix) if at in parts else part for at, part in enumerate(tree)), *arguments)


@lru_cache(maxsize=2)
def pool_of(area, words):
    """The pool, its notation rows as pools.py takes them, and the names of the infix ones."""
    pool = model.Pool(area, words)
    assert pool.fault == (0, 0)
    rows = [(o.kind, model.name_term(name), o.priority, o.string) for name, o in pool.operators.items()]
    return pool, rows, {name for kind, name, _, _ in rows if kind == INFIX}


def request(q):
    """What the Rust is asked instead of a print of an accepted pool: the same where there is no infix row."""
    if q.mode > rust.DECLARATION or not has_infix(q.words):
        return q
    pool, rows, infix = pool_of(bytes(q.area), tuple(q.words))
    if q.mode == rust.EXPRESSION:
        tree = turned(model.expr_term(pool.exprs[q.root]), infix)
    else:
        d = pool.declars[q.root]
        parts = [e and turned(model.expr_term(e), infix) for e in (d.type, d.value)]
        tree = (d.kind, model.name_term(d.name), tuple(model.level_term(l) for l in d.levels), *parts)
    area, words, root = of_tree(q.mode, tree, True, rows)
    return rust.Request(rust.TURNED + q.mode, root, q.indent, q.width, area, words)
