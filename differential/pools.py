"""Builder of document 01's pools, with the notation rows of 02 (P5): trees in, bytes and words out.

Trees are plain tuples:
  name         tuple of components, str (or bytes) and int; () is anonymous
  level        ("zero",) ("succ", l) ("max", a, b) ("imax", a, b) ("param", name)
  expression   ("var", index) ("sort", level) ("const", name, (level, ...)) ("app", function, argument)
               ("pi", name, style, type, body) ("lam", name, style, type, body)
               ("let", name, type, value, body, nondep) ("proj", type name, index, structure)
               ("nat", digits) ("str", text)
  declaration  (kind, name, (level, ...), type, value or None)
  notation     (kind, name, priority, string), the string as str or bytes
"""
import struct

STRINGS, NAMES, LEVELS, LISTS, WORDS, EXPRS, DECLARS, NOTATION = range(8)
ROW_WORDS = (2, 4, 3, 2, 1, 8, 5, 4)
HEAD_WORDS = len(ROW_WORDS)  # a count for each table
LEVEL_KINDS = ("zero", "succ", "max", "imax", "param")
EXPR_KINDS = ("var", "sort", "const", "app", "pi", "lam", "let", "proj", "nat", "str")
DECLAR_WORDS = ("axiom", "Quotient primitive", "theorem", "def", "opaque", "inductive", "constructor", "recursor")
DEFAULT, IMPLICIT, STRICT, INSTANCE = range(4)
PREFIX, INFIX, POSTFIX = range(3)


def name(text):
    """The name of a dotted text: `a.b.5` has the components "a", "b" and 5."""
    return tuple(int(c) if c.isdigit() else c for c in text.split(".")) if text else ()


def const(text, *levels):
    return ("const", name(text), levels)


def apply(function, *arguments):
    for a in arguments:
        function = ("app", function, a)
    return function


def param(text):
    return ("param", name(text))


def succ(level, times=1):
    for _ in range(times):
        level = ("succ", level)
    return level


class Builder:
    """One pool in the making. `share`: True, equal rows are one row; False, each use gets its own row; or a function without
    arguments that says for each use whether an equal row may serve. `gap`: a function that gives unused bytes before a string."""

    def __init__(self, share=True, gap=None):
        self.bytes = bytearray()
        self.tables = [[] for _ in ROW_WORDS]
        self.known = {}
        self.done = {} if share is True else None
        self.may_share = share if callable(share) else lambda: share
        self.gap = gap or (lambda: b"")

    def append(self, table, row):
        """A new row at the table's end; returns its number."""
        self.tables[table].append(tuple(row))
        return len(self.tables[table]) - 1

    def intern(self, table, row):
        """An equal row if there is one and it may be shared, else a new one."""
        at = self.known.get((table, row))
        if at is None or not self.may_share():
            at = self.known[table, row] = self.append(table, row)
        return at

    def string(self, text):
        data = text.encode() if isinstance(text, str) else bytes(text)
        at = self.known.get((STRINGS, data))
        if at is None or not self.may_share():
            self.bytes += self.gap()
            at = self.known[STRINGS, data] = self.append(STRINGS, (len(self.bytes), len(data)))
            self.bytes += data
        return at

    def name(self, components):
        row = self.intern(NAMES, (0, 0, 0, 0))
        for c in components:
            if isinstance(c, int):
                row = self.intern(NAMES, (2, row, c & 0xFFFFFFFF, c >> 32))
            else:
                row = self.intern(NAMES, (1, row, self.string(c), 0))
        return row

    def once(self, make, tree):
        """`make(tree)`, when all is shared only once for each Python object: a tree may be far larger than its rows."""
        if self.done is None:
            return make(tree)
        if id(tree) not in self.done:
            self.done[id(tree)] = make(tree), tree
        return self.done[id(tree)][0]

    def level(self, tree):
        return self.once(self.new_level, tree)

    def new_level(self, tree):
        kind = LEVEL_KINDS.index(tree[0])
        if kind == 4:
            fields = (self.name(tree[1]),)
        else:
            fields = tuple(self.level(t) for t in tree[1:])
        return self.intern(LEVELS, (kind,) + fields + (0,) * (2 - len(fields)))

    def list(self, levels):
        rows = tuple(self.level(l) for l in levels)
        at = self.known.get((LISTS, rows))
        if at is None or not self.may_share():
            at = self.known[LISTS, rows] = self.append(LISTS, (len(self.tables[WORDS]), len(rows)))
            for r in rows:
                self.append(WORDS, (r,))
        return at

    def expr(self, tree):
        """Children first, then the row with the depth and loose words that follow from theirs."""
        return self.once(lambda t: getattr(self, "row_" + t[0])(*t[1:]), tree)

    def row(self, kind, fields, children=(), bound=None, loose=0):
        """A row of an expression; `bound` is the child (one of `children`) under the binder."""
        table = self.tables[EXPRS]
        depth = 1
        for c in children:
            depth = max(depth, table[c][6] + 1)
            loose = max(loose, table[c][7])
        if bound is not None:
            depth = max(depth, table[bound][6] + 1)
            loose = max(loose, table[bound][7] - 1)
        return self.intern(EXPRS, (kind,) + fields + (0,) * (5 - len(fields)) + (depth, loose))

    def row_var(self, index):
        return self.row(0, (index,), loose=index + 1)

    def row_sort(self, level):
        return self.row(1, (self.level(level),))

    def row_const(self, name, levels):
        return self.row(2, (self.name(name), self.list(levels)))

    def row_app(self, function, argument):
        fields = (self.expr(function), self.expr(argument))
        return self.row(3, fields, fields)

    def row_pi(self, name, style, type, body, kind=4):
        name, type, body = self.name(name), self.expr(type), self.expr(body)
        return self.row(kind, (name, style, type, body), (type,), body)

    def row_lam(self, name, style, type, body):
        return self.row_pi(name, style, type, body, 5)

    def row_let(self, name, type, value, body, nondep):
        name, type, value, body = self.name(name), self.expr(type), self.expr(value), self.expr(body)
        return self.row(6, (name, type, value, body, nondep), (type, value), body)

    def row_proj(self, name, index, structure):
        structure = self.expr(structure)
        return self.row(7, (self.name(name), index, structure), (structure,))

    def row_nat(self, digits):
        return self.row(8, (self.string(digits),))

    def row_str(self, text):
        return self.row(9, (self.string(text),))

    def declar(self, kind, name, levels, type, value=None):
        name, levels, type = self.name(name), self.list(levels), self.expr(type)
        value = self.expr(value) if 2 <= kind <= 4 else 0
        return self.intern(DECLARS, (kind, name, levels, type, value))

    def notation(self, kind, name, priority, string):
        """A row of its own: no name tree may be given twice."""
        return self.append(NOTATION, (self.name(name), kind, priority, self.string(string)))

    def words(self):
        """The eight counts and the tables."""
        out = [len(t) for t in self.tables]
        for t in self.tables:
            for row in t:
                out.extend(row)
        return out

    def pool(self):
        return bytes(self.bytes), self.words()


def of_tree(mode, tree, share=True, notation=()):
    """(bytes, words, root) of one expression, or of one declaration in mode 1, with these notation rows."""
    b = Builder(share)
    root = b.expr(tree) if mode == 0 else b.declar(*tree)
    for row in notation:
        b.notation(*row)
    return b.pool() + (root,)


def of_expr(tree, share=True, notation=()):
    return of_tree(0, tree, share, notation)


def of_declar(tree, share=True, notation=()):
    return of_tree(1, tree, share, notation)


def table(words, number):
    """The rows of a table of a pool whose total is right."""
    start, size = HEAD_WORDS + sum(n * w for n, w in zip(words[:number], ROW_WORDS)), ROW_WORDS[number]
    return [tuple(words[at:at + size]) for at in range(start, start + size * words[number], size)]


def pack(words):
    return struct.pack("<%dI" % len(words), *words)


def unpack(data):
    return list(struct.unpack("<%dI" % (len(data) // 4), data))


def dump(area, words):
    """The pool as text, row by row, without any check."""
    titles = ("strings", "names", "levels", "lists", "list words", "expressions", "declarations", "notation")
    out, at = [], HEAD_WORDS
    for table, title in enumerate(titles):
        out.append("%s: %d" % (title, words[table]))
        for row in range(words[table]):
            fields = words[at:at + ROW_WORDS[table]]
            at += ROW_WORDS[table]
            note = " " + repr(bytes(area[fields[0]:fields[0] + fields[1]])) if table == STRINGS else ""
            if table == EXPRS and fields[0] < 10:
                note = " " + EXPR_KINDS[fields[0]]
            out.append("  %d: %s%s" % (row, " ".join(map(str, fields)), note))
    return "\n".join(out)
