"""Seeded generator of accepted pools: `Case(seed)` has trees, and `pool(share)` builds them, shared or not, into one pool.

The same seed gives the same trees. Chains are mostly made so that their runs are partitioned (01's domain), some are left free. About a
third of the cases have notation rows (02, P5), most of these without infix ones, which are outside the domain.
"""
import random

from pools import Builder, DEFAULT, IMPLICIT, INFIX, INSTANCE, POSTFIX, PREFIX, STRICT

PLAIN = ("a", "b", "c", "x", "y", "n", "h", "P", "Nat", "List", "inst", "α", "β", "γ", "x₈", "x₁", "ℕ", "ℝ", "a!", "b?", "c'", "_",
         "_x",
         "ϊ", "ϡ", "ἀ", "ᾼ", "Γ", "Δ", "vᵢ", "aₙ", "_@", "mk", "toFun", "Ψ")
ODD = ("b c", "λ", "Π", "Σ", "ω", "Ω", "x₉", "1a", "9", "a.b", "«", "»", "→", "_@x", "a_@", "\n", "tab\there", "é", "日本", "😀",
       "ϻ",
       "\u1ffe", "\u214f", "xₜ", "xᵪ", "x-y", " ", "\x00", "(", "@f", "!a", "'")
NUMBERS = (0, 1, 2, 7, 10, 231, 65535, 1 << 31, (1 << 32) - 1, 1 << 32, (1 << 64) - 1)
LITERALS = ("", "a", "hello", "two\nlines", "\n", "\n\n", "quote\"inside", "tab\t", "→ α", "back\\slash", "日本語",
            "a b c d e f", "\x00", "end\n")
# At the limits, and next to what 01 has for inner and outer levels.
PRIORITIES = (1, 2, 24, 25, 26, 512, 1022, 1023)
SIGNS = ("+", "-", "!", "*", "<=", "++", " + ", "- ", " !", " and also ", "", "→", "⁻¹", "日本", "😀", "@", "(", ")", "a\nb", "\n",
         "an operator of more words")
DIGITS = ("0", "1", "7", "10", "42", "1000000", "18446744073709551616", "9" * 40)


def lifted(tree, amount, cutoff=0):
    """The expression with its loose indices at or above the cutoff grown by the amount."""
    kind = tree[0]
    if kind == "var":
        return ("var", min(tree[1] + amount, 4095)) if tree[1] >= cutoff else tree
    if kind == "app":
        return ("app", lifted(tree[1], amount, cutoff), lifted(tree[2], amount, cutoff))
    if kind in ("pi", "lam"):
        return tree[:3] + (lifted(tree[3], amount, cutoff), lifted(tree[4], amount, cutoff + 1))
    if kind == "let":
        return tree[:2] + (lifted(tree[2], amount, cutoff), lifted(tree[3], amount, cutoff), lifted(tree[4], amount, cutoff + 1), tree[5])
    if kind == "proj":
        return tree[:3] + (lifted(tree[3], amount, cutoff),)
    return tree


class Generator:
    """`operators`: names that applications are made with; without any, the trees are the same as before there was notation."""

    def __init__(self, seed, operators=()):
        self.operators = operators
        self.random = random.Random(seed)
        self.chance = lambda p: self.random.random() < p
        self.pick = self.random.choice

    # names and levels

    def name(self, anonymous=0.06):
        """Every shape of 01's names, plain ones most often."""
        r = self.random.random()
        if r < anonymous:
            return ()
        if r < 0.62:
            return (self.pick(PLAIN),)
        if r < 0.74:
            return tuple(self.pick(PLAIN) for _ in range(self.random.randint(2, 4)))
        if r < 0.80:
            return (self.pick(PLAIN), self.pick(NUMBERS))
        if r < 0.86:
            return self.hygienic()
        if r < 0.95:
            return tuple(self.pick(PLAIN + ODD) for _ in range(self.random.randint(0, 1))) + (self.pick(ODD),)
        return self.pick(((self.pick(NUMBERS),), ("",), ("", "a"), ("a", ""), ("", ""), ("", 3), (1, "a"), ("a", "_hyg", "b"),
                          ("_hyg", "x", 4), (5, 6), ("a", 0, "b"), ("_hyg ",), ("", "", "z")))

    def hygienic(self):
        return self.pick((("_hyg",), ("x", "_@", "Mod", 5, "_hyg", 12), ("a", "_hyg"), ("_hyg", 3), ("h", "_@", "_hyg", 1, 2),
                          ("b c", "_hyg", 7), ("", "_hyg"), (4, "_hyg", 0)))

    def level(self, budget=6):
        kind = self.random.randrange(8)
        if budget <= 1 or kind <= 1:
            return ("zero",) if self.chance(0.3) else ("param", self.name(0.02) if self.chance(0.3) else (self.pick("uvw"),))
        if kind <= 4:
            return ("succ", self.level(budget - 1))
        half = budget // 2
        return (self.pick(("max", "imax")), self.level(half), self.level(half))

    def levels(self):
        return tuple(self.level(4) for _ in range(self.pick((0, 0, 0, 1, 1, 2, 3))))

    # expressions; `scope` is the number of binders round the expression

    def variable(self, scope):
        if scope and self.chance(0.85):
            return ("var", self.random.randrange(min(scope, 8)) if self.chance(0.9) else self.random.randrange(scope))
        return ("var", self.pick((scope, scope + 1, scope + 3, self.random.randrange(30), 4095, 1000)))

    def leaf(self, scope):
        r = self.random.random()
        if r < 0.34:
            return self.variable(scope)
        if r < 0.72:
            return ("const", self.name(0.02) if self.chance(0.4) else (self.pick(("A", "B", "C", "Nat", "f", "P")),), self.levels())
        if r < 0.84:
            return ("sort", self.level())
        if r < 0.92:
            return ("nat", self.pick(DIGITS))
        return ("str", self.pick(LITERALS))

    def expr(self, scope, budget):
        if budget <= 1:
            return self.operation(scope, 2) if self.operators and self.chance(0.15) else self.leaf(scope)
        r = self.random.random()
        if r < 0.36:
            return self.application(scope, budget)
        if r < 0.80:
            return self.chain(scope, budget)
        if r < 0.91:
            third = budget // 3
            name, type, value, body = self.name(), self.expr(scope, third), self.expr(scope, third), self.expr(scope + 1, third)
            return ("let", name, type, value, body, self.random.randrange(2))
        if r < 0.97:
            # 65,534 is the greatest index that the Rust prints
            return ("proj", self.name(), self.pick((0, 0, 1, 2, 9, 65534)), self.expr(scope, budget - 1))
        return self.leaf(scope)

    def operation(self, scope, budget):
        """A constant of the notation over none to four arguments, most often one or two, which may be such applications themselves."""
        count = self.pick((0, 1, 1, 1, 1, 1, 2, 2, 2, 2, 3, 4))
        share = budget // (count + 1)
        e = ("const", self.pick(self.operators), self.levels() if self.chance(0.2) else ())
        for _ in range(count):
            e = ("app", e, self.operand(scope, share))
        return e

    def operand(self, scope, budget):
        if self.chance(0.06):
            return ("sort", ("zero",))
        return self.operation(scope, budget) if budget > 0 and self.chance(0.45) else self.expr(scope, budget)

    def application(self, scope, budget):
        if self.operators and self.chance(0.6):
            return self.operation(scope, budget)
        count = self.random.randint(1, 4)
        share = max(1, budget // (count + 1))
        e = self.expr(scope, share)
        for _ in range(count):
            e = ("app", e, self.expr(scope, self.random.randint(1, share)))
        return e

    def plan(self):
        """Which binders a chain has: "a" arrow, "f" forall, "l" lambda."""
        n = lambda: self.pick((1, 1, 1, 2, 2, 3, 4))
        r = self.random.random()
        if r < 0.18:
            return "a" * n()
        if r < 0.40:
            return "f" * n()
        if r < 0.58:
            return "l" * n()
        if r < 0.68:
            return "a" * n() + "f" * n()
        if r < 0.78:
            return "f" * n() + "a" * n()
        if r < 0.84:
            return "f" * n() + "l" * n()
        if r < 0.90:
            return "l" * n() + self.pick("fa") * n()
        return "".join(self.pick("afl") for _ in range(self.random.randint(2, 6)))

    def chain(self, scope, budget, plan=None):
        plan = plan or self.plan()
        share = max(1, budget // (len(plan) + 1))
        binders, previous = [], None
        for i, role in enumerate(plan):
            style = DEFAULT if role == "a" or self.chance(0.55) else self.pick((IMPLICIT, IMPLICIT, STRICT, INSTANCE))
            previous = self.binder_type(scope + i, previous, self.random.randint(1, share))
            binders.append((role, self.binder_name(role), style, previous))
        body = self.expr(scope + len(plan), share)
        for i, (role, _, style, _) in enumerate(binders):
            if role == "f" and (style == DEFAULT or self.chance(0.5)):
                body = ("app", body, ("var", len(plan) - 1 - i))
        for role, name, style, type in reversed(binders):
            body = ("lam" if role == "l" else "pi", name, style, type, body)
        return body

    def binder_name(self, role):
        if role == "a":
            return self.pick(((), self.hygienic(), self.name(), self.name()))
        return self.name(0.12 if role == "l" else 0.04)

    def binder_type(self, scope, previous, budget):
        """The type before, so that it is equal after lifting; that type as it stands; one that differs in what is not printed; or
        another one."""
        r = self.random.random()
        if previous is not None and r < 0.42:
            return lifted(previous, 1)
        if previous is not None and r < 0.50:
            return previous
        if previous is not None and r < 0.58:
            return self.near(lifted(previous, 1))
        if r < 0.63:
            return self.hiding(scope)
        return self.expr(scope, budget)

    def hiding(self, scope):
        """A small type with a field that is not printed, so that the next binder's may differ in that alone."""
        e = self.leaf(scope)
        return self.pick((("let", ("v",), e, e, self.leaf(scope + 1), 0), ("proj", ("S",), 1, e), ("const", ("C",), (("zero",),)),
                          ("app", ("const", ("C",), ()), e)))

    def near(self, tree):
        """Differs in a field that is not printed, where the tree has one."""
        if tree[0] == "const":
            return tree[:2] + (tree[2] + (("zero",),),)
        if tree[0] == "let":
            return tree[:5] + (1 - tree[5],)
        if tree[0] == "proj":
            return ("proj", tree[1] + ("other",)) + tree[2:]
        if tree[0] == "app":
            return ("app", self.near(tree[1]), tree[2])
        if tree[0] in ("pi", "lam"):
            return tree[:3] + (self.near(tree[3]),) + tree[4:]
        return tree

    def declar(self, budget):
        kind = self.random.randrange(8)
        plan = self.pick(("", "f", "ff", "fff", "ffa", "fa", "aa", "af", "ffl", self.plan()))
        if 2 <= kind <= 4:
            plan = self.pick((plan, "ff", "fff", "ffff", "faf", "fafa"))
        type = self.chain(0, budget, plan) if plan else self.expr(0, budget)
        value = self.value(len(plan), budget) if 2 <= kind <= 4 else None
        return (kind, self.name(0.03), self.levels(), type, value)

    def value(self, binders, budget):
        """Lambdas, as many as the type has binders or more or fewer, or none."""
        count = max(0, binders + self.pick((-2, -1, 0, 0, 0, 1, 2)))
        if count == 0 or self.chance(0.2):
            return self.expr(self.pick((0, 0, 3)), budget)
        return self.chain(self.pick((0, 0, 2)), budget, "l" * count)

    # trees at the limits

    def special(self):
        c = e = ("const", ("c",), ())
        which = self.random.randrange(9)
        n = self.random.randint(2, 250 if which < 7 and self.chance(0.2) else 60)
        for i in range(n):
            if which == 0:
                e = ("app", c, e)
            elif which == 1:
                e = ("app", e, ("var", i))
            elif which == 2:
                e = ("pi", ("x",), DEFAULT, c, e)
            elif which == 3:
                e = ("lam", (self.pick("abc"),), self.pick((DEFAULT, IMPLICIT)), c, e)
            elif which == 4:
                e = ("let", ("v", i), c, ("nat", str(i)), e, i % 2)
            elif which == 5:
                e = ("proj", ("S",), i, e)
            elif which == 6:
                e = ("pi", ("x", i), IMPLICIT, ("app", c, ("var", 0)) if i == n - 1 else ("app", c, ("var", n - 1 - i)), e)
            elif which == 7:
                e = ("sort", ("succ", e[1]) if e[0] == "sort" else self.pick((("zero",), ("param", ("u",)))))
            else:
                e = ("const", tuple(self.pick(PLAIN) for _ in range(n)), ())
        return e


def operator_names(r):
    """Names that the trees use anyhow, and some of every shape."""
    g = Generator(r.getrandbits(64))
    return tuple(r.choice((("A",), ("f",), ("P",), ("Nat",), g.name(), g.name(), g.name())) for _ in range(r.randint(1, 4)))


def heads(tree):
    """The names of the constants that are applied in a tree, or in a part of a declaration."""
    found = []
    for part in tree:
        if isinstance(part, tuple):
            found += heads(part)
    if tree[:1] == ("app",) and tree[1][0] == "const":
        found.append(tree[1][1])
    return found


def over_itself(r, names):
    """An operator over an operator and so on."""
    e = ("const", ("a",), ())
    for i in range(r.randint(2, 120)):
        more = r.random() >= 0.8
        head = ("const", r.choice(names), ())
        e = ("app", ("app", head, ("var", i)) if more else head, e)
    return e


def notation(r, names, trees):
    """Rows for the names, for some other heads of the trees, and for names that no tree has; a fifth of the cases may have infix ones."""
    others = [name for _, tree in trees for name in heads(tree)]
    chosen = list(names) + r.sample(others, min(len(others), r.choice((0, 0, 1, 2))))
    chosen += [("unused", i) for i in range(r.choice((0, 0, 1, 3)))]
    kinds = (PREFIX, INFIX, INFIX, POSTFIX) if r.random() < 0.2 else (PREFIX, POSTFIX)
    priority = lambda: r.choice(PRIORITIES + (r.randint(1, 1023),) * 3)
    sign = lambda: r.choice(SIGNS + ("-" * r.randint(1, 60),))
    return [(r.choice(kinds), name, priority(), sign()) for name in sorted(set(chosen), key=chosen.index)]


class Case:
    """Some trees, each with its mode (0 expression, 1 declaration), and notation rows."""

    def __init__(self, seed):
        # apart from the trees, so that those of cases without notation do not depend on it
        r = random.Random("notation of %d" % seed)
        operators = operator_names(r) if r.random() < 0.33 else ()
        g = Generator(seed, operators)
        budget = lambda: g.pick((2, 4, 8, 12, 20, 30, 45))
        self.trees = [(0, g.expr(0, budget())) for _ in range(g.random.randint(1, 2))]
        self.trees += [(1, g.declar(budget())) for _ in range(g.random.randint(1, 2))]
        if g.chance(0.08):
            self.trees.append((0, g.special()))
        if g.chance(0.3):
            self.trees.append((0, g.expr(4, 6)))
        if operators and r.random() < 0.15:
            self.trees.append((0, over_itself(r, operators)))
        self.notation = notation(r, operators, self.trees) if operators else []
        self.random = g.random
        self.seed = seed

    def pool(self, share=True):
        """(bytes, words, [(mode, root)]). With share=None each use is shared or not at random, and unused bytes stand between strings. The
        three pools of a case have their notation rows in different orders; in unshared ones they have names and strings of their own."""
        r = random.Random(self.seed)
        b = Builder(share) if share is not None else Builder(lambda: r.random() < 0.5, lambda: r.choice((b"", b"", b"\xff", b"\x80x")))
        rows = list(self.notation)
        random.Random(self.seed).shuffle(rows)
        for row in (rows, rows[::-1])[share is None] if share is not True else ():
            b.notation(*row)
        roots = [(mode, b.expr(tree) if mode == 0 else b.declar(*tree)) for mode, tree in self.trees]
        for row in self.notation if share is True else ():
            b.notation(*row)
        return b.pool() + (roots,)

    def indent(self):
        return self.random.choice((0, 1, 2, 2, 2, 3, 4, 4, 8, 64, self.random.randint(0, 64)))

    def widths(self, sizes, count):
        """Widths at random and at the edges that the document's flat sizes set; the greatest flat size is the whole listing's."""
        r, out = self.random, set()
        whole = max(sizes)
        while len(out) < count:
            out.add(r.choice((0, 1, r.randint(0, 200), r.randint(0, 60), r.randint(0, whole + 1), whole, max(0, whole - 1),
                              r.choice(sizes) + r.randint(0, 12), r.choice((80, 100, 120)), r.choice((1000, 65535)))))
        return sorted(w for w in out if w <= 65535)


def name_shape(name):
    """What 01 tells apart in names, for the figures."""
    if name == ():
        return "anonymous"
    strings = [c if isinstance(c, str) else c.decode() for c in name if not isinstance(c, int)]
    tail = list(name)
    while tail and isinstance(tail[-1], int):
        tail.pop()
    if tail and tail[-1] in ("_hyg", b"_hyg"):
        return "hygienic with numbers" if len(tail) < len(name) else "hygienic"
    if not strings:
        return "numbers alone"
    if "" in strings:
        return "with an empty string"
    if "_@" in strings:
        return "with _@"
    if isinstance(name[-1], int):
        return "ending in a number"
    if not all(s.isascii() for s in strings):
        return "not ASCII"
    return "one component" if len(name) == 1 else "several components"
