"""The specimens of documents 01 and 02, and the smallest inputs where these and the published Rust part; run through model and Rust.

    specimens.py            prints each specimen and each difference
    specimens.py --smallest counts the differences among all small chains
"""
import itertools
import sys
from collections import Counter, namedtuple

import model
import product
import rust
import turned
from pools import DECLAR_WORDS, DEFAULT, IMPLICIT, INFIX, INSTANCE, POSTFIX, PREFIX, STRICT
from pools import apply, const, of_declar, of_expr, of_tree, param, succ

EXPRESSION, DECLARATION = 0, 1
WORDS = DECLAR_WORDS
Specimen = namedtuple("Specimen", "title starred mode tree width listing counts notation", defaults=((),))
# `listing` is what 01 gives, or None where a number refuses; `rust` what the Rust is known to give.
Difference = namedtuple("Difference", "title mode pool root indent width listing refusal rust")
Outcome = namedtuple("Outcome", "listing refusal counts")
U, V = param("u"), param("v")
NAT = const("Nat")


def pi(name, type, body, style=DEFAULT):
    return ("pi", (name,) if name else (), style, type, body)


def lam(name, type, body, style=DEFAULT):
    return ("lam", (name,) if name else (), style, type, body)


def sort(level):
    return ("sort", level)


def var(index):
    return ("var", index)


def expression(title, starred, tree, listing, width=120, counts=None, notation=()):
    return Specimen(title, starred, EXPRESSION, tree, width, listing, counts, notation)


def named(components, text):
    return expression("name %s" % text, True, ("const", components, ()), "@" + text)


def deep(depth):
    """An expression of this depth."""
    e = const("c")
    for _ in range(depth - 1):
        e = ("app", const("f"), e)
    return e


FOUR_LAMBDAS = lam("a", const("A"), lam("b", const("B"), lam("c", const("A"), lam("d", const("A"), var(0)))))
MAX = ("max", U, V)
K_TYPE = pi("a", sort(U), sort(U))
NEG, ADD, FAC = (PREFIX, ("neg",), 75, "-"), (INFIX, ("add",), 65, "+"), (POSTFIX, ("fac",), 80, "!")
SUM, NEG_A = apply(const("add"), const("a"), const("b")), apply(const("neg"), const("a"))

SPECIMENS = [
    expression("variable 0 alone", True, var(0), "0"),
    expression("pi over variable 5", True, pi("x", var(5), const("C")), "6 → @C"),
    expression("sort of 0", False, sort(("zero",)), "Prop"),
    expression("sort of max 0 0", False, sort(("max", ("zero",), ("zero",))), "Sort (max 0 0)"),
    expression("sort of 1", False, sort(succ(("zero",))), "Type 0"),
    expression("sort of u+2", False, sort(succ(U, 2)), "Type (u+1)"),
    expression("sort of max u v", False, sort(MAX), "Sort (max u v)"),
    expression("sort of (max u v)+2", False, sort(succ(MAX, 2)), "Type ((max u v)+1)"),
    expression("f applied to (g a)", True, apply(const("f"), apply(const("g"), const("a"))), "@f (@g @a)"),
    expression("forall", True, pi("n", NAT, apply(const("P"), var(0))), "forall (n : @Nat), @P n"),
    expression("arrow at width 13", True, pi("n", NAT, NAT), "@Nat → @Nat", 13, (17, 12, 13, 1, 13)),
    expression("arrow at width 12", True, pi("n", NAT, NAT), "@Nat →\n@Nat", 12, (17, 12, 13, 2, 8)),
    expression("four lambdas", True, FOUR_LAMBDAS, "fun (a : @A) (b : @B) (c d : @A) => d"),
    named(("α",), "α"), named(("x₈",), "x₈"), named(("ω",), "«ω»"), named(("x₉",), "«x₉»"), named(("λ",), "«λ»"),
    named(("a", "b c"), "a.«b c»"), named((), "«»"), named(("a b", "c"), "«a b».c"), named(("a b", 5), "«a b».5"),
    named(("a", "", "b"), "a..b"), named(("", "b c"), "«b c»"), named(("_@",), "_@"),
    Specimen("definition", True, DECLARATION, (3, ("k",), (U,), K_TYPE, lam("a", sort(U), var(0))), 120,
             "def k.{u} (a : Sort u) : Sort u := a", None),
    Specimen("definition with value c", True, DECLARATION, (3, ("k",), (U,), K_TYPE, const("c")), 120,
             "def k.{u} : Sort u → Sort u := @c", None),
    expression("projection 65,534", False, ("proj", ("S",), 65534, const("s")), "@s.65535"),
    expression("prefix", False, NEG_A, "-@a", 3, (9, 3, 3, 1, 3), [NEG]),
    expression("prefix, broken", False, NEG_A, "-\n@a", 2, (9, 3, 4, 2, 2), [NEG]),
    expression("prefix over itself", False, apply(const("neg"), NEG_A), "-(-@a)", notation=[NEG]),
    expression("infix", False, SUM, "@a+@b", 5, (14, 5, 5, 1, 5), [ADD]),
    expression("infix, broken", False, SUM, "@a+\n  @b", 4, (14, 5, 8, 2, 4), [ADD]),
    expression("infix over itself", False, apply(const("add"), SUM, SUM), "(@a+@b)+(@a+@b)", notation=[ADD]),
    expression("infix over prefix and postfix", False, apply(const("add"), NEG_A, apply(const("fac"), const("b"))), "-@a+@b!",
               notation=[ADD, NEG, FAC]),
    expression("prefix over infix", False, apply(const("neg"), SUM), "-(@a+@b)", notation=[NEG, ADD]),
    expression("postfix", False, apply(const("fac"), const("a")), "@a!", 3, (9, 3, 3, 1, 3), [FAC]),
    expression("postfix, broken", False, apply(const("fac"), const("a")), "@a\n!", 2, (9, 3, 4, 2, 2), [FAC]),
    expression("one argument more, and one less", False, apply(const("neg"), SUM, apply(const("add"), const("a"))),
               "@neg (@a+@b) (@add @a)", notation=[NEG, ADD]),
    expression("an operator as an argument", False, apply(const("f"), NEG_A), "@f (-@a)", notation=[NEG]),
    expression("depth 256", False, deep(256), "@f (" * 254 + "@f @c" + ")" * 254, 65535),
]


def nested_chains(lengths):
    """Chains of implicit pis, each in the first binder type of the one before; their tails are the same rows."""
    tails = [const("C")]
    for _ in range(max(lengths)):
        tails.append(pi("x", const("C"), tails[-1], IMPLICIT))
    e = const("C")
    for n in reversed(lengths):
        e = pi("x", e, tails[n - 1], IMPLICIT)
    return e


def binders(roles, body):
    """A chain by roles: "f" a pi whose variable occurs, "a" one whose variable does not, "l" a lambda; names a b c, types A B C."""
    for i, role in enumerate(roles):
        if role == "f":
            body = apply(body, var(len(roles) - 1 - i))
    for i in range(len(roles) - 1, -1, -1):
        make = lam if roles[i] == "l" else pi
        body = make("abcd"[i], const("ABCD"[i]), body)
    return body


def difference(title, tree, listing, rust_gives, mode=EXPRESSION, refusal=None, indent=2, width=120, share=True, notation=()):
    area, words, root = of_tree(mode, tree, share, notation)
    return Difference(title, mode, (area, words), root, indent, width, listing, refusal, rust_gives)


def axiom(type):
    return (0, ("k",), (), type, None)


def doubled(n):
    """`fun (a b : T) => c` with T the term before, over a loose variable: n levels print n groups, the tree has 2 to the n leaves."""
    known = {}

    def term(k, index):
        if (k, index) not in known:
            known[k, index] = var(index) if k == 0 else lam("a", term(k - 1, index), lam("b", term(k - 1, index + 1), const("c")))
        return known[k, index]
    return term(n, 0)


def outside_runs():
    return [
        difference("axiom: an arrow before a forall", axiom(pi("a", const("A"), pi("n", const("B"), apply(const("P"), var(0))))),
                   "axiom k : @A → (forall (n : @B), @P n)", "axiom k (a : @A) (n : @B) : @P n", DECLARATION),
        difference("axiom: a lambda before a forall", axiom(binders("lf", const("P"))),
                   "axiom k : fun (a : @A) => forall (b : @B), @P b", "axiom k (a : @A) (b : @B) : @P b", DECLARATION),
        difference("binder groups: types A, B, A, A", FOUR_LAMBDAS, "fun (a : @A) (b : @B) (c d : @A) => d", "fun (a b c d : @A) => d"),
        difference("forall, arrow, forall, arrow", binders("fafa", const("P")),
                   "forall (a : @A), @B → (forall (c : @C), @D → @P a c)", "forall (a : @A) (b : @B) (c : @C), @D → @P a c"),
        difference("forall, lambda, forall, lambda", binders("flfl", const("P")),
                   "forall (a : @A), fun (b : @B) => forall (c : @C), fun (d : @D) => @P a c",
                   "forall (a : @A) (b : @B) (c : @C), fun (d : @D) => @P a c"),
        difference("lambda, forall, lambda, forall", binders("lflf", const("P")),
                   "fun (a : @A) => forall (b : @B), fun (c : @C) => forall (d : @D), @P b d",
                   "fun (a : @A) (b : @B) (c : @C) => forall (d : @D), @P b d"),
        difference("three binders A, B, A: not partitioned, yet equal",
                   lam("a", const("A"), lam("b", const("B"), lam("c", const("A"), var(0)))),
                   "fun (a : @A) (b : @B) (c : @A) => c", "fun (a : @A) (b : @B) (c : @A) => c"),
    ]


def styles():
    """`Default` in `is_arrow`: the same pi, its variable unused, in the four styles."""
    brackets = {DEFAULT: "@A → @B", IMPLICIT: "forall {x : @A}, @B", STRICT: "forall {{x : @A}}, @B", INSTANCE: "forall [x : @A], @B"}
    return [difference("`Default` in `is_arrow`, style %d" % s, pi("x", const("A"), const("B"), s), text, text)
            for s, text in brackets.items()]


def turned_operands():
    """Infix rows: the Rust lists the operands the other way round."""
    equal, more = apply(const("add"), const("a"), const("a")), apply(SUM, const("c"))
    return [difference("infix, two operands", SUM, "@a+@b", "@b+@a", notation=[ADD]),
            difference("infix, equal operands: outside the domain, yet equal", equal, "@a+@a", "@a+@a", notation=[ADD]),
            difference("infix, one argument: outside the domain, yet equal", apply(const("add"), const("a")), "@add @a", "@add @a", notation=[ADD]),
            difference("infix, three arguments: outside the domain, yet equal", more, "@add @a @b @c", "@add @a @b @c", notation=[ADD])]


def all_differences():
    return outside_runs() + styles() + beyond_limits() + turned_operands()


def beyond_limits():
    many = ("const", ("C",), (("zero",),) * 32768)
    wide = pi("x", NAT, NAT)
    long_text = ("str", "a" * 65535)
    return [
        difference("a constant's list of 32,767 levels", many[:2] + (many[2][1:],), "@C", "@C"),
        difference("a constant's list of 32,768 levels", many, "@C", None),
        difference("1,024 names in force", nested_chains((255, 254, 253, 252, 10)), "", ""),
        difference("1,025 names in force", nested_chains((255, 254, 253, 252, 11)), None, "", refusal=7),
        difference("projection 65,535", ("proj", ("S",), 65535, const("s")), "@s.65536", None),
        difference("depth 257", deep(257), None, "@f (" * 255 + "@f @c" + ")" * 255, refusal=4, width=65535),
        difference("variable 4,096", var(4096), None, "4096", refusal=4),
        difference("a name of 64 components", ("const", ("a",) * 64, ()), None, "@" + ".".join("a" * 64), refusal=4),
        difference("64 successors", sort(succ(("zero",), 64)), None, "Type 63", refusal=4),
        difference("indent 65", wide, None, "@Nat → @Nat", refusal=6, indent=65),
        difference("width 65,536", wide, None, "@Nat → @Nat", refusal=6, width=65536),
        difference("a document of 65,537 text bytes", long_text, None, '"' + "a" * 65535 + '"', refusal=8),
        difference("a document of more than 16,384 rows", shared_closed(11), None, "", refusal=8),
        difference("`fun (a b : T) => c` nested 40 deep over a loose variable", doubled(40), "", None),
    ]


def shared_closed(n):
    e = const("c")
    for _ in range(n):
        e = ("app", e, e)
    return e


def all_chains(length):
    """(what, mode, tree) of every chain of this length: lambdas over three types; three roles as expression and as axiom."""
    for types in itertools.product("ABC", repeat=length):
        e = const("P")
        for i in range(length - 1, -1, -1):
            e = lam("abcd"[i], const(types[i]), e)
        yield "types", EXPRESSION, e
    for roles in itertools.product("fal", repeat=length):
        yield "roles", EXPRESSION, binders(roles, const("P"))
        yield "roles in an axiom", DECLARATION, axiom(binders(roles, const("P")))


def smallest(program):
    """How many chains of two, three and four binders differ: what docs/DIFFERENCES.md calls smallest."""
    for length in (2, 3, 4):
        chains = [(what, mode) + (of_expr if mode == EXPRESSION else of_declar)(tree) for what, mode, tree in all_chains(length)]
        counted = Counter()
        asked = [rust.Request(mode, root, 2, 120, area, words) for _, mode, area, words, root in chains]
        for (what, mode, area, words, root), reply in zip(chains, rust.ask(program, asked)):
            different = by_model(mode, (area, words), root, 2, 120).listing != reply.listing.decode()
            counted[what] += different
            counted[what + ", not partitioned"] += not reply.in_domain
        print("%d binders, different: %s" % (length, dict(counted)))


def by_model(mode, pool, root, indent, width):
    """A whole call in areas that are always long enough."""
    p = model.Pool(*pool)
    lent = model.areas(listing=1 << 20)
    answer = model.print_call(p, mode, root, indent, width, lent)
    if answer.number:
        return Outcome(None, (answer.number, answer.place), None)
    return Outcome(bytes(lent.listing[:answer.counts.listing_length]).decode(), None, tuple(answer.counts))


def specimen_pool(s):
    return of_tree(s.mode, s.tree, True, s.notation)


def judged(program, of_product=None):
    """(good, what) for each specimen and difference, by the model and, where there are programs, by the Rust and by the product."""
    pools = [specimen_pool(s) for s in SPECIMENS]
    for s, (area, words, root) in zip(SPECIMENS, pools):
        o = by_model(s.mode, (area, words), root, 2, s.width)
        yield o.listing == s.listing and (s.counts is None or o.counts[:5] == s.counts), "specimen by the model: %s: %r" % (s.title, o)
    differences = all_differences()
    for d in differences:
        o = by_model(d.mode, d.pool, d.root, d.indent, d.width)
        good = (o.refusal or (None,))[0] == d.refusal and (d.listing in ("", None) or o.listing == d.listing)
        yield good, "difference by the model: %s: %r" % (d.title, o)
    if program:
        yield from judged_rust(program, pools, differences)
    if of_product:
        asked = [rust.Request(s.mode, root, 2, s.width, area, words) for s, (area, words, root) in zip(SPECIMENS, pools)]
        asked += [rust.Request(d.mode, d.root, d.indent, d.width, *d.pool) for d in differences]
        yield from judged_product(of_product, asked, [s.title for s in SPECIMENS] + [d.title for d in differences])


def judged_product(program, asked, titles):
    """Of the product: what the model says, refusals with their places too."""
    for title, q, r in zip(titles, asked, product.ask(program, asked)):
        o = by_model(q.mode, (q.area, q.words), q.root, q.indent, q.width)
        said = Outcome(None, (r.number, r.place), None) if r.number else Outcome(r.listing.decode(), None, r.counts)
        yield r.fault is None and said == o, "by the product: %s: %r, expected %r" % (title, r.fault or said, o)


def judged_rust(program, pools, differences):
    asked = [turned.request(rust.Request(s.mode, root, 2, s.width, area, words)) for s, (area, words, root) in zip(SPECIMENS, pools)]
    for s, reply in zip(SPECIMENS, rust.ask(program, asked)):
        expected = "fun (a b c d : @A) => d" if s.title == "four lambdas" else s.listing
        good = reply.listing.decode() == expected and reply.in_domain == (expected == s.listing)
        yield good, "specimen by the Rust: %s: %r" % (s.title, reply.listing)
    # as they stand: infix rows put them outside the domain, and one whose operands are not equal prints otherwise
    infix = [s for s in SPECIMENS if s.mode == EXPRESSION and any(row[0] == INFIX for row in s.notation)]
    as_it_stands = [rust.Request(s.mode, root, 2, s.width, area, words) for s in infix for area, words, root in [specimen_pool(s)]]
    for s, reply in zip(infix, rust.ask(program, as_it_stands)):
        yield not reply.in_domain, "specimen by the Rust, in its domain: %s: %r" % (s.title, reply.listing)
    for d, reply in zip(differences, replies(program, differences)):
        good = reply.status != rust.PRINTED if d.rust is None else reply.status == rust.PRINTED
        yield good and (d.rust in ("", None) or reply.listing.decode() == d.rust), "difference by the Rust: %s: %r" % (d.title, reply[:3])


def replies(program, differences):
    return rust.ask(program, [rust.Request(d.mode, d.root, d.indent, d.width, *d.pool) for d in differences], timeout=3000)


def short(listing):
    return listing if len(listing) <= 90 else "%s ... (%d bytes)" % (listing[:60], len(listing.encode()))


def show(program):
    for s in SPECIMENS:
        area, words, root = specimen_pool(s)
        o = by_model(s.mode, (area, words), root, 2, s.width)
        print("%s%s: %s" % ("*" if s.starred else " ", s.title, short(o.listing)))
    differences = all_differences()
    by_rust = replies(program, differences) if program else [None] * len(differences)
    for d, reply in zip(differences, by_rust):
        o = by_model(d.mode, d.pool, d.root, d.indent, d.width)
        print("\n%s\n  ours: %s" % (d.title, "refused %d at %d" % o.refusal if o.refusal else short(o.listing)))
        if reply:
            said = short(reply.listing.decode()) if reply.status == 0 else ("", "panics", "no answer in 3 seconds")[reply.status]
            print("  Rust: %s%s" % (said, "" if reply.in_domain else "   (outside the domain)"))


if __name__ == "__main__":
    program, why = rust.build()
    if sys.argv[1:] == ["--smallest"]:
        sys.exit(smallest(program) if program else "No comparison with the Rust: %s." % why)
    if program is None:
        print("No comparison with the Rust: %s." % why)
    show(program)
    results = list(judged(program))
    for good, what in results:
        if not good:
            print("FAILED:", what)
    failed = sum(not good for good, _ in results)
    print("%d passed, %d failed" % (len(results) - failed, failed))
    sys.exit(1 if failed else 0)
