"""Compares the model, the published Rust and the product, on random pools and on the recorded corpus. See README.md; `run` is the entry.

    compare.py [--prints N] [--seed S] [--letters] [--no-corpus | --corpus-alone] [--no-rust] [--no-product]
"""
import argparse
import copy
import random
import sys
import time
from collections import Counter, namedtuple

import comparisons
import directed
import model
import product
import record
import refusals
import rust
import specimens
import turned
from generate import Case
from pools import NOTATION, Builder, apply, of_expr, of_tree

# What the model says of a print: its document and listing, or a refusal (number, place).
Expected = namedtuple("Expected", "request rows text laid refusal")
# The programs to compare with the model; None where there is none.
Subjects = namedtuple("Subjects", "published product")


class Tally:
    """What has been compared and what was left out; the first few failures are shown."""

    def __init__(self):
        self.passed = self.failed = 0
        self.figures = Counter()
        self.left_out = []

    def judge(self, good, *what):
        if good:
            self.passed += 1
            return
        self.failed += 1
        if self.failed <= 10:
            print("FAILED:", *what)

    def broken(self, what):
        self.failed += 1
        print("FAILED:", what)

    def report(self):
        for name, figure in self.figures.items():
            print("%s: %d" % (name, figure))
        for what in self.left_out:
            print("left out: %s" % what)
        skipped = ", %d skipped" % len(self.left_out) if self.left_out else ""
        print("%d passed, %d failed%s" % (self.passed, self.failed, skipped))


def expected(pool, request):
    """The model's print of a request."""
    rows, text = model.rows_of(model.document(pool, request.mode, request.root, request.indent))
    if text is None:
        return Expected(request, None, None, None, tuple(rows))
    return Expected(request, rows, text, model.layout(rows, text, request.width), None)


def expected_prints(case, share, tally):
    """The model's prints of a case: each root at one indent and some widths."""
    area, words, roots = case.pool(share)
    pool = model.Pool(area, words)
    tally.judge(pool.fault == (0, 0), "seed", case.seed, "check gives", pool.fault)
    for mode, root in roots:
        indent = case.indent()
        request = rust.Request(mode, root, indent, 80, area, words)
        rows, text = model.rows_of(model.document(pool, mode, root, indent))
        if text is None:
            tally.figures["refused by the model"] += 1
            yield Expected(request, None, None, None, tuple(rows))
            continue
        for width in case.widths([r[4] for r in rows], 3):
            yield Expected(request._replace(width=width), rows, text, model.layout(rows, text, width), None)


def same_trees(case, tally):
    """Shared, unshared and mixed pools of the same trees have the same documents; their notation rows stand in other orders and name other
    rows. Gives the same print of each root in the three pools, for the product."""
    documents, orders, pools = [], set(), [case.pool(share) for share in (True, False, None)]
    for area, words, roots in pools:
        pool = model.Pool(area, words)
        documents.append(pool.fault == (0, 0) and [model.rows_of(model.document(pool, m, r, 2)) for m, r in roots])
        orders.add(tuple(pool.operators))
        terms = [model.expr_term(pool.exprs[r]) for m, r in roots if m == 0]
        tally.judge(terms == [tree for m, tree in case.trees if m == 0], "seed", case.seed, "rows unfold to other trees")
    tally.judge(documents[0] and documents[0] == documents[1] == documents[2], "seed", case.seed, "shared and unshared differ")
    tally.figures["cases in three pools"] += 1
    tally.figures["of these with notation rows in different orders"] += len(orders) > 1
    width = (0, 20, 80)[case.seed % 3]
    return [[rust.Request(*pools[k][2][i], 2, width, *pools[k][:2]) for k in range(3)] for i in range(len(case.trees))]


def judge_same(program, triples, tally):
    """The product's answers to the same print in a shared, an unshared and a mixed pool."""
    replies = product.ask(program, [q for triple in triples for q in triple])
    for i, triple in enumerate(triples):
        a, b, c = replies[3 * i:3 * i + 3]
        # the place of 7 is a row of the pool, and rows are numbered otherwise where they are not shared
        if a.number == b.number == c.number == 7:
            a, b, c = (r._replace(place=0) for r in (a, b, c))
        tally.figures["prints in three pools"] += 1
        tally.judge(a.fault is None and a == b == c, "product, three pools: mode", triple[0].mode, "root", triple[0].root, a.fault or b.fault or c.fault)


def counts_of(e):
    return (len(e.rows), len(e.text)) + e.laid[1:]


def about(q):
    return "mode %d root %d indent %d width %d" % (q.mode, q.root, q.indent, q.width)


def judge_published(program, batch, tally):
    """Listing, document and counts of each print; outside the domain only figures are taken. Of a pool with infix rows the Rust is given
    the trees with the operands of these turned. Gives the Rust's replies, None where a print is outside the domain."""
    replies, asked = [], [turned.request(e.request) for e in batch]
    for e, q, reply in zip(batch, asked, rust.ask(program, asked)):
        same = (reply.status, reply.listing, reply.rows, reply.text) == (rust.PRINTED, e.laid.listing, e.rows, e.text)
        if reply.in_domain or reply.status != rust.PRINTED:
            tally.figures["in the domain" if q is e.request else "outside it by infix rows, the Rust given their operands turned"] += 1
            tally.figures["in the domain, of pools with notation rows"] += q is e.request and e.request.words[NOTATION] > 0
            good = same and rust.counts(reply, e.request.width) == counts_of(e)
            tally.judge(good, about(e.request), "Rust", reply.status, reply.listing, "model", e.laid.listing)
            replies.append(reply)
        else:
            tally.figures["outside the domain"] += 1
            tally.figures["outside the domain and different"] += not same
            replies.append(None)
    return replies


def judge_product(program, batch, published, tally):
    """The product's listing, document and counts against the model's, and against the Rust's where there is a reply of it in the domain."""
    for e, theirs, r in zip(batch, published, product.ask(program, [e.request for e in batch])):
        tally.figures["prints of the product"] += 1
        if e.refusal:
            tally.judge((r.number, r.place) == e.refusal, "product", about(e.request), r.fault or r[:2], "model", e.refusal)
            continue
        good = r[:-1] == (0, 0, e.laid.listing, e.rows, e.text, counts_of(e))
        tally.judge(good, "product", about(e.request), r.fault or (r.number, r.place, r.listing, r.counts), "model", e.laid.listing, counts_of(e))
        if theirs:
            tally.figures["prints of the product against the Rust"] += 1
            good = r[2:6] == (theirs.listing, theirs.rows, theirs.text, rust.counts(theirs, e.request.width))
            tally.judge(good, "product", about(e.request), r.fault or r.listing, "Rust", theirs.listing)


def judge_prints(subjects, batch, tally):
    printed, refused = [e for e in batch if not e.refusal], [e for e in batch if e.refusal]
    published = judge_published(subjects.published, printed, tally) if subjects.published else [None] * len(printed)
    if subjects.product:
        judge_product(subjects.product, printed + refused, published + [None] * len(refused), tally)


def random_prints(subjects, seed, prints, tally):
    batch, triples, made, number = [], [], 0, 0
    while made < prints:
        case = Case(seed * 1000003 + number)
        if number % 4 == 0:
            triples += same_trees(case, tally)
        new = list(expected_prints(case, (True, False, None)[number % 3], tally))
        number += 1
        made += sum(not e.refusal for e in new)
        batch += new
        if len(batch) >= 600 or made >= prints:
            judge_prints(subjects, batch, tally)
            if subjects.product:
                judge_same(subjects.product, triples, tally)
            batch, triples = [], []
    tally.figures["random pools"], tally.figures["random prints"] = number, made


def directed_prints(subjects, tally):
    """The trees of directed.py at a width that takes most of them whole and at a narrow one; those with operators at narrower ones too."""
    batch, pairs = [], []
    for number, (mode, tree, notation) in enumerate(directed.trees()):
        area, words, root = of_tree(mode, tree, number % 2 == 0, notation)
        pool, indent = model.Pool(area, words), (2, 4, 1)[number % 3]
        tally.judge(pool.fault == (0, 0), "directed", number, "check gives", pool.fault)
        widths = (100, 14, 5, 0) if notation else (100, 14)
        prints = [expected(pool, rust.Request(mode, root, indent, width, area, words)) for width in widths]
        if notation:
            pairs += [(e, other_notation(mode, tree, notation, e.request, tally)) for e in prints]
        batch += prints
    tally.figures["directed prints"] = len(batch)
    judge_prints(subjects, batch, tally)
    if subjects.product:
        judge_pairs(subjects.product, pairs, tally)


def other_notation(mode, tree, notation, request, tally):
    """The same print of a pool whose notation rows stand in the other order, before a row for a name that the tree has not, and refer to
    name and string rows of their own, behind those of the tree: the model's document is the same."""
    b = Builder(False)
    root = b.expr(tree) if mode == 0 else b.declar(*tree)
    for row in (*reversed(notation), (notation[0][0], ("no", "such", 0), 7, notation[0][3])):
        b.notation(*row)
    other = request._replace(root=root, area=b.pool()[0], words=b.pool()[1])
    documents = []
    for q in (request, other):
        pool = model.Pool(q.area, q.words)
        documents.append(pool.fault == (0, 0) and model.rows_of(model.document(pool, mode, q.root, q.indent)))
    tally.judge(documents[0] and documents[0] == documents[1], "other notation rows:", about(request), tree, notation)
    tally.figures["prints with the notation in other rows"] += 1
    return other


def judge_pairs(program, pairs, tally):
    """The product's answers to the same print of two pools."""
    replies = product.ask(program, [q for e, other in pairs for q in (e.request, other)])
    for i, (e, _) in enumerate(pairs):
        one, other = replies[2 * i:2 * i + 2]
        fault = one.fault or other.fault
        tally.judge(fault is None and one == other, "product, other notation rows:", about(e.request), fault, one.listing, other.listing)


def one_higher(before, after):
    """How many numbers .65535 of the one text are .65536 in the other; None if the two differ otherwise."""
    changed = [i for i, (x, y) in enumerate(zip(before, after)) if x != y]
    good = len(before) == len(after) and all(before[i - 5:i + 1] == b".65535" and after[i:i + 1] == b"6" for i in changed)
    return len(changed) if good else None


def prints_with_index(case, index, tally):
    """The model's prints of a case's trees with this index at each of their projections; trees without one are left out."""
    changed = copy.copy(case)
    changed.trees = [(mode, comparisons.with_index(mode, tree, index)) for mode, tree in case.trees if comparisons.has_projection(mode, tree)]
    area, words, roots = changed.pool((True, False, None)[case.seed % 3])
    pool = model.Pool(area, words)
    tally.judge(pool.fault == (0, 0), "seed", case.seed, "check gives", pool.fault)
    return [expected(pool, rust.Request(mode, root, 2, (0, 30, 120)[case.seed % 3], area, words)) for mode, root in roots]


def last_projections(subjects, seed, count, tally):
    """The last index at each projection, by model and product, and the one before it there, by the Rust too: it cannot print the last."""
    cases = [Case((seed + 1) * 1000003 + number) for number in range(count)]
    within = [e for case in cases for e in prints_with_index(case, model.LAST_PROJECTION - 1, tally)]
    last = [e for case in cases for e in prints_with_index(case, model.LAST_PROJECTION, tally)]
    for one, other in zip(within, last):
        if one.refusal or other.refusal or one.rows != other.rows:
            tally.judge(one.refusal and one.refusal == other.refusal, "last index:", about(other.request), one.refusal, other.refusal)
            continue
        changed = one_higher(one.laid.listing, other.laid.listing)
        # the binder types of a declaration's opened value are not printed, and a projection may stand in them alone
        tally.judge(changed or changed == 0 and one.request.mode == 1, "last index:", about(other.request), other.laid.listing, one.laid.listing)
        tally.figures["numbers .65536, which are .65535 with the index before"] += changed or 0
    tally.figures["prints with the last index, and as many with the one before"] = len(last)
    judge_prints(subjects, within, tally)
    judge_prints(subjects._replace(published=None), last, tally)


def letters(subjects, tally):
    """Code points alone and after x, a hundred to a print: all below U+3400, each 97th, and those round the planes' edges."""
    chosen = lambda c: c < 0x3400 or c % 97 == 0 or c > 0x10FF00 or 0xFE00 <= c <= 0x10010
    points = [c for c in range(0x110000) if chosen(c) and not 0xD800 <= c < 0xE000]
    batch = []
    for at in range(0, len(points), 100):
        area, words, root = of_expr(apply(*(("const", (t,), ()) for c in points[at:at + 100] for t in (chr(c), "x" + chr(c)))))
        pool = model.Pool(area, words)
        tally.judge(pool.fault == (0, 0), "letters from", points[at], "check gives", pool.fault)
        batch.append(expected(pool, rust.Request(0, root, 2, 100, area, words)))
    tally.figures["code points"] = len(points)
    judge_prints(subjects, batch, tally)


def random_document(r, budget):
    """A document that the printer need not make: empty breaks, breaks in no group, texts of any length."""
    if budget <= 1:
        if r.random() < 0.35:
            return [(model.BREAK, r.randrange(2))]
        return [(model.TEXT, r.choice(("", "a", "bc", "→", "two\nlines", "some more text", "α" * r.randint(0, 9))).encode())]
    kind = r.random()
    if kind < 0.6:
        left = r.randint(1, budget - 1)
        return random_document(r, left) + random_document(r, budget - left) + [(model.JOIN,)]
    if kind < 0.75:
        return random_document(r, budget - 1) + [(model.NEST, r.choice((0, 1, 2, 4, 64)))]
    return random_document(r, budget - 1) + [(model.GROUP,)]


def judge_pending(rows, text, width, counts, listing, tally, *what):
    """The model's second layout against what the first gave: in a pending area just long enough, which is zero afterwards, in one that is longer, and 30 in one a
    word short."""
    for more in (0, 5, -1):
        pending, lent = [1] * (3 * len(rows) + more), model.areas(0, 0, len(listing))
        answer = model.laid_out_pending(rows, text, width, pending, lent)
        if more < 0:
            good = answer.number == 30 and set(pending) <= {1} and set(lent.listing) <= {0xA5}
        else:
            good = answer.number == 0 and tuple(answer.counts) == counts and bytes(lent.listing) == listing and not any(pending)
        tally.judge(good, *what, "pending area", len(pending), "words:", answer.number, bytes(lent.listing), "expected", listing)


def judge_product_pending(program, batch, tally):
    """The product's second layout of given documents in areas just long enough: counts, listing and what the pending area holds are the model's."""
    calls = [product.Call(product.PENDING, e.text, e.request.words, 0, 0, e.request.width, (len(e.rows), len(e.text), e.laid.length), 3 * len(e.rows)) for e in batch]
    for c, r in zip(calls, product.call(program, calls)):
        tally.judge(r == product.by_model(c), "product: layout with a pending area at width", c.width, c.words, c.area, r)


def random_layouts(subjects, seed, count, tally):
    """Layout of given documents: accepted by the model, and the Rust's `render` and both layouts of model and product give the same listing."""
    r, batch = random.Random(seed), []
    for _ in range(count):
        rows, text = model.rows_of(random_document(r, r.randint(1, 60)))
        words, width = [w for row in rows for w in row], r.choice((0, 1, 10, 20, 40, r.randint(0, 120)))
        answer = model.layout_document(words, len(rows), bytearray(text), len(text), width, bytearray(8192))
        tally.judge(answer.number == 0, "given document refused", answer.number, answer.place)
        e = Expected(rust.Request(2, 0, 0, width, text, words), rows, text, model.layout(rows, text, width), None)
        judge_pending(rows, text, width, counts_of(e), e.laid.listing, tally, "given document at width", width)
        batch.append(e)
    tally.figures["given documents"] = count
    requests = [e.request for e in batch]
    for e, reply in zip(batch, rust.ask(subjects.published, requests) if subjects.published else ()):
        good = reply.listing == e.laid.listing and reply.rows == e.rows and rust.counts(reply, e.request.width) == counts_of(e)
        tally.judge(good, "layout at width", e.request.width, e.rows, e.text)
    for e, r in zip(batch, product.ask(subjects.product, requests) if subjects.product else ()):
        good = (r.number, r.listing, r.counts) == (0, e.laid.listing, counts_of(e))
        tally.judge(good, "product: layout at width", e.request.width, e.rows, e.text, r.fault)
    if subjects.product:
        judge_product_pending(subjects.product, batch, tally)


def judge_comparisons(subjects, pairs, tally, figure):
    """Two rows whose place is known, the one way round and the other, by the model and by the product."""
    asked = []
    for p in pairs:
        pool = model.Pool(p.area, p.words)
        for swapped in (False, True):
            answer, expected = model.compare(pool, *(p.second, p.first) if swapped else (p.first, p.second))[:3], comparisons.expected(p, swapped)
            tally.judge(answer == expected, "compared:", p.title, answer, "expected", expected)
            asked.append((p, comparisons.call(p, swapped), expected))
    tally.figures[figure] += len(asked)
    if subjects.product:
        for (p, _, expected), r in zip(asked, product.call(subjects.product, [c for _, c, _ in asked])):
            tally.judge(r[:3] == expected and r.fault is None, "product, compared:", p.title, r.fault or r[:3], "expected", expected)


def random_comparisons(subjects, seed, count, tally):
    """Trees against themselves changed at known places."""
    pairs = list(comparisons.by_changes(seed, count))
    for i in range(0, len(pairs), 300):
        judge_comparisons(subjects, pairs[i:i + 300], tally, "random comparisons")


def compared_rows(pool, most, tally, *what):
    """The model's comparisons of rows of a pool, which have to name the pair that the trees' numbers tell; 5 past the last row. Gives rows and answers."""
    answers = []
    for a, b in comparisons.by_rows(pool, most, len(pool.words)):
        found, answer = comparisons.by_trees(pool.exprs[a], pool.exprs[b]), model.compare(pool, a, b)[:3]
        tally.judge(answer == (0, 0, (0,) + found if found else (1, 0, 0)), *what, "rows", a, b, "compared:", answer, "by their trees", found)
        answers.append((a, b, answer))
    for a, b in ((0, len(pool.exprs)), (len(pool.exprs), 0)):
        tally.judge(model.compare(pool, a, b)[:3] == (5, 0, None), *what, "rows", a, b, "not refused 5")
    return answers


def replay_comparisons(program, compared, tally):
    """Rows of recorded pools compared by the product as by the model."""
    calls = [product.Call(product.COMPARE, r.area, r.words, a, 0, 0, (0, 0, 0), second=b) for r, answers in compared for a, b, _ in answers]
    known = [answer for _, answers in compared for _, _, answer in answers]
    for c, expected, r in zip(calls, known, product.call(program, calls)):
        tally.judge(r[:3] == expected and r.fault is None, "corpus, product: rows", c.root, c.second, "compared:", r.fault or r[:3], "model", expected)


def replay_model(pool_record, pool, tally):
    """Whole calls, in areas just long enough: number, counts, listing, and the document where it is recorded."""
    for p in pool_record.prints:
        lent = model.areas(7 * p.counts[0], p.counts[1], p.counts[2])
        answer = model.print_call(pool, p.mode, p.root, p.indent, p.width, lent)
        good = answer.number == 0 and tuple(answer.counts) == p.counts and bytes(lent.listing) == p.listing
        if good and p.rows is not None:
            good = lent.rows == [w for row in p.rows for w in row] and bytes(lent.text) == p.text
        tally.judge(good, "corpus, model: mode", p.mode, "root", p.root, "width", p.width, p.listing)
        rows = [tuple(lent.rows[i:i + 7]) for i in range(0, len(lent.rows), 7)]
        judge_pending(rows, bytes(lent.text), p.width, p.counts, p.listing, tally, "corpus, model, second layout: mode", p.mode, "root", p.root, "width", p.width)


def replay_rust(program, pool_records, tally):
    asked = [(p, turned.request(rust.Request(p.mode, p.root, p.indent, p.width, r.area, r.words))) for r in pool_records for p in r.prints]
    for (p, q), reply in zip(asked, rust.ask(program, [q for _, q in asked])):
        good = reply.status == rust.PRINTED and reply.in_domain and reply.listing == p.listing
        good = good and rust.counts(reply, p.width) == p.counts
        if good and p.rows is not None:
            good = reply.rows == p.rows and reply.text == p.text
        tally.judge(good, "corpus, Rust: mode", p.mode, "root", p.root, "width", p.width, p.listing)


def replay_product(program, pool_records, tally):
    asked = [(p, rust.Request(p.mode, p.root, p.indent, p.width, r.area, r.words)) for r in pool_records for p in r.prints]
    for (p, q), r in zip(asked, product.ask(program, [q for _, q in asked])):
        good = (r.number, r.listing, r.counts) == (0, p.listing, p.counts)
        if good and p.rows is not None:
            good = r.rows == p.rows and r.text == p.text
        tally.figures["corpus prints of the product"] += 1
        tally.judge(good, "corpus, product:", about(q), r.fault or (r.number, r.place, r.listing, r.counts), "recorded", p.listing, p.counts)


def replay(subjects, tally):
    records, compared = record.read(), []
    for r in records:
        pool = model.Pool(r.area, r.words)
        tally.judge(pool.fault == (0, 0), "corpus pool", pool.fault)
        replay_model(r, pool, tally)
        compared.append((r, compared_rows(pool, 32, tally, "corpus, model:")))
    for i in range(0, len(records), 100):
        if subjects.published:
            replay_rust(subjects.published, records[i:i + 100], tally)
        if subjects.product:
            replay_product(subjects.product, records[i:i + 100], tally)
            replay_comparisons(subjects.product, [(r, answers[:4]) for r, answers in compared[i:i + 100]], tally)
    tally.figures["corpus pools"] = len(records)
    tally.figures["corpus prints"] = sum(len(r.prints) for r in records)
    tally.figures["corpus comparisons"] = sum(len(answers) for _, answers in compared)


def fixed_inputs(subjects, tally):
    for good, line in specimens.judged(subjects.published, subjects.product):
        tally.figures["specimens and differences"] += 1
        tally.judge(good, line)
    for good, line in refusals.judged(subjects.product):
        tally.figures["refusals"] += 1
        tally.judge(good, line)
    judge_comparisons(subjects, comparisons.by_hand(), tally, "comparisons by hand")


def options():
    o = argparse.ArgumentParser()
    o.add_argument("--prints", type=int, default=4000, help="random prints (about; the last pool is printed whole)")
    o.add_argument("--seed", type=int, default=1)
    o.add_argument("--letters", action="store_true", help="25,416 code points too")
    o.add_argument("--no-corpus", action="store_true")
    o.add_argument("--corpus-alone", action="store_true")
    o.add_argument("--no-rust", action="store_true")
    o.add_argument("--no-product", action="store_true")
    return o.parse_args()


def subject(what, build, tally):
    """The program, if there is one that works: one that is not at hand is left out, one that does not work is a failure."""
    try:
        program, why = build()
    except rust.Broken as e:
        tally.broken(e)
        return None
    if program is None:
        tally.left_out.append("the comparison with %s: %s" % (what, why))
    return program


def compare(o, subjects, tally):
    if not o.corpus_alone:
        fixed_inputs(subjects, tally)
        directed_prints(subjects, tally)
        random_prints(subjects, o.seed, o.prints, tally)
        last_projections(subjects, o.seed, min(400, o.prints), tally)
        random_layouts(subjects, o.seed, min(1500, o.prints), tally)
        random_comparisons(subjects, o.seed, min(1500, o.prints), tally)
    if o.letters:
        letters(subjects, tally)
    if not o.no_corpus:
        replay(subjects, tally)


def main():
    o, tally, start = options(), Tally(), time.time()
    published = None if o.no_rust else subject("the published Rust", rust.build, tally)
    of_product = None if o.no_product else subject("the product", product.build, tally)
    try:
        compare(o, Subjects(published, of_product), tally)
    except rust.Broken as e:
        tally.broken(e)
    print("%.0f seconds" % (time.time() - start))
    tally.report()
    return 1 if tally.failed else 0


if __name__ == "__main__":
    sys.exit(main())
