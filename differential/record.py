"""The recorded corpus: `record.py` makes corpus/prints.bin from the published Rust (as harness/ edits it); `read()` gives it back. Format: README.md."""
import os
import struct
import sys
from collections import Counter, namedtuple
from itertools import chain

import directed
import model
import rust
import specimens
import turned
from generate import Case, name_shape
from pools import Builder

PATH = os.path.join(rust.HERE, "corpus", "prints.bin")
# the same bytes, as the standard input of a program: rt follows no link
INPUT = os.path.join(rust.HERE, "..", "crates", "replay", "stdin")
MAGIC = struct.unpack("<I", b"TIL1")[0]
HEAD = 16
POOL, PRINT = 1, 2
WORDS_LIMIT, BYTES_LIMIT, LISTING_LIMIT, POOL_LIMIT = 4000, 4000, 16384, 16384
SMALL_POOL, SMALL_DOCUMENT = 480, 90  # words, rows
PoolRecord = namedtuple("PoolRecord", "area words prints")
# rows and text are None where the document is not recorded; last_text is the last row with text bytes, where a text area one byte short is full
PrintRecord = namedtuple("PrintRecord", "mode root indent width counts listing rows text last_text")


def padded(data):
    return bytes(data) + bytes(-len(data) % 4)


def packed(words):
    return struct.pack("<%dI" % len(words), *words)


def record(tag, fields, body):
    """A header of 16 words (tag, words in all, fields, zeros) and the body."""
    head = [tag, HEAD + len(body) // 4] + fields
    return packed(head + [0] * (HEAD - len(head))) + body


def print_bytes(p):
    body = padded(p.listing)
    if p.rows is not None:
        body += packed([w for row in p.rows for w in row]) + padded(p.text)
    return record(PRINT, [p.mode, p.root, p.indent, p.width] + list(p.counts) + [int(p.rows is not None), p.last_text], body)


def pool_bytes(r):
    body = padded(r.area) + packed(r.words)
    return record(POOL, [len(r.area), len(r.words), len(r.prints)], body) + b"".join(print_bytes(p) for p in r.prints)


def file_bytes(records):
    prints = [p for r in records for p in r.prints]
    body = b"".join(pool_bytes(r) for r in records)
    most = lambda values: max(values, default=0)
    head = [MAGIC, 1, len(records), len(prints), sum(p.rows is not None for p in prints), HEAD + len(body) // 4,
            most(len(r.area) for r in records), most(len(r.words) for r in records), most(len(r.prints) for r in records),
            most(p.counts[0] for p in prints), most(p.counts[1] for p in prints), most(p.counts[2] for p in prints),
            most(p.counts[0] for p in prints if p.rows is not None), most(p.counts[1] for p in prints if p.rows is not None)]
    return packed(head + [0] * (HEAD - len(head))) + body


class Reader:
    def __init__(self, data):
        self.data, self.at = data, 0

    def words(self, count):
        self.at += 4 * count
        return struct.unpack_from("<%dI" % count, self.data, self.at - 4 * count)

    def run(self, length):
        start, self.at = self.at, self.at + length + -length % 4
        return self.data[start:start + length]

    def print_record(self):
        head = self.words(HEAD)
        assert head[0] == PRINT
        listing, rows, text = self.run(head[8]), None, None
        if head[12]:
            rows = [self.words(7) for _ in range(head[6])]
            text = self.run(head[7])
        return PrintRecord(*head[2:6], tuple(head[6:12]), listing, rows, text, head[13])

    def pool_record(self):
        head = self.words(HEAD)
        assert head[0] == POOL
        area, words = self.run(head[2]), list(self.words(head[3]))
        return PoolRecord(area, words, [self.print_record() for _ in range(head[4])])


def read(path=PATH):
    with open(path, "rb") as f:
        reader = Reader(f.read())
    head = reader.words(HEAD)
    assert head[0] == MAGIC and head[1] == 1 and 4 * head[5] == len(reader.data)
    return [reader.pool_record() for _ in range(head[2])]


# ---------------------------------------------------------------------------------------------------------------------------------
# Making it

def wanted(case, share, large, asks=None):
    """(area, words, [(mode, root, indent, width)], asks), what to ask the Rust of a case, or None if its pool is too large to keep.
    `asks` gives the indents and widths of the same case in another pool."""
    area, words, roots = case.pool(share)
    if len(words) >= (WORDS_LIMIT if large else SMALL_POOL) or len(area) >= BYTES_LIMIT:
        return None
    pool = model.Pool(area, words)
    assert pool.fault == (0, 0), (case.seed, pool.fault)
    if asks is None:
        asks = []
        for mode, root in roots:
            indent = case.indent()
            rows, text = model.rows_of(model.document(pool, mode, root, indent))
            asks.append((indent, case.widths([r[4] for r in rows], 3)))
    return area, words, [(m, r, indent, w) for (m, r), (indent, widths) in zip(roots, asks) for w in widths], asks


def first_pools():
    """The specimens and what stands at the limits, as far as the domain has them."""
    for s in specimens.SPECIMENS:
        area, words, root = specimens.specimen_pool(s)
        yield area, words, [(s.mode, root, 2, w) for w in sorted({0, s.width - 1, s.width, 120})]
    for d in specimens.styles() + specimens.beyond_limits():
        if d.refusal is None and d.rust is not None and len(d.pool[1]) < WORDS_LIMIT:
            yield d.pool[0], d.pool[1], [(d.mode, d.root, indent, width) for indent, width in ((2, 120), (0, 40), (1, 4000))]


def directed_pools():
    """The trees of directed.py, so many to a pool, shared and unshared by turns, with all their notation rows."""
    for number, (trees, notation) in enumerate(together(directed.trees())):
        b = Builder(number % 2 == 0)
        roots = [(mode, b.expr(t) if mode == 0 else b.declar(*t)) for mode, t in trees]
        for row in notation:
            b.notation(*row)
        yield b.pool() + ([(m, r, (2, 4, 0)[i % 3], (120, 10, 30, 0, 18)[(i + number) % 5]) for i, (m, r) in enumerate(roots)],)


def together(trees):
    """Twelve trees at a time, and eight with the notation rows of all; fewer where two rows would give one name twice."""
    some, rows = [], {}
    for mode, tree, notation in trees:
        if len(some) >= (8 if rows else 12) or any(rows.get(row[1], row) != row for row in notation):
            yield some, list(rows.values())
            some, rows = [], {}
        some.append((mode, tree))
        rows.update((row[1], row) for row in notation)
    yield some, list(rows.values())


def random_pools(seed):
    """Without end, mostly small pools; of every tenth case kept a shared and an unshared pool follow, with the same prints."""
    number = kept = 0
    while True:
        case = Case(seed * 1000003 + number)
        large = number % 150 == 0
        found = wanted(case, (True, False, None)[number % 3], large)
        number += 1
        if found is None:
            continue
        yield found[:3]
        kept += 1
        both = [wanted(case, share, large, found[3]) for share in (True, False)] if kept % 10 == 0 else [None]
        if None not in both:
            yield both[0][:3]
            yield both[1][:3]


def last_text(rows):
    return max((i for i, row in enumerate(rows) if row[0] == model.TEXT and row[2]), default=0)


def asked(program, area, words, prints):
    """The prints that the Rust answers inside the domain, or would but for infix rows, whose operands it is given turned; with the counts
    that its own document and listing have."""
    requests = [rust.Request(*p, area, words) for p in prints]
    for q, reply in zip(requests, rust.ask(program, [turned.request(q) for q in requests])):
        if reply.status == rust.PRINTED and reply.in_domain and len(reply.listing) < LISTING_LIMIT:
            counts = rust.counts(reply, q.width)
            assert counts is not None, "listing and document of the Rust do not agree"
            yield PrintRecord(q.mode, q.root, q.indent, q.width, counts, reply.listing, reply.rows, reply.text, last_text(reply.rows))


def crosscheck(r):
    """The model gives the same listing, document and counts."""
    pool = model.Pool(r.area, r.words)
    assert pool.fault == (0, 0)
    for p in r.prints:
        lent = model.areas(7 * p.counts[0], p.counts[1], p.counts[2])
        answer = model.print_call(pool, p.mode, p.root, p.indent, p.width, lent)
        flat = [w for row in p.rows for w in row]
        assert (answer.number, answer.counts, lent) == (0, p.counts, (flat, p.text, p.listing)), (p, answer)


def make(program, prints, documents, seed):
    """So many prints, and the documents of so many of the smaller ones."""
    records, kept, left = [], 0, documents
    for number, (area, words, asks) in enumerate(chain(first_pools(), directed_pools(), random_pools(seed))):
        if kept >= prints:
            return records
        found = PoolRecord(area, words, list(asked(program, area, words, asks)))
        assert len(words) < WORDS_LIMIT and len(area) < BYTES_LIMIT and len(pool_bytes(found._replace(prints=[]))) <= POOL_LIMIT
        crosscheck(found)
        out = []
        for i, p in enumerate(found.prints[:prints - kept]):
            keep = left > 0 and p.counts[0] <= SMALL_DOCUMENT and (number < 30 or (i + number) % 6 == 0)
            left -= keep
            out.append(p if keep else p._replace(rows=None, text=None))
        if out:
            records.append(found._replace(prints=out))
        kept += len(out)


# ---------------------------------------------------------------------------------------------------------------------------------
# Figures

class Figures:
    """What the recorded prints reach: counted once for each print."""

    def __init__(self):
        self.prints = Counter()

    def take(self, pool, p):
        reached, self.printer = set(), model.Printer(pool, 0)
        if p.mode == 0:
            reached.add("print expression")
            self.expr(pool.exprs[p.root], reached)
        else:
            d = pool.declars[p.root]
            reached.add("declaration: " + specimens.WORDS[d.kind])
            self.name(d.name, reached)
            for level in d.levels:
                self.level(level, reached)
            for e in (d.type, d.value):
                if e is not None:
                    self.expr(e, reached)
        self.prints.update(reached)
        self.prints["width " + next(name for name, top in WIDTHS if p.width <= top)] += 1
        self.prints["indent " + ("0" if p.indent == 0 else "1-8" if p.indent <= 8 else "9-64")] += 1
        self.prints["broken" if p.counts[3] > 1 else "one line"] += 1
        if pool.operators:
            self.prints["notation: rows in the pool"] += 1
            self.prints["notation: infix rows in the pool"] += any(o.kind == model.INFIX for o in pool.operators.values())

    def name(self, name, reached):
        reached.add("name: " + name_shape(name))
        odd = [isinstance(c, bytes) and not model.is_plain(c) for c in name]
        if any(odd):
            reached.add("name: quoted" if all(odd) else "name: quoted in part")

    def level(self, level, reached):
        reached.add("level: " + ("zero", "successor", "max", "imax", "parameter")[level.kind])
        for f in level.fields:
            if isinstance(f, model.Node):
                self.level(f, reached)

    def expr(self, e, reached):
        stack, seen = [e], set()
        while stack:
            e = stack.pop()
            if e in seen:
                continue
            seen.add(e)
            reached.add("expression: " + KINDS[e.kind])
            operator = self.printer.operator(*model.spine(e)) if e.kind == model.APP else None
            if operator:
                reached.add("operator: " + ("prefix", "infix", "postfix")[operator.kind])
            if e.kind == model.SORT:
                reached.add("sort: " + ("Prop" if e.fields[0].kind == 0 else "of another level"))
                self.level(e.fields[0], reached)
                continue
            if e.kind in (model.PI, model.LAM):
                reached.add("style: " + ("default", "implicit", "strict", "instance")[e.fields[1]])
            if e.kind in (model.CONST, model.PI, model.LAM, model.LET):
                self.name(e.fields[0], reached)
            # what an application of an application is no part of: its function by itself
            stack += model.spine(e)[1] + [model.spine(e)[0]] if e.kind == model.APP else [f for f in e.fields if isinstance(f, model.Node)]


KINDS = ("variable", "sort", "constant", "application", "pi", "lambda", "let", "projection", "natural", "string literal")
WIDTHS = (("0", 0), ("1-20", 20), ("21-80", 80), ("81-200", 200), ("201-65,535", 65535))


def figures(records):
    f = Figures()
    for r in records:
        pool = model.Pool(r.area, r.words)
        assert pool.fault == (0, 0)
        for p in r.prints:
            f.take(pool, p)
    return f.prints


def main():
    if sys.argv[1:] != ["--figures"]:
        program, why = rust.build()
        if program is None:
            sys.exit("No corpus can be made: %s." % why)
        records = make(program, 4800, 450, 2026)
        os.makedirs(os.path.dirname(PATH), exist_ok=True)
        for path in (PATH, INPUT):
            with open(path, "wb") as f:
                f.write(file_bytes(records))
    records = read()
    prints = [p for r in records for p in r.prints]
    print("pools: %d, prints: %d, with document: %d" % (len(records), len(prints), sum(p.rows is not None for p in prints)))
    print("bytes: %d" % os.path.getsize(PATH))
    for name, count in sorted(figures(records).items()):
        print("%s: %d" % (name, count))


if __name__ == "__main__":
    main()
