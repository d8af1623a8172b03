"""Writes recorded prints as terms of antt, so that the definitions of specs/ compute them: `compute.py` writes
../crates/computed/specs/Part*.antt from corpus/prints.bin. A check of that crate then shows that the definitions give the
Rust's document rows, texts and listing, with 01's counts, in areas a little longer than needed; and, against model.py, what
is refused in areas that are too short."""
import os
import re
import sys

import model
import record
from pools import NOTATION, table

HERE = os.path.dirname(os.path.abspath(__file__))
OUT = os.path.join(HERE, "..", "crates", "computed", "specs")
WORDS, ROWS, PRINTS, PER_FILE = 420, 110, 200, 17


def numbers(values):
    return 'numbers "%s"' % " ".join(map(str, values))


def source(r):
    return 'source "%s" "%s"' % (" ".join(map(str, r.area)), " ".join(map(str, r.words)))


def quoted(text):
    """A listing as a quoted text where it is UTF-8."""
    escapes = {"\\": "\\\\", '"': '\\"', "\n": "\\n", "\t": "\\t", "\r": "\\r", "\0": "\\0"}
    return 'bytes "%s"' % "".join(escapes.get(c, c) for c in bytes(text).decode())


def small(r, p):
    return p.rows is not None and len(r.words) <= WORDS and len(p.rows) <= ROWS


def chosen(records):
    """Spread over the corpus: the small prints, every so manieth."""
    picked = [(r, p) for r in records for p in r.prints if small(r, p)]
    return [picked[i * len(picked) // PRINTS] for i in range(min(PRINTS, len(picked)))]


def term(n, r, p):
    call = ("print_expr", "print_declar")[p.mode]
    c = p.counts
    flat = [w for row in p.rows for w in row]
    return """-- %s %d, indent %d, width %d
pub print%d :
    %s (%s) %d %d %d (lent %d %d %d)
    ≡ done (counts %s) (%s) (%s) (%s)
unfolding computing numbers source lent counts done
print%d = refl
""" % (("expression", "declaration")[p.mode], p.root, p.indent, p.width, n, call, source(r), p.root,
       p.indent, p.width, len(p.rows), len(p.text), len(p.listing), " ".join(map(str, c)), numbers(flat), numbers(p.text),
       quoted(p.listing), n)


CASES = {7: "(Names %d)", 8: "(Document %d)", 20: "(RowArea %d)", 21: "(TextArea %d)", 22: "Listing"}


def short_lengths(p):
    """Areas that are too short in one way each: no room, one word or byte less than needed, half of it."""
    rows, text, listing = 7 * len(p.rows), len(p.text), len(p.listing)
    return [(rows - 1, text, listing), (rows, text - 1, listing), (rows, text, listing - 1), (rows // 2, text, listing),
            (rows, text // 2, listing), (rows // 2, text // 2, listing), (rows, text, 0), (0, 0, 0)]


def short_term(n, r, p, lengths):
    """A print into areas that are too short: the refusal and what the areas hold, from model.py."""
    pool = model.Pool(bytes(r.area), list(r.words))
    assert pool.fault == (0, 0)
    call = (model.print_expression, model.print_declaration)[p.mode]
    a = call(pool, p.root, p.indent, p.width, model.areas(*lengths, fill=7))
    case = CASES[a.number]
    return """-- %s %d, indent %d, width %d: refused %d at %d
pub refusal%d :
    %s (%s) %d %d %d (filled %d %d %d)
    ≡ left (Err %s) (%s) (%s) (%s)
unfolding computing numbers source filled left
refusal%d = refl
""" % (("expression", "declaration")[p.mode], p.root, p.indent, p.width, a.number, a.place, n, ("print_expr", "print_declar")[p.mode],
       source(r), p.root, p.indent, p.width, *lengths, case % a.place if "%" in case else case,
       numbers(a.areas.rows), numbers(a.areas.text), numbers(a.areas.listing), n)


HEADER = """-- %s, computed by the definitions. Written by differential/compute.py.
use Rattle.std.specs.Prelude.{%s}
%suse Rattle.lister.specs.Prints.{%s}
use Rattle.specimens.specs.Computing.{computing}
use Rattle.computed.specs.Areas.{%s}

"""


def write(name, title, first, areas, terms):
    """A file of specs/ that imports what its terms name; `first` has the line between std's and the prints'."""
    text = "\n".join(terms)
    used = lambda names: ", ".join(n for n in names if re.search(r"\b%s\b" % n, text))
    with open(os.path.join(OUT, name + ".antt"), "w") as f:
        f.write(HEADER % (title, "◌≡◌, refl, Err" if "(Err " in text else "◌≡◌, refl", first % used(("Names", "Document", "RowArea", "TextArea", "Listing")) if "%s" in first else first,
                          used(("print_expr", "print_declar")), areas) + text)


def write_refusals(picked):
    """Eight kinds of short areas, each for a few of the smaller prints that are not trivial, the last one's pool with notation rows."""
    prints = [(r, p) for r, p in picked if 12 <= len(p.rows) <= 24 and len(r.words) <= 160]
    prints = prints[:2] + [(r, p) for r, p in prints if table(r.words, NOTATION)][:1]
    terms = [short_term(n, r, p, lengths) for n, (r, p, lengths) in enumerate((r, p, lengths) for r, p in prints for lengths in short_lengths(p))]
    write("Refusals", "Prints into short areas, as model.py has them", "use Rattle.lister.specs.declared.error.PrintError.TheVariants.{%s}\n",
          "numbers, source, filled, left", terms)
    return len(terms)


def main():
    picked = chosen(record.read())
    for old in os.listdir(OUT):
        if old.startswith("Part"):
            os.remove(os.path.join(OUT, old))
    parts = [picked[i:i + PER_FILE] for i in range(0, len(picked), PER_FILE)]
    for k, part in enumerate(parts):
        terms = [term(k * PER_FILE + i, r, p) for i, (r, p) in enumerate(part)]
        write("Part%d" % k, "Recorded prints %d to %d" % (k * PER_FILE, k * PER_FILE + len(part) - 1), "use Rattle.utf8.specs.Quoted.{bytes}\n",
              "numbers, source, lent, counts, done", terms)
    refusals = write_refusals(picked)
    with open(os.path.join(OUT, "Lib.antt"), "w") as f:
        f.write("pub mod Areas\n" + "".join("pub mod Part%d\n" % k for k in range(len(parts))) + "pub mod Refusals\n")
    print("%d prints in %d files, %d refusals" % (len(picked), len(parts), refusals))


if __name__ == "__main__":
    sys.exit(main())
