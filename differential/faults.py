"""Deliberate faults in the model: each is put into a copy, and the corpus replayed against that copy has to find it (three minutes).

    faults.py [part of a title]
"""
import os
import shutil
import subprocess
import sys
import tempfile

HERE = os.path.dirname(os.path.abspath(__file__))
TESTED = "            tests += not flat\n"
FITS = "            flat = int(flat or len(listing) + size + distance <= row_start + width)\n"
EMIT_NEST = '        self.emit(b" " * amount)\n'
INFIX_DOC = "operands[0], operator.string, empty_break(), operands[1]"
PREFIX_DOC = "join(group(join(operator.string, empty_break())), operands[0])"
POSTFIX_DOC = "join(operands[0], empty_break(), operator.string)"
COUNT_HOLDS = "len(arguments) == (2 if found.kind == INFIX else 1)"
IF_ZERO = "        if level.kind == 0:\n"
BY_NAME = "self.pool.operators.get(head.fields[0])"
RETURN_PAIR = "        return a.row, b.row\n"
RETURN_CHILDREN = "        return next((d for x, y in zip(children(a), children(b)) if (d := first_difference(x, y, equal))), (a.row, b.row))\n"
# title, text of model.py, what stands there instead
FAULTS = (
    ("fit test with <", "self.after[row + 1] <= self.row_end", "self.after[row + 1] < self.row_end"),
    ("fit test blind to what follows", " + self.after[row + 1] <= self.row_end", " <= self.row_end"),
    ("fit tests inside flat groups", "row[0] == GROUP and i not in inside for", "row[0] == GROUP for"),
    ("a flat group itself not counted", "range(group - self.rows[group][3] + 1, group)}", "range(group - self.rows[group][3] + 1, group + 1)}"),
    ("parentheses at equal levels", "if outer > inner else d", "if outer >= inner else d"),
    ("tail of an arrow under 25", "self.run(binders[1:], body, names, 24)", "self.run(binders[1:], body, names, 25)"),
    ("types not lifted past their own binder", "b.fields[2], len(rows) - i)", "b.fields[2], len(rows) - i - 1)"),
    ("value not lifted", "value = lift(self.pool, value, len(binders) - taken)", "pass"),
    ("hygienic names are no arrows", " or b.name == () or is_hygienic(b.name))", " or b.name == ())"),
    ("row's end after the indentation", "self.position + self.width\n        self.emit", "self.position + self.width + amount\n        self.emit"),
    ("longest row without indentation", EMIT_NEST + "\n    def outside", EMIT_NEST + "        self.row_start = self.position\n\n    def outside"),
    ("lines of bytes of value 10", "self.broken + 1", "self.listing.count(10) + 1"),
    ("lines without the first row", "self.broken + 1", "self.broken"),
    ("end of a letter range included", "(0x03B1, 0x03C9)", "(0x03B1, 0x03CA)"),
    ("end of a digit range included", "(0x2080, 0x2089)", "(0x2080, 0x208A)"),
    ("instance binders grouped", "if first.style == 3:", "if first.style == 4:"),
    ("level lists not compared", "return tuple(level.tree for level in field)", "return ()"),
    ("nondep not compared", "tuple(key_of(f) for f in n.fields)", "tuple(key_of(f) for f in n.fields[:4])"),
    ("projection index not raised", "str(e.fields[1] + 1)", "str(e.fields[1])"),
    ("anonymous binders taken", "binders[n].name != () and ", ""),
    ("every anonymous binder prints _", "b.name == () and not b.occurs else", "b.name == () else"),
    ("no component in marks", "return component if is_plain(component) else", "return component if True else"),
    ("the anonymous name bare", 'return "«»".encode()', 'return b""'),
    ("pending: the area not cleared", "pending[:] = [0] * len(pending)", "pass"),
    ("pending: the area cleared for the rows alone", "pending[:] = [0] * len(pending)", "pending[:3 * len(rows)] = [0] * (3 * len(rows))"),
    ("pending: 30 a word too early", "if len(pending) < 3 * len(rows):", "if len(pending) <= 3 * len(rows):"),
    ("pending: 30 a word too late", "if len(pending) < 3 * len(rows):", "if len(pending) + 1 < 3 * len(rows):"),
    ("pending: lines of bytes of value 10", "len(listing), lines, longest", "len(listing), listing.count(10) + 1, longest"),
    ("pending: fit tests inside flat groups", "tests += not flat", "tests += 1"),
    ("pending: a flat group itself not counted", TESTED + FITS, FITS + TESTED),
    ("pending: what follows a part not carried", "right_first if right_has else right_first + distance", "right_first"),
    ("compared: front first", "in zip(reversed(children(a)), reversed(children(b))):", "in zip(children(a), children(b)):"),
    ("compared: names no fields", 'if letter != "e"]', 'if letter not in "ea"]'),
    ("compared: levels no fields", 'if letter != "e"]', 'if letter not in "el"]'),
    ("compared: lists of levels no fields", 'if letter != "e"]', 'if letter not in "ek"]'),
    ("compared: strings no fields", 'if letter != "e"]', 'if letter not in "et"]'),
    ("compared: indices, styles and nondep no fields", 'if letter != "e"]', 'if letter not in "en"]'),
    ("compared: kinds no matter", "if a.kind != b.kind or own_fields(a)", "if own_fields(a)"),
    ("compared: children before their row", RETURN_PAIR, RETURN_CHILDREN),
    ("compared: pairs kept by their first row", "(a.row, b.row) in equal", "a.row in {a for a, _ in equal}"),
    ("compared: equal trees in other rows differ", "or own_fields(a) != own_fields(b):", "or own_fields(a) != own_fields(b) or a.row != b.row:"),
    ("compared: the pair the other way round", RETURN_PAIR, "        return b.row, a.row\n"),
    ("compared: 5 for the last row", "max(first, second) >= pool", "max(first, second) + 1 >= pool"),
    ("operators: operands swapped", INFIX_DOC, "operands[1], operator.string, empty_break(), operands[0]"),
    ("operators: the priority for the result", "return operator.priority - 1", "return operator.priority"),
    ("operators: 1,023 for the result", "return operator.priority - 1", "return 1023"),
    ("operators: operands under the result's level", "names, operator.priority) for a", "names, operator.priority - 1) for a"),
    ("operators: operands under 1,024", "names, operator.priority) for a", "names, 1024) for a"),
    ("operators: over more arguments", COUNT_HOLDS, "len(arguments) >= (2 if found.kind == INFIX else 1)"),
    ("operators: infix over three arguments", COUNT_HOLDS, "len(arguments) in ((2, 3) if found.kind == INFIX else (1,))"),
    ("operators: prefix and postfix over two arguments", COUNT_HOLDS, "len(arguments) in ((2,) if found.kind == INFIX else (1, 2))"),
    ("operators: found by the name's row", BY_NAME, "next((o for name, o in self.pool.operators.items() if name is head.fields[0]), None)"),
    ("operators: found by the last component", BY_NAME,
     "next((o for name, o in self.pool.operators.items() if name[-1:] == head.fields[0][-1:]), None)"),
    ("operators: none of a name with levels", BY_NAME, "self.pool.operators.get(None if head.fields[1] else head.fields[0])"),
    ("operators: none of the anonymous name", BY_NAME, "self.pool.operators.get(head.fields[0] or None)"),
    ("operators: none with an empty string", "return found if found and", "return found if found and found.string and"),
    ("operators: a blank of 1", "return [(BREAK, 0)]", "return [(BREAK, 1)]"),
    ("operators: prefix without a group", PREFIX_DOC, "join(operator.string, empty_break(), operands[0])"),
    ("operators: prefix with the operand in the group", PREFIX_DOC, "group(join(operator.string, empty_break(), operands[0]))"),
    ("operators: infix with the break before the string", INFIX_DOC, "operands[0], empty_break(), operator.string, operands[1]"),
    ("operators: infix without a nest", "return self.nested_group(join(operands[0]", "return group(join(operands[0]"),
    ("operators: postfix with the break behind the string", POSTFIX_DOC, "join(operands[0], operator.string, empty_break())"),
    ("operators: postfix like prefix", "if operator.kind == PREFIX:", "if operator.kind != INFIX:"),
    ("Prop for max 0 0", IF_ZERO, "        if level.kind == 0 or level.kind == 2 and all(l.kind == 0 for l in level.fields):\n"),
    ("Prop for imax u 0", IF_ZERO, "        if level.kind == 0 or level.kind == 3 and level.fields[1].kind == 0:\n"),
    ("no Prop", IF_ZERO, "        if False:\n"),
    ("the anonymous marks as texts of their own", "return part(name_text(name))", 'return part(name_text(name)) if name else join("«", "", "»")'),
)


def found(title, old, new):
    """Replays the corpus against a copy of this folder with the fault in it."""
    with tempfile.TemporaryDirectory() as top:
        copy = os.path.join(top, "differential")
        shutil.copytree(HERE, copy)
        path = os.path.join(copy, "model.py")
        with open(path) as f:
            text = f.read()
        assert text.count(old) == 1, title
        with open(path, "w") as f:
            f.write(text.replace(old, new))
        done = subprocess.run([os.path.join(copy, "run"), "--no-rust", "--no-product", "--corpus-alone"], capture_output=True, text=True)
    last = (done.stdout.strip().splitlines() or ["no output"])[-1]
    print("%s: %s" % (title, last), flush=True)
    return done.returncode == 1 and last.endswith(" failed")


def main():
    chosen = [f for f in FAULTS if not sys.argv[1:] or sys.argv[1] in f[0]]
    missed = [f[0] for f in chosen if not found(*f)]
    print("%d passed, %d failed" % (len(chosen) - len(missed), len(missed)))
    return 1 if missed else 0


if __name__ == "__main__":
    sys.exit(main())
