"""The cases of crates/layout_test: documents laid out by both layouts, with every fault of number 9 and at every edge.

`layout_cases.py` makes that crate's stdin (the documents and calls) and stdout (what 01 and 02 say of each, by the model and its two layouts).

stdin: little-endian words of four bytes. Word 0 is the number of cases, word 1 the word that they start at. The text that a code stands for has its length at word four times
the code and its bytes, at most 12, after that. From word 1024 on are the codes of the documents, each document once: a byte for each row, j join, g group, n nest of 2, 0 and 1
breaks, the others texts. A case is 26 words:
  word 0   the word that its document's codes start at, and their bytes
  word 2   bytes of the title
  word 3   row count, text count and width of the call
  word 6   a word of the rows, and what is added to it after the document is made
  word 8   length of the listing area in bytes, and of the pending area in words
  word 10  the title, padded to 64 bytes

stdout: the title; rows and text bytes made, refusal and place (0 0); number and place of the first layout and six counts; then the first 64 bytes of the listing area. Then of
the second layout "same" where the eight numbers and the whole listing area are as the first left them, else its own numbers and area; and of the pending area "kept" where every
word is what it was, "zero" where every one is 0, else "other". All areas were filled with question marks.
"""
import os
import struct

import model

CRATE = os.path.join(os.path.dirname(os.path.abspath(__file__)), os.pardir, "crates", "layout_test")
INPUT_BYTES, LISTING_BYTES, PENDING_WORDS = 122880, 32768, 65536  # what the program has room for
SHOWN = 64  # bytes of a listing area that are written
MARKS = 0x3F3F3F3F
TEXTS = {"@": "@", "N": "Nat", "_": " ", ">": "→", "a": "abc", "d": "def", "h": "g", "A": "a\nb", "B": "\n\nc", "D": "d", "X": "xyz", "x": "x"}
EVENTS = {"j": (model.JOIN,), "g": (model.GROUP,), "n": (model.NEST, 2), "0": (model.BREAK, 0), "1": (model.BREAK, 1)}

SPECIMEN = "@Njgn_j>j1jg@Njjg"  # @Nat → @Nat, document 01's: 17 rows, 12 text bytes, 13 listed
EMPTY_BREAKS = "a0jdjg0jhj"  # breaks whose blank is empty, in a group and outside
NEWLINES = "A1jBj1jDjg"  # texts that hold newlines: they begin no line and do not end a row
LEAVES = "x1" * 4095 + "x"
LEFT_COMB = "x" + "".join(leaf + "j" for leaf in LEAVES) + "g"  # each join is the left child of the next: half of the rows are pending at once
RIGHT_COMB = "x" + LEAVES + "j" * 8191 + "g"  # each join is the last child of the next
GROUPS = "X" + "g" * 16383
NESTS = "x1jxj" + "n" * 16378 + "g"  # broken, its second line has 32,756 spaces
HOSTILE = (("16,383 groups", GROUPS, 3, 8256), ("left comb", LEFT_COMB, 4097, 8192), ("right comb", RIGHT_COMB, 4097, 8256), ("16,378 nests", NESTS, 2, 32759))


def case(title, codes, call, change=(0, 0), length=16, pending=None):
    """Title, codes, (row count, text count, width), word and what is added to it, lengths of the areas: the pending area has three words for each row unless something is said."""
    return title, codes, call, change, length, min(3 * call[0], PENDING_WORDS) if pending is None else pending


def specimen_cases():
    """The specimen with other counts and widths, with each word changed, and in listing areas of every length about its own."""
    call = lambda rows, text, width, what: case("specimen, %d rows, %d text bytes, width %d: %s" % (rows, text, width, what), SPECIMEN, (rows, text, width))
    yield call(17, 12, 0, "broken")
    yield call(17, 12, 12, "broken")
    yield call(17, 12, 13, "one line")
    yield call(17, 12, 65535, "one line")
    yield call(17, 12, 65536, "6")
    yield call(0, 0, 65536, "9 before 6")
    yield call(16385, 12, 9, "9")
    yield call(15, 12, 9, "9, two trees")
    yield call(17, 65537, 9, "9")
    yield call(17, 13, 65536, "9 before 6")
    yield call(17, 11, 9, "9, past the text")
    for word in range(119):
        yield case("specimen, row %d, word %d one more" % divmod(word, 7), SPECIMEN, (17, 12, 9), (word, 1))
    for length in range(10, 16):
        yield case("specimen in an area of %d bytes" % length, SPECIMEN, (17, 12, 12), length=length)


def document_cases():
    """Other documents, the hostile ones among them, broken and flat."""
    for name, codes, text, length in (("empty breaks", EMPTY_BREAKS, 7, 16), ("texts with newlines", NEWLINES, 7, 16)) + HOSTILE:
        for width in (2, 65535):
            yield case("%s, width %d" % (name, width), codes, (len(codes), text, width), length=length)
    yield case("16,378 nests, a byte short: 22", NESTS, (16384, 2, 2), length=32758)


def pending_cases():
    """Pending areas of other lengths. The specimen needs 51 words, and a listing area of 13 bytes."""
    lent = lambda words, what, call=(17, 12, 12), **rest: case("specimen, %d pending words: %s" % (words, what), SPECIMEN, call, pending=words, **rest)
    for words in (0, 1, 2, 3, 34, 50):
        yield lent(words, "30")
    for words in (52, 53, 54, 65536):
        yield lent(words, "all are cleared")
    for length in (0, 12):
        yield lent(50, "30 before 22, %d bytes" % length, length=length)
        yield lent(51, "22, %d bytes" % length, length=length)
        yield lent(65536, "22, %d bytes, all are cleared" % length, length=length)
    yield lent(50, "30, 13 bytes", length=13)
    yield lent(51, "13 bytes", length=13)
    for words in (0, 1, 50):
        yield lent(words, "6 before 30", (17, 12, 65536))
        yield lent(words, "6 before 30 and 22", (17, 12, 65536), length=0)
        yield lent(words, "9 before 30", change=(7, 1))
        yield lent(words, "9 before 6, 30 and 22", (17, 13, 65536), length=0)
    yield lent(0, "9, no row", (0, 0, 9))
    yield lent(0, "9, over the limit", (16385, 12, 9))
    yield lent(49155, "9, over the limit", (16385, 12, 9))
    yield lent(0, "9, far over the limit", (0xFFFFFFFF, 12, 9))
    for words in range(5):
        yield case("one row, %d pending words" % words, "x", (1, 1, 9), pending=words)


def hostile_pending_cases():
    """The hostile documents in pending areas one word under (30), with a listing area too short for most; and over."""
    for name, codes, text, length in HOSTILE:
        for width in (2, 65535):
            yield case("%s, width %d, a word under: 30" % (name, width), codes, (16384, text, width), length=SHOWN, pending=49151)
        yield case("%s, all 65,536 words" % name, codes, (16384, text, 2), length=length, pending=65536)
        yield case("%s, 6 before 30" % name, codes, (16384, text, 65536), length=SHOWN, pending=49151)


def cases():
    for some in (specimen_cases, document_cases, pending_cases, hostile_pending_cases):
        yield from some()


def padded(data):
    return data + bytes(-len(data) % 4)


def documents_bytes(chosen):
    """The codes of the documents, each once, and for each the word that it starts at."""
    data, starts = b"", {}
    for _, codes, *_ in chosen:
        if codes not in starts:
            starts[codes] = 1024 + len(data) // 4
            data += padded(codes.encode())
    return data, starts


def case_bytes(starts, title, codes, call, change, length, pending):
    title = (title + ":").encode()
    assert len(title) <= 64 and length <= LISTING_BYTES and pending <= PENDING_WORDS, title
    return struct.pack("<10I", starts[codes], len(codes), len(title), *call, *change, length, pending) + title.ljust(64, b"\0")


def table_bytes(count, start):
    """The texts of the codes; before them the number of cases and where they start."""
    table = bytearray(4096)
    struct.pack_into("<2I", table, 0, count, start)
    for code, text in TEXTS.items():
        data = text.encode()
        struct.pack_into("<I%ds" % len(data), table, 16 * ord(code), len(data), data)
    return bytes(table)


def input_bytes(chosen):
    codes, starts = documents_bytes(chosen)
    data = table_bytes(len(chosen), 1024 + len(codes) // 4) + codes + b"".join(case_bytes(starts, *c) for c in chosen)
    assert len(data) <= INPUT_BYTES
    return data


def document(codes, change):
    """(rows, text bytes) made, and the words and the text that a call is given."""
    walk = model.Walk().run(EVENTS[c] if c in EVENTS else (model.TEXT, TEXTS[c].encode()) for c in codes)
    assert walk.refusal is None
    words = [w for row in walk.rows for w in row] + [0] * (7 * (model.DOCUMENT_ROWS - len(walk.rows)))
    words[change[0]] = (words[change[0]] + change[1]) % 2 ** 32
    return (len(walk.rows), len(walk.text)), words, bytes(walk.text).ljust(model.DOCUMENT_BYTES, b"\0")


def numbers(a):
    return (a.number, a.place) + tuple(a.counts or (0,) * 6)


def shown(numbers):
    return "".join(" %d" % n for n in numbers).encode()


def shown_area(listing):
    return b"\n" + bytes(listing[:SHOWN]) + b"|\n"


def shown_pending(pending):
    """An area of no words has kept them."""
    if all(w == MARKS for w in pending):
        return b" kept\n"
    return b" other\n" if any(pending) else b" zero\n"


def answer(codes, call, change, length, pending):
    """What is written of a case after its title."""
    made, words, text = document(codes, change)
    rows, total, width = call
    first, second, pending = bytearray(b"?" * length), bytearray(b"?" * length), [MARKS] * pending
    a = numbers(model.layout_document(words, rows, text, total, width, first))
    b = numbers(model.layout_document_pending(words, rows, text, total, width, pending, second))
    if (a, first) == (b, second):
        word = b" same"
    else:
        assert b[0] == 30 and length <= SHOWN  # the layouts differ in nothing else, and the whole area is to be seen
        word = shown(b) + shown_area(second)
    return shown(made + (0, 0) + a) + shown_area(first) + word + shown_pending(pending)


def main():
    chosen = list(cases())
    with open(os.path.join(CRATE, "stdin"), "wb") as f:
        f.write(input_bytes(chosen))
    with open(os.path.join(CRATE, "stdout"), "wb") as f:
        f.writelines(title.encode() + b":" + answer(*rest) for title, *rest in chosen)


if __name__ == "__main__":
    main()
