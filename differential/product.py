"""The product as a program: rust/examples/prints over the static library (see README.md, "Requests and answers of the product")."""
import os
import shutil
import struct
import subprocess
import tempfile
from collections import namedtuple

import model
import rust

HERE = os.path.dirname(os.path.abspath(__file__))
TOP = os.path.dirname(HERE)
FILL = 0xA5
CHECK = 3
TEXT, STRING = 4, 5  # to hand out
PENDING = 6  # layout with a pending area
COMPARE = 7  # two expression rows
# `fault` says in words why there is no answer, or what the program found wrong with it; else it is None.
Reply = namedtuple("Reply", "number place listing rows text counts fault")
# One call: of a print the lengths of its areas (rows in words); of a layout the counts of rows and text bytes, and the listing's length; of a text to hand out these
# counts, `root` being the row. Of a layout with a pending area also that area's length, in words; of two rows, `root` and `second`.
Call = namedtuple("Call", "mode area words root indent width lengths pending second", defaults=(0, 0))
# `counts` of what is handed out are its bytes; of two rows 1 if they are equal, else 0, and the pair.
Called = namedtuple("Called", "number place counts areas fault")


def library():
    """(folder of the static library, None), or (None, why there is none)."""
    folder = os.environ.get("TILUSORGU_LIB_DIR") or os.path.join(TOP, "target", "staticlib")
    if not os.path.exists(os.path.join(folder, "liblister_c.a")):
        return None, "the static library is not at hand (rust/build-library makes it, or TILUSORGU_LIB_DIR names its folder)"
    if subprocess.run([os.path.join(TOP, "rust", "build-library"), "--check"]).returncode != 0:
        return None, "the static library is not of the crates as they stand (rust/build-library makes it anew)"
    return os.path.abspath(folder), None


def build(out=os.path.join(rust.OUT, "product")):
    """(program, None), or (None, what is not at hand)."""
    folder, why = library()
    if folder is None:
        return None, why
    if shutil.which("cargo") is None:
        return None, "cargo is not at hand"
    environment = dict(os.environ, TILUSORGU_LIB_DIR=folder, CARGO_TARGET_DIR=os.path.abspath(out))
    command = ["cargo", "build", "--release", "--offline", "--quiet", "--example", "prints", "--manifest-path", os.path.join(TOP, "rust", "Cargo.toml")]
    done = subprocess.run(command, capture_output=True, text=True, env=environment)
    if done.returncode != 0:
        raise rust.Broken("the product's program does not build: " + rust.last_lines(done.stderr))
    program = os.path.join(os.path.abspath(out), "release", "examples", "prints")
    _, fault = run(program, [], 60)
    if fault:
        raise rust.Broken("the product's program cannot be started: " + fault)
    return program, None


def run(program, requests, timeout):
    """(standard output, what went wrong or None) of one process."""
    with tempfile.NamedTemporaryFile() as f:
        f.writelines(requests)
        f.flush()
        try:
            done = subprocess.run([program, "--doc", f.name], stdout=subprocess.PIPE, stderr=subprocess.PIPE, timeout=timeout)
        except subprocess.TimeoutExpired as e:
            return e.stdout or b"", "no answer in %d seconds" % timeout
        except OSError as e:
            return b"", str(e)
    said = done.stderr.decode(errors="replace").strip().splitlines()
    return done.stdout, None if done.returncode == 0 else (said or ["the process ended with status %d" % done.returncode])[-1]


def replies(program, requests, decode, failed, timeout):
    """One reply for each request; after a request that has none, the next ones are asked in a process of their own. What goes wrong after the last answer
    is said of the last request."""
    out = []
    while len(out) < len(requests):
        data, fault = run(program, [r for r, _ in requests[len(out):]], timeout)
        at = 0
        while at < len(data) and len(out) < len(requests):
            try:
                reply, at = decode(data, at, requests[len(out)][1])
            except struct.error:
                break
            out.append(reply)
        if len(out) < len(requests):
            out.append(failed(fault or "no answer"))
        elif fault or at != len(data):
            out[-1] = failed(fault or "more than the answers")
    return out


def decode(data, at, _):
    reply, at = rust.decode(data, at)
    number, place = struct.unpack_from("<2I", data, at - size_of(reply))
    counts = struct.unpack_from("<6Q", data, at)
    return Reply(number, place, reply.listing, reply.rows, reply.text, counts, None), at + 48


def size_of(reply):
    return 12 + len(reply.listing) + 4 + 28 * len(reply.rows) + 4 + len(reply.text)


def ask(program, requests, timeout=300):
    """One Reply for each rust.Request; the timeout in seconds is for all of them."""
    return replies(program, [(rust.encode(q), q) for q in requests], decode, lambda fault: Reply(None, None, b"", [], b"", None, fault), timeout)


def encode_call(c):
    q = rust.encode(rust.Request(c.mode, c.root, c.indent, c.width, c.area, c.words))
    fourth = {PENDING: c.pending, COMPARE: c.second}
    return b"PLC1" + q[4:] + struct.pack("<3I", *c.lengths) + (struct.pack("<I", fourth[c.mode]) if c.mode in fourth else b"")


def area_lengths(c):
    """Of the areas that are answered; a pending area stands where a print's row area does."""
    if c.mode < 2:
        return c.lengths
    return (c.pending if c.mode == PENDING else 0, 0, c.lengths[2] if c.mode in (2, PENDING) else 0)


def decode_call(data, at, c):
    out = struct.unpack_from("<8Q", data, at)
    rows, text, listing = area_lengths(c)
    words = list(struct.unpack_from("<%dI" % rows, data, at + 64))
    at += 64 + 4 * rows
    if at + text + listing > len(data):
        raise struct.error
    areas = model.Areas(words, data[at:at + text], data[at + text:at + text + listing])
    if c.mode in (TEXT, STRING):
        offset, length = out[2:4]
        inside = offset + length <= len(c.area) and not any(out[4:])
        return Called(out[0], out[1], bytes(c.area[offset:offset + length]), areas, None if inside else "no part of its area: %r" % (out,)), at
    if c.mode == COMPARE:
        return Called(out[0], out[1], out[2:5] if out[0] == 0 else None, areas, "more than a pair: %r" % (out,) if any(out[5:]) else None), at
    return Called(out[0], out[1], out[2:] if out[0] == 0 and c.mode != CHECK else None, areas, None), at + text + listing


def call(program, calls, timeout=300):
    """One Called for each Call: number, place, counts of a success, and the areas as they were left (filled with FILL before)."""
    failed = lambda fault: Called(None, None, None, None, fault)
    return replies(program, [(encode_call(c), c) for c in calls], decode_call, failed, timeout)


def by_model(c):
    """The same of the model."""
    if c.mode == CHECK:
        number, place = model.check(c.area, c.words)
        return Called(number, place, None, model.Areas([], b"", b""), None)
    if c.mode in (TEXT, STRING):
        of_text = lambda: model.hand_out_text(c.words, c.lengths[0], c.area, c.lengths[1], c.root)
        handed = of_text() if c.mode == TEXT else model.hand_out_string(model.Pool(c.area, c.words), c.root)
        return Called(0, 0, bytes(handed), model.Areas([], b"", b""), None)
    if c.mode == COMPARE:
        return Called(*model.compare(model.Pool(c.area, c.words), c.root, c.second)[:3], model.Areas([], b"", b""), None)
    rows, text, listing = area_lengths(c)
    lent = model.Areas([FILL * 0x01010101] * rows, bytearray([FILL]) * text, bytearray([FILL]) * listing)
    if c.mode == 2:
        answer = model.layout_document(c.words, c.lengths[0], bytearray(c.area), c.lengths[1], c.width, lent.listing)
    elif c.mode == PENDING:
        answer = model.layout_document_pending(c.words, c.lengths[0], bytearray(c.area), c.lengths[1], c.width, lent.rows, lent.listing)
    else:
        answer = model.print_call(model.Pool(c.area, c.words), c.mode, c.root, c.indent, c.width, lent)
    counts = None if answer.counts is None else tuple(answer.counts)
    return Called(answer.number, answer.place, counts, model.Areas(lent.rows, bytes(lent.text), bytes(lent.listing)), None)
