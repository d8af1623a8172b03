"""The published Rust as a program (harness/ edits it as document 02 asks): requests to the harness and its answers (see README.md, "Requests and answers")."""
import os
import struct
import subprocess
import tempfile
from collections import namedtuple

HERE = os.path.dirname(os.path.abspath(__file__))
OUT = os.path.join(HERE, "..", "target", "differential")
NOT_AT_HAND = 3  # status of harness/build
EXPRESSION, DECLARATION, LAYOUT = range(3)
TURNED = 16  # added to the mode of a print where infix operands have been put the other way round (turned.py)
PRINTED, PANICKED, NO_ANSWER = range(3)

Request = namedtuple("Request", "mode root indent width area words")
Reply = namedtuple("Reply", "status in_domain listing rows text")


class Broken(Exception):
    """What is at hand does not work: a program that does not build, does not start or ends early."""


def last_lines(said):
    """The end of what a program said, for a message."""
    return "\n    ".join(said.strip().splitlines()[-12:]) or "no message"


def build(out=OUT):
    """(program, None), or (None, what is not at hand)."""
    done = subprocess.run([os.path.join(HERE, "harness", "build"), out], capture_output=True, text=True)
    if done.returncode == NOT_AT_HAND:
        return None, ", ".join(done.stderr.strip().splitlines())
    if done.returncode != 0:
        raise Broken("the harness does not build: " + last_lines(done.stderr))
    return done.stdout.strip().splitlines()[-1], None


def encode(q):
    head = b"PLQ1" + struct.pack("<5I", q.mode, q.root, q.indent, q.width, len(q.area))
    return head + bytes(q.area) + struct.pack("<%dI" % (len(q.words) + 1), len(q.words), *q.words)


def decode(data, at):
    """The answer that starts at this byte, and where the next one starts."""
    status, in_domain, length = struct.unpack_from("<3I", data, at)
    at += 12
    listing = data[at:at + length]
    at += length
    count = struct.unpack_from("<I", data, at)[0]
    flat = struct.unpack_from("<%dI" % (7 * count), data, at + 4)
    at += 4 + 28 * count
    length = struct.unpack_from("<I", data, at)[0]
    text = data[at + 4:at + 4 + length]
    rows = [flat[i:i + 7] for i in range(0, len(flat), 7)]
    return Reply(status, bool(in_domain), listing, rows, text), at + 4 + length


def ask(program, requests, timeout=20000):
    """One reply for each request, with its document; the timeout in milliseconds is for each."""
    if not requests:
        return []
    with tempfile.NamedTemporaryFile() as f:
        for q in requests:
            f.write(encode(q))
        f.flush()
        environment = dict(os.environ, ORACLE_TIMEOUT_MS=str(timeout))
        try:
            done = subprocess.run([program, "--doc", f.name], stdout=subprocess.PIPE, stderr=subprocess.DEVNULL, env=environment)
        except OSError as e:
            raise Broken("the harness cannot be started: %s" % e)
    replies, at = [], 0
    try:
        while len(replies) < len(requests):
            reply, at = decode(done.stdout, at)
            replies.append(reply)
    except struct.error:
        pass
    if done.returncode != 0 or len(replies) < len(requests) or at != len(done.stdout):
        raise Broken("the harness ended with status %d, %d of %d requests answered" % (done.returncode, len(replies), len(requests)))
    return replies


class Follow:
    """Follows the Rust's document along the Rust's listing and counts what 01 counts. Written apart from model.py: by recursion from
    the last row, with the distance after a part handed down."""

    def __init__(self, reply, width):
        self.rows, self.text, self.listing, self.width = reply.rows, reply.text, reply.listing, width
        self.position, self.start, self.end, self.longest, self.tests, self.true = 0, 0, width, 0, 0, True

    def counts(self):
        """(document rows, text bytes, listing length, lines, longest row, fit tests), or None if listing and document do not agree."""
        self.visit(len(self.rows) - 1, False, 0, 0)
        self.longest = max(self.longest, self.position - self.start)
        if not self.true or self.position != len(self.listing):
            return None
        # each text is listed once, so the newlines that no text has are those of broken places
        lines = self.listing.count(b"\n") - self.text.count(b"\n") + 1
        return (len(self.rows), len(self.text), len(self.listing), lines, self.longest, self.tests)

    def meet(self, data):
        self.true &= self.listing[self.position:self.position + len(data)] == data
        self.position += len(data)

    def visit(self, at, flat, nest, after):
        kind, one, two, _, size, _, _ = self.rows[at]
        if kind == 0:
            self.meet(self.text[one:one + two])
        elif kind == 1:
            left, (_, _, _, _, size, distance, has_break) = at - 1 - self.rows[at - 1][3], self.rows[at - 1]
            self.visit(left, flat, nest, distance if has_break else size + after)
            self.visit(at - 1, flat, nest, after)
        elif kind == 3:
            self.visit(at - 1, flat, nest + one, after)
        elif kind == 4:
            self.tests += not flat
            self.visit(at - 1, flat or self.position + size + after <= self.end, nest, after)
        elif flat:
            self.meet(b" " * one)
        else:
            self.longest = max(self.longest, self.position - self.start)
            self.meet(b"\n")
            self.start, self.end = self.position, self.position + self.width
            self.meet(b" " * nest)


def counts(reply, width):
    return Follow(reply, width).counts()
