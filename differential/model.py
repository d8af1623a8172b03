"""An executable model of document 01, written from its sentences; quoted sentences are 01's, or 02's under their number (P1).

    pool = Pool(area, words)                pool.fault: (number, place) of check, (0, 0) when accepted
    print_expression(pool, root, indent, width, areas)   print_declaration(...)      -> Answer
    layout_document(rows, row_count, text, text_count, width, listing)               -> Answer
    compare(pool, first, second)            of two expression rows                     -> Answer
    document(pool, mode, root, indent)      the events of a print's document, lazily, in document order
    rows_of(events) -> (rows, text)         layout(rows, text, width) -> Laid          tree_of(events): the document as nested tuples
    pool.exprs[row], pool.declars[row]      trees of an accepted pool                  expr_term(e): the tree as pools.py takes it
    pool.operators                          its notation rows by their names' trees
    hand_out_text, hand_out_string          document_fault: the place of 9, or None

Areas are Areas(rows, text, listing): a list of words and two bytearrays, which a call changes as 01 says.
"""
import sys
from collections import namedtuple
from functools import cached_property

sys.setrecursionlimit(100000)  # the printers call one another as deep as the tree is

# ---------------------------------------------------------------------------------------------------------------------------------
# Pool and check

STRINGS, NAMES, LEVELS, LISTS, WORDS, EXPRS, DECLARS, NOTATION = range(8)
ROW_WORDS = (2, 4, 3, 2, 1, 8, 5, 4)
HEAD_WORDS = 8  # P5: "an eighth head word, the count of notation rows behind the declarations"
VAR, SORT, CONST, APP, PI, LAM, LET, PROJ, NAT, STR = range(10)
PREFIX, INFIX, POSTFIX = range(3)
COUNT_LIMIT, BYTE_LIMIT = 65536, 16777216
LAST_PRIORITY = 1023
LAST_PROJECTION = 65535
DOCUMENT_ROWS, DOCUMENT_BYTES, STACK_LIMIT = 16384, 65536, 1024

# "variable (index); sort (level); constant (name, list) ...": the table each field refers to, "n" a number, "t" a string.
EXPR_FIELDS = {
    VAR: "n", SORT: "l", CONST: "ak", APP: "ee", PI: "anee", LAM: "anee", LET: "aeeen", PROJ: "ane", NAT: "t", STR: "t",
}
NAME_FIELDS = ((), "at", "ann")
LEVEL_FIELDS = ("", "l", "ll", "ll", "a")
TABLE_OF = {"t": STRINGS, "a": NAMES, "l": LEVELS, "k": LISTS, "e": EXPRS}


class Fault(Exception):
    """A row breaks a rule."""


def need(condition):
    if not condition:
        raise Fault


class Node:
    """A level or an expression: kind, fields (names as tuples, lists as tuples of nodes), the row it unfolds, its depth and loose
    number, and `tree`, a number that is equal exactly for equal trees."""
    __slots__ = ("kind", "fields", "row", "depth", "loose", "tree")


class Pool:
    def __init__(self, area, words):
        self.area, self.words = bytes(area), list(words)
        self.numbers = {}
        self.strings, self.names, self.levels, self.lists, self.list_words, self.exprs, self.declars, self.notation = ([] for _ in range(8))
        self.trees = (self.strings, self.names, self.levels, self.lists, self.list_words, self.exprs, self.declars, self.notation)
        self.operators = {}  # the notation rows by their name trees

    @cached_property
    def fault(self):
        '''"Check order as listed; tables in order, rows rising." The trees of the rows are made on the way.'''
        words = self.words
        if len(words) < HEAD_WORDS or len(words) != HEAD_WORDS + sum(n * w for n, w in zip(words, ROW_WORDS)):
            return 1, 0
        if max(words[:HEAD_WORDS]) > COUNT_LIMIT or len(self.area) > BYTE_LIMIT:
            return 2, 0
        at = HEAD_WORDS
        readers = (self.string_row, self.name_row, self.level_row, self.list_row, self.list_word, self.expr_row, self.declar_row,
                   self.notation_row)
        # the list words stand after the lists in the words, and the lists are read from them: their own rules come in order.
        for table, read in enumerate(readers):
            for row in range(words[table]):
                try:
                    self.trees[table].append(read(row, words[at:at + ROW_WORDS[table]]))
                except Fault:
                    return self.number_of(table, row)
                at += ROW_WORDS[table]
        return 0, 0

    def number_of(self, table, row):
        '''"3: a string pair. 4: any other row rule."  P5: "31 for a notation row ..., checked after 4", its place being "else 0".'''
        if table == NOTATION:
            return 31, 0
        return (3 if table == STRINGS else 4), row

    def string_row(self, row, fields):
        '''"(offset, length) pairs into the byte area, offsets never falling, each UTF-8."'''
        offset, length = fields
        need(row == 0 or self.words[HEAD_WORDS + 2 * (row - 1)] <= offset)
        need(offset + length <= len(self.area))
        data = self.area[offset:offset + length]
        try:
            data.decode("utf-8")
        except UnicodeDecodeError:
            raise Fault
        return data

    def refer(self, table, row, own=None):
        '''"A reference goes to a row that exists, within one table to a lower one."'''
        need(row < (own if own is not None else self.words[table]))

    def name_row(self, row, fields):
        '''"0 anonymous; 1 string (low = string row); 2 number (64 bits)."'''
        kind, prefix, low, high = fields
        need(kind <= 2)
        if kind == 0:
            need(prefix == low == high == 0)
            return ()
        self.refer(NAMES, prefix, row)
        if kind == 1:
            self.refer(STRINGS, low)
            need(high == 0)
        name = self.names[prefix] + ((self.strings[low],) if kind == 1 else (low + (high << 32),))
        need(len(name) + 1 <= 64)
        return name

    def level_row(self, row, fields):
        '''"0 zero; 1 successor of a; 2 max; 3 imax; 4 parameter (a = name)."  Depth at most 64.'''
        kind = fields[0]
        need(kind <= 4)
        shape = LEVEL_FIELDS[kind]
        need(not any(fields[1 + len(shape):]))
        for letter, field in zip(shape, fields[1:]):
            self.refer(TABLE_OF[letter], field, row if letter == "l" else None)
        node = self.node(LEVELS, kind, [self.trees[TABLE_OF[l]][f] for l, f in zip(shape, fields[1:])], row)
        need(node.depth <= 64)
        return node

    def list_row(self, row, fields):
        '''"(offset, length) pairs into the Q list words, offsets never falling."  The levels are looked up when asked for.'''
        offset, length = fields
        start = HEAD_WORDS + 2 * self.words[STRINGS] + 4 * self.words[NAMES] + 3 * self.words[LEVELS]
        need(row == 0 or self.words[start + 2 * (row - 1)] <= offset)
        need(offset + length <= self.words[WORDS])
        return offset, length

    def list_word(self, row, fields):
        '''"A list word is a level row."'''
        self.refer(LEVELS, fields[0])
        return self.levels[fields[0]]

    def list_levels(self, row):
        offset, length = self.lists[row]
        return tuple(self.list_words[offset:offset + length])

    def expr_row(self, row, fields):
        '''"kind, five fields, depth, loose."  "Depth is 1 at a leaf, else one more than the deepest child in its table: at most 256".
        "Variable index at most 4,095".  P8: "Index 65,535 is to print `.65536`, and check accepts it; 65,536 is refused 4."'''
        kind, depth, loose = fields[0], fields[6], fields[7]
        need(kind <= 9)
        shape = EXPR_FIELDS[kind]
        need(not any(fields[1 + len(shape):6]))
        values = [self.expr_field(row, letter, field) for letter, field in zip(shape, fields[1:])]
        need(kind != VAR or values[0] <= 4095)
        need(kind not in (PI, LAM) or values[1] <= 3)
        need(kind != LET or values[4] <= 1)
        need(kind != PROJ or values[1] <= LAST_PROJECTION)
        need(kind != NAT or digits(values[0]))
        node = self.node(EXPRS, kind, values, row)
        need(node.depth == depth <= 256 and node.loose == loose)
        return node

    def expr_field(self, row, letter, field):
        if letter == "n":
            return field
        self.refer(TABLE_OF[letter], field, row if letter == "e" else None)
        return self.list_levels(field) if letter == "k" else self.trees[TABLE_OF[letter]][field]

    def declar_row(self, row, fields):
        '''"kind, name, list, type, value ... value is used by 2 to 4 only."'''
        kind, name, levels, type, value = fields
        need(kind <= 7)
        self.refer(NAMES, name)
        self.refer(LISTS, levels)
        self.refer(EXPRS, type)
        if 2 <= kind <= 4:
            self.refer(EXPRS, value)
        else:
            need(value == 0)
        value = self.exprs[value] if 2 <= kind <= 4 else None
        return Declar(kind, self.names[name], self.list_levels(levels), self.exprs[type], value)

    def notation_row(self, row, fields):
        '''P5: "A row has name, kind (0 prefix, 1 infix, 2 postfix), priority 1 to 1,023, string."  Refused is "a notation row outside
        these rules or a name tree given twice".'''
        name, kind, priority, string = fields
        self.refer(NAMES, name)
        need(kind <= POSTFIX)
        need(1 <= priority <= LAST_PRIORITY)
        self.refer(STRINGS, string)
        name = self.names[name]
        need(name not in self.operators)
        self.operators[name] = Operator(kind, priority, self.strings[string])
        return name

    def node(self, table, kind, fields, row):
        '''A tree of its parts. "Loose is the least number above every loose variable index."'''
        n = Node()
        n.kind, n.fields, n.row = kind, tuple(fields), row
        n.depth, n.loose = 1, fields[0] + 1 if (table, kind) == (EXPRS, VAR) else 0
        for f, under in zip(n.fields, binding(table, kind)):
            if isinstance(f, Node) and (table != EXPRS or kind != SORT):
                n.depth = max(n.depth, f.depth + 1)
                n.loose = max(n.loose, f.loose - under)
        key = (table, kind) + tuple(key_of(f) for f in n.fields)
        n.tree = self.numbers.setdefault(key, len(self.numbers))
        return n


Declar = namedtuple("Declar", "kind name levels type value")
Operator = namedtuple("Operator", "kind priority string")


def key_of(field):
    '''"strings by their bytes, lists by their levels in order": what makes a field equal to another.'''
    if isinstance(field, Node):
        return field.tree
    if isinstance(field, tuple) and field and isinstance(field[0], Node):
        return tuple(level.tree for level in field)
    return field


def binding(table, kind):
    """For each field 1 if it stands under the row's own binder, else 0."""
    if table == EXPRS and kind in (PI, LAM, LET):
        return (0, 0, 0, 1, 0)
    return (0, 0, 0, 0, 0)


def digits(data):
    '''"one or more digits, no leading zero unless "0""'''
    return data.isdigit() and (data == b"0" or data[:1] != b"0")


def name_term(name):
    return tuple(c.decode() if isinstance(c, bytes) else c for c in name)


def level_term(level):
    """The level as pools.py takes it."""
    kind = ("zero", "succ", "max", "imax", "param")[level.kind]
    return (kind,) + tuple(level_term(f) if isinstance(f, Node) else name_term(f) for f in level.fields)


def expr_term(e):
    """The expression as pools.py takes it: what a row unfolds to, without its places."""
    kind = ("var", "sort", "const", "app", "pi", "lam", "let", "proj", "nat", "str")[e.kind]
    if e.kind == SORT:
        return (kind, level_term(e.fields[0]))
    if e.kind == CONST:
        return (kind, name_term(e.fields[0]), tuple(level_term(l) for l in e.fields[1]))
    if e.kind in (NAT, STR):
        return (kind, e.fields[0].decode())
    return (kind,) + tuple(expr_term(f) if isinstance(f, Node) else name_term(f) if isinstance(f, tuple) else f for f in e.fields)


def occurs(e, index, memo=None):
    """Does the variable with this index occur loose in e?"""
    memo = {} if memo is None else memo
    if e.loose <= index:
        return False
    if (e, index) not in memo:
        if e.kind == VAR:
            found = e.fields[0] == index
        else:
            found = any(occurs(f, index + under, memo)
                        for f, under in zip(e.fields, binding(EXPRS, e.kind)) if isinstance(f, Node))
        memo[e, index] = found
    return memo[e, index]


def lift(pool, e, amount, cutoff=0, memo=None):
    '''"its loose indices lifted": those at or above the cutoff grow by the amount; rows remain as places.'''
    memo = {} if memo is None else memo
    if e.loose <= cutoff or amount == 0:
        return e
    if (e, cutoff) not in memo:
        if e.kind == VAR:
            fields = [e.fields[0] + amount]
        else:
            fields = [lift(pool, f, amount, cutoff + under, memo) if isinstance(f, Node) else f
                      for f, under in zip(e.fields, binding(EXPRS, e.kind))]
        memo[e, cutoff] = pool.node(EXPRS, e.kind, fields, e.row)
    return memo[e, cutoff]


# ---------------------------------------------------------------------------------------------------------------------------------
# Documents: streams of events in document order. An event is (TEXT, bytes), (JOIN,), (BREAK, blank), (NEST, amount), (GROUP,), each
# a row straight after its children's, or the mark (NAMES_IN_FORCE, names on the stack, row of the chain's start or the let).

TEXT, JOIN, BREAK, NEST, GROUP, NAMES_IN_FORCE = range(6)


def part(d):
    return [(TEXT, d.encode() if isinstance(d, str) else d)] if isinstance(d, (str, bytes)) else d


def join(first, *others):
    '''"+ joins left to right"'''
    yield from part(first)
    for d in others:
        yield from part(d)
        yield (JOIN,)


def blank_break():
    '''"| is a blank break"'''
    return [(BREAK, 1)]


def empty_break():
    '''P5: "the break | at the operator is an empty one"'''
    return [(BREAK, 0)]


def group(d):
    yield from part(d)
    yield (GROUP,)


def nest(amount, d):
    yield from part(d)
    yield (NEST, amount)


def tile(parts):
    '''"Tile: the first, then +G(|+next) each; of none, an empty text."'''
    if not parts:
        return part("")
    return join(parts[0], *(group(join(blank_break(), p)) for p in parts[1:]))


def under(outer, inner, d):
    '''"Parentheses are put only if the outer level exceeds the inner."'''
    return join("(", d, ")") if outer > inner else d


# ---------------------------------------------------------------------------------------------------------------------------------
# Names and levels

START_RANGES = ((0x03B1, 0x03C9), (0x0391, 0x03A9), (0x1F00, 0x1FFE))
NOT_START = (0x03BB, 0x03A0, 0x03A3)
MORE_START = ((0x03CA, 0x03FB), (0x2100, 0x214F))
REST_RANGES = ((0x2080, 0x2089), (0x2090, 0x209C), (0x1D62, 0x1D6A))


def in_ranges(c, ranges):
    '''"in a range, ends excluded on the right"'''
    return any(a <= ord(c) < b for a, b in ranges)


def is_start(c):
    '''"ASCII letter, "_", or in a range ... (these three without U+03BB, U+03A0, U+03A3)"'''
    return (c.isascii() and c.isalpha()) or c == "_" or in_ranges(c, MORE_START) or (
        in_ranges(c, START_RANGES) and ord(c) not in NOT_START)


def is_rest(c):
    '''"Rest adds ASCII digits, ! ? ' and U+2080-2089, U+2090-209C, U+1D62-1D6A."'''
    return is_start(c) or (c.isascii() and c.isdigit()) or c in "!?'" or in_ranges(c, REST_RANGES)


def is_plain(component):
    '''"Plain: "_@", or first character a start and all others a start or rest; the empty string is plain."'''
    s = component.decode()
    return s == "_@" or s == "" or (is_start(s[0]) and all(is_rest(c) for c in s[1:]))


def component_text(component):
    '''"Each string component that is not plain is to be wrapped by itself" (document 02, P1)'''
    if isinstance(component, int):
        return str(component).encode()
    return component if is_plain(component) else "«".encode() + component + "»".encode()


def name_text(name):
    '''"Components are joined by "."; none is put after an empty prefix text." "The anonymous name stays «»" (P1).'''
    if name == ():
        return "«»".encode()
    text = b""
    for c in name:
        text = (text + b"." if text else b"") + component_text(c)
    return text


def name_doc(name):
    '''"A name with its marks is then one text of the document." (P1)'''
    return part(name_text(name))


def is_hygienic(name):
    '''"if, past trailing numbers, its last component is "_hyg""'''
    strings = list(name)
    while strings and isinstance(strings[-1], int):
        strings.pop()
    return bool(strings) and strings[-1] == b"_hyg"


def successors(level):
    '''"n successors of": how many, and of what.'''
    n = 0
    while level.kind == 1:
        n, level = n + 1, level.fields[0]
    return n, level


def level_doc(level, outer):
    '''"parameter 1,024; "max"+" "+a+|+b (also "imax"), operands under 1, inner 0; n successors of zero print n, inner 1,024; of
    another, that one under 1, "+", n, inner 0."'''
    n, base = successors(level)
    if base.kind == 0:
        return part(str(n))
    if n > 0:
        return under(outer, 0, join(level_doc(base, 1), "+", str(n)))
    if base.kind == 4:
        return name_doc(base.fields[0])
    a, b = base.fields
    return under(outer, 0, join("max" if base.kind == 2 else "imax", " ", level_doc(a, 1), blank_break(), level_doc(b, 1)))


# ---------------------------------------------------------------------------------------------------------------------------------
# Expressions to documents

Binder = namedtuple("Binder", "is_pi name style type occurs")
OPEN, CLOSE = ("(", "{", "{{", "["), (")", "}", "}}", "]")


def is_arrow(b):
    '''"Arrow binder: pi, default style, and body without its variable, or anonymous, or hygienic"'''
    return b.is_pi and b.style == 0 and (not b.occurs or b.name == () or is_hygienic(b.name))


def spine(e):
    """What is applied at last, and all arguments in order: none of an expression that is no application."""
    arguments = []
    while e.kind == APP:
        e, argument = e.fields
        arguments.append(argument)
    return e, arguments[::-1]


def leading(items, holds):
    '''"Runs are leading runs."'''
    n = 0
    while n < len(items) and holds(items[n]):
        n += 1
    return items[:n], items[n:]


class Printer:
    """`names` are the names in force, the innermost last."""

    def __init__(self, pool, indent):
        self.pool, self.indent = pool, indent

    def nested_group(self, d):
        return nest(self.indent, group(d))

    def chain(self, e):
        '''"A chain is the longest run of pi and lambda."  Types are lifted "past the rest of the chain".'''
        rows = []
        while e.kind in (PI, LAM):
            rows.append(e)
            e = e.fields[3]
        binders = [Binder(b.kind == PI, b.fields[0], b.fields[1], lift(self.pool, b.fields[2], len(rows) - i),
                          occurs(b.fields[3], 0)) for i, b in enumerate(rows)]
        return binders, e

    def inner(self, e):
        '''"inner 1,023", "inner 24", "inner 0"; "Inner 1,024 ... where unsaid."  P5: "the result has priority less 1".'''
        if e.kind in (PI, LAM):
            binder = Binder(e.kind == PI, e.fields[0], e.fields[1], None, occurs(e.fields[3], 0))
            return 24 if is_arrow(binder) else 0
        operator = self.operator(*spine(e))
        if operator:
            return operator.priority - 1
        return {APP: 1023, LET: 0}.get(e.kind, 1024)

    def expr(self, e, names, outer=0):
        return under(outer, self.inner(e), self.bare(e, names))

    def bare(self, e, names):
        """The expression without parentheses round it. A generator, so that nothing is made before the walk asks for it."""
        make = (self.variable, self.sort, self.constant, self.application, self.binding, self.binding, self.let, self.projection,
                self.natural, self.literal)[e.kind]
        yield from make(e, names)

    def variable(self, e, names):
        '''"the name at its place, else its index in digits"'''
        index = e.fields[0]
        return name_doc(names[-1 - index]) if index < len(names) else part(str(index))

    def sort(self, e, names):
        '''""Type"+" "+predecessor if the level is a successor, else "Sort"+" "+level, under 1,024."  P5: "A sort whose level is a row of
        kind zero prints `Prop`".'''
        level = e.fields[0]
        if level.kind == 0:
            return part("Prop")
        if level.kind == 1:
            return join("Type", " ", level_doc(level.fields[0], 1024))
        return join("Sort", " ", level_doc(level, 1024))

    def constant(self, e, names):
        return join("@", name_doc(e.fields[0]))

    def application(self, e, names):
        '''"tile of G(head under 1,023) and G(each argument under 1,024), all N(G), inner 1,023"'''
        head, arguments = spine(e)
        operator = self.operator(head, arguments)
        if operator:
            return self.operation(operator, arguments, names)
        parts = [group(self.expr(head, names, 1023))] + [group(self.expr(a, names, 1024)) for a in arguments]
        return self.nested_group(tile(parts))

    def operator(self, head, arguments):
        '''P5: a row "acts on a constant of that name (equal name trees) applied to exactly one argument, or two for infix". Or None.'''
        found = self.pool.operators.get(head.fields[0]) if head.kind == CONST else None
        return found if found and len(arguments) == (2 if found.kind == INFIX else 1) else None

    def operation(self, operator, arguments, names):
        '''P5: "Operands print under the priority"; "G(string+|)+operand for prefix, G(operand+|+string) for postfix,
        N(G(left+string+|+right)) for infix. Operands stand in argument order".'''
        operands = [self.expr(a, names, operator.priority) for a in arguments]
        if operator.kind == PREFIX:
            return join(group(join(operator.string, empty_break())), operands[0])
        if operator.kind == POSTFIX:
            return group(join(operands[0], empty_break(), operator.string))
        return self.nested_group(join(operands[0], operator.string, empty_break(), operands[1]))

    def projection(self, e, names):
        '''"G(structure under 1,024)+"."+(index + 1)"'''
        return join(group(self.expr(e.fields[2], names, 1024)), ".", str(e.fields[1] + 1))

    def natural(self, e, names):
        return part(e.fields[0])

    def literal(self, e, names):
        return join('"', e.fields[0], '"')

    def let(self, e, names):
        '''"N(G("let"+" "+G(name+" "+":"+|+G(type under 1))+" "+":="+|+G(value)+";"))+|+body, all G, inner 0."
        A let's names come into force just before its body.'''
        name, type, value, body, _ = e.fields
        head = group(join(name_doc(name), " ", ":", blank_break(), group(self.expr(type, names, 1))))
        first = self.nested_group(join("let", " ", head, " ", ":=", blank_break(), group(self.expr(value, names)), ";"))
        return group(join(first, blank_break(), self.in_force(names + (name,), e.row, lambda n: self.expr(body, n))))

    def in_force(self, names, row, d):
        """The mark, then the part in which the names are in force."""
        yield (NAMES_IN_FORCE, len(names), row)
        yield from d(names)

    def binding(self, e, names):
        binders, body = self.chain(e)
        names = names + tuple(b.name for b in binders)
        return self.in_force(names, e.row, lambda n: self.run(binders, body, n))

    def run_inner(self, binders, body):
        '''"inner 24" of an arrow, "inner 0" of foralls and funs, else the body's own.'''
        if not binders:
            return self.inner(body)
        return 24 if is_arrow(binders[0]) else 0

    def run(self, binders, body, names, outer=0):
        d = self.bare(body, names) if not binders else self.bare_run(binders, body, names)
        return under(outer, self.run_inner(binders, body), d)

    def bare_run(self, binders, body, names):
        """An arrow, the foralls or the lambdas that lead the chain, and the tail."""
        first = binders[0]
        if is_arrow(first):
            # "G(N(G(type under 25))+" "+U+2192+|)+tail under 24, inner 24"
            head = group(join(self.nested_group(self.expr(first.type, names, 25)), " ", "\u2192", blank_break()))
            yield from join(head, self.run(binders[1:], body, names, 24))
        elif first.is_pi:
            # "N(G("forall"+" "+binders+","))+|+tail"
            run, rest = leading(binders, lambda b: b.is_pi and not is_arrow(b))
            head = self.nested_group(join("forall", " ", self.binders(run, names), ","))
            yield from join(head, blank_break(), self.run(rest, body, names))
        else:
            # "N(G("fun"+" "+binders+" "+"=>"))+|+tail"
            run, rest = leading(binders, lambda b: not b.is_pi)
            head = self.nested_group(join("fun", " ", self.binders(run, names), " ", "=>"))
            yield from join(head, blank_break(), self.run(rest, body, names))

    def binders(self, binders, names):
        '''"tile over groups, each the leading run of equal style and equal type tree after lifting (all fields); an instance binder
        is alone."'''
        groups = []
        while binders:
            first = binders[0]
            if first.style == 3:
                run, binders = binders[:1], binders[1:]
            else:
                run, binders = leading(binders, lambda b: b.style == first.style and b.type.tree == first.type.tree)
            groups.append(self.binder_group(run, names))
        return tile(groups)

    def binder_group(self, run, names):
        '''"N(G(open+(tile of names+" "+":"+|+G(type under 1))+close))"  "An anonymous name whose variable does not occur prints "_"."'''
        first = run[0]
        listed = [part("_") if b.name == () and not b.occurs else name_doc(b.name) for b in run]
        bare = join(tile(listed), " ", ":", blank_break(), group(self.expr(first.type, names, 1)))
        return self.nested_group(join(OPEN[first.style], bare, CLOSE[first.style]))

    # -----------------------------------------------------------------------------------------------------------------------------
    # Declarations

    def info(self, d):
        '''"name+("."+G("{"+tile of levels+"}")), or name+empty text for no levels"'''
        if not d.levels:
            return join(name_doc(d.name), "")
        return join(name_doc(d.name), join(".", group(join("{", tile([level_doc(l, 0) for l in d.levels]), "}"))))

    def declar(self, d):
        '''"Word (axiom, ...)+" "+info+" "+rest."  "Every listing is one outer G."'''
        binders, body = self.chain(d.type)
        names = tuple(b.name for b in binders)
        words = ("axiom", "Quotient primitive", "theorem", "def", "opaque", "inductive", "constructor", "recursor")
        parts = [words[d.kind], " ", self.info(d), " "]
        if 2 <= d.kind <= 4:
            taken, value = self.taken(binders, d.value)
            parts.append(self.definition_rest(binders[:taken], binders[taken:], body, names, d.type.row))
            value = lift(self.pool, value, len(binders) - taken)
            parts.append(nest(self.indent, join(blank_break(), group(self.expr(value, names)))))
        else:
            parts.append(self.other_rest(binders, body, names, d.type.row))
        return group(join(*parts))

    def taken(self, binders, value):
        '''"leading binders leave the type while they are pi, not anonymous, default style, and the value is a lambda, which opens"'''
        n = 0
        while n < len(binders) and binders[n].is_pi and binders[n].name != () and binders[n].style == 0 and value.kind == LAM:
            n, value = n + 1, value.fields[3]
        return n, value

    def definition_rest(self, taken, rest, body, names, row):
        '''"T = N(|+G(remaining type)). No such binder: ":"+T+" "+":="; else G(N(G(binders))+" "+":"+T+" "+":=")."'''
        yield from marked(names, row)
        remaining = nest(self.indent, join(blank_break(), group(self.run(rest, body, names))))
        if not taken:
            yield from join(":", remaining, " ", ":=")
        else:
            yield from group(join(self.nested_group(self.binders(taken, names)), " ", ":", remaining, " ", ":="))

    def other_rest(self, binders, body, names, row):
        '''"N(G(binders+" "+":"+|+G(type))) over the leading non-arrow pis; without any, ":" alone opens it."'''
        yield from marked(names, row)
        run, rest = leading(binders, lambda b: b.is_pi and not is_arrow(b))
        opening = join(self.binders(run, names), " ", ":") if run else part(":")
        yield from self.nested_group(join(opening, blank_break(), group(self.run(rest, body, names))))


def marked(names, row):
    return [(NAMES_IN_FORCE, len(names), row)] if names else []


def document(pool, mode, root, indent):
    """The events of print expression (mode 0) or print declaration (mode 1) of an accepted pool's root."""
    printer = Printer(pool, indent)
    if mode == 0:
        return group(printer.expr(pool.exprs[root], ()))
    return printer.declar(pool.declars[root])


def tree_of(events):
    """A document as nested tuples: (TEXT, bytes), (JOIN, left, right), (BREAK, blank), (NEST, amount, d), (GROUP, d); a mark becomes
    (NAMES_IN_FORCE, names, row, d) round the first text or break of its part."""
    stack, marks = [], []
    for e in events:
        if e[0] == NAMES_IN_FORCE:
            marks.append(e)
        elif e[0] == JOIN:
            right, left = stack.pop(), stack.pop()
            stack.append((JOIN, left, right))
        elif e[0] in (NEST, GROUP):
            stack.append(e + (stack.pop(),))
        else:
            while marks:
                e = marks.pop() + (e,)
            stack.append(e)
    return stack[0]


# ---------------------------------------------------------------------------------------------------------------------------------
# Rows, and the walk that writes them

Refusal = namedtuple("Refusal", "number place")


def next_row(rows, kind, one, two=0):
    '''"kind, two fields (0 if unused), subtree row count, flat size, distance to the first break (flat size if none), has-break"
    of a row that comes after these rows; its children end straight before it. None if they are not there.'''
    if kind == 0:
        return (0, one, two, 1, two, two, 0)
    if kind == 2:
        return (2, one, 0, 1, one, 0, 1)
    last = len(rows) - 1
    if last < 0:
        return None
    _, _, _, count, flat, distance, has = rows[last]
    if kind in (3, 4):
        return (kind, one if kind == 3 else 0, 0, count + 1, flat, distance, has)
    if last - count < 0:
        return None
    _, _, _, count2, flat2, distance2, has2 = rows[last - count]
    return (1, 0, 0, count + count2 + 1, flat + flat2, distance2 if has2 else distance2 + distance, has | has2)


class Walk:
    '''"From 7 on the walk goes in document order ... the first one met is reported, 8 before 20 and 21."'''

    def __init__(self, row_words=7 * DOCUMENT_ROWS, text_bytes=DOCUMENT_BYTES):
        self.row_words, self.text_bytes = row_words, text_bytes
        self.rows, self.text, self.refusal = [], bytearray(), None

    def refuse(self, number, place):
        self.refusal = Refusal(number, place)

    def run(self, events):
        for e in events:
            if e[0] == NAMES_IN_FORCE:
                if e[1] > STACK_LIMIT:
                    self.refuse(7, e[2])
            elif e[0] == TEXT:
                self.write_text(e[1])
            else:
                self.write_row(e[0], e[1] if len(e) > 1 else 0)
            if self.refusal:
                break
        return self

    def write_text(self, data):
        '''"a text's bytes, one by one, before its row"'''
        offset = len(self.text)
        for byte in data:
            if len(self.text) == DOCUMENT_BYTES:
                return self.refuse(8, len(self.rows))
            if len(self.text) == self.text_bytes:
                return self.refuse(21, len(self.rows))
            self.text.append(byte)
        self.write_row(TEXT, offset, len(data))

    def write_row(self, kind, one, two=0):
        if len(self.rows) == DOCUMENT_ROWS:
            return self.refuse(8, len(self.rows))
        if 7 * (len(self.rows) + 1) > self.row_words:
            return self.refuse(20, len(self.rows))
        self.rows.append(next_row(self.rows, kind, one, two))


def rows_of(events):
    """(rows, text) of a document within the limits; with a refusal instead of rows past them."""
    w = Walk().run(events)
    return (w.rows, bytes(w.text)) if w.refusal is None else (w.refusal, None)


# ---------------------------------------------------------------------------------------------------------------------------------
# Layout

Laid = namedtuple("Laid", "listing length lines longest fit_tests")


class Layout:
    '''"Layout meets texts and breaks in row order."  Only the first `keep` bytes of the listing are kept.'''

    def __init__(self, rows, text, width, keep=None):
        self.rows, self.text, self.width = rows, text, width
        self.keep = keep
        self.listing, self.position, self.broken = bytearray(), 0, 0
        self.row_start, self.row_end, self.longest = 0, width, 0
        self.after = self.distances()

    def distances(self):
        """For each row number the text bytes from that row on to the next break row, or to the end."""
        after = [0] * (len(self.rows) + 1)
        for i in range(len(self.rows) - 1, -1, -1):
            kind, _, length = self.rows[i][:3]
            after[i] = 0 if kind == BREAK else after[i + 1] + (length if kind == TEXT else 0)
        return after

    def opening(self):
        """For each row the group and nest rows whose subtree begins there, the outermost first."""
        opening = {}
        for i in range(len(self.rows) - 1, -1, -1):
            if self.rows[i][0] in (NEST, GROUP):
                opening.setdefault(i - self.rows[i][3] + 1, []).append(i)
        return opening

    def emit(self, data):
        if self.keep is None or self.position < self.keep:
            self.listing += data if self.keep is None else data[:self.keep - self.position]
        self.position += len(data)

    def fits(self, row):
        '''"position + flat size + distance from its end to the next break (or to the end) is at most the row's end"'''
        return self.position + self.rows[row][4] + self.after[row + 1] <= self.row_end

    def newline(self, amount):
        '''"a newline, sets the row's end to position + width, and then emits the nest in spaces"'''
        self.longest = max(self.longest, self.position - self.row_start)
        self.broken += 1
        self.emit(b"\n")
        self.row_start, self.row_end = self.position, self.position + self.width
        self.emit(b" " * amount)

    def outside(self, flat):
        '''"the number of groups that are not inside a flat group" (02, P6), by the rows that the flat ones are around'''
        inside = {row for group in flat for row in range(group - self.rows[group][3] + 1, group)}
        return sum(row[0] == GROUP and i not in inside for i, row in enumerate(self.rows))

    def run(self):
        opening, nests, flat, flat_to = self.opening(), [], [], -1
        for i, row in enumerate(self.rows):
            while nests and nests[-1] < i:
                nests.pop()
            for r in opening.get(i, ()):
                if self.rows[r][0] == NEST:
                    nests.append(r)
                elif i > flat_to and self.fits(r):
                    flat_to = r
                    flat.append(r)
            if row[0] == TEXT:
                self.emit(self.text[row[1]:row[1] + row[2]])
            elif row[0] == BREAK and i <= flat_to:
                self.emit(b" " * row[1])
            elif row[0] == BREAK:
                self.newline(sum(self.rows[n][1] for n in nests))
        self.longest = max(self.longest, self.position - self.row_start)
        # "The lines figure becomes broken places plus 1" (02, P4)
        return Laid(bytes(self.listing), self.position, self.broken + 1, self.longest, self.outside(flat))


def layout(rows, text, width, keep=None):
    return Layout(rows, bytes(text), width, keep).run()


# ---------------------------------------------------------------------------------------------------------------------------------
# Layout with a pending area (02, P2): nothing of the layout above is used


class Pending:
    '''"a list of pending rows with their nest and flatness in a lent area": three words for each. The third is the distance from
    the row's end to the next break (or to the end).'''

    def __init__(self, area):
        self.area, self.entries = area, 0

    def put(self, row, nest, flat, distance):
        at = 3 * self.entries
        assert at + 3 <= len(self.area), "more rows are pending than the document has"
        self.area[at:at + 3] = (row, 2 * nest + flat, distance)
        self.entries += 1

    def take_top(self):
        self.entries -= 1
        row, nest_and_flat, distance = self.area[3 * self.entries:3 * self.entries + 3]
        return row, nest_and_flat // 2, nest_and_flat % 2, distance


def layout_pending(rows, text, width, area):
    '''"takes the top one until none is left"; "the same listing, counts and refusals as the first". What was pending is left in the area.'''
    listing, row_start, lines, longest, tests = bytearray(), 0, 1, 0, 0
    pending = Pending(area)
    pending.put(len(rows) - 1, 0, 0, 0)
    while pending.entries:
        at, nest, flat, distance = pending.take_top()
        kind, one, two, _, size, _, _ = rows[at]
        if kind == TEXT:
            listing += text[one:one + two]
        elif kind == BREAK and flat:
            listing += b" " * one
        elif kind == BREAK:
            longest = max(longest, len(listing) - row_start)
            row_start = len(listing) + 1
            listing += b"\n" + b" " * nest
            lines += 1
        elif kind == JOIN:
            _, _, _, right_rows, _, right_first, right_has = rows[at - 1]
            pending.put(at - 1, nest, flat, distance)
            pending.put(at - 1 - right_rows, nest, flat, right_first if right_has else right_first + distance)
        elif kind == NEST:
            pending.put(at - 1, nest + one, flat, distance)
        else:
            tests += not flat
            flat = int(flat or len(listing) + size + distance <= row_start + width)
            pending.put(at - 1, nest, flat, distance)
    longest = max(longest, len(listing) - row_start)
    return Laid(bytes(listing), len(listing), lines, longest, tests)


# ---------------------------------------------------------------------------------------------------------------------------------
# Two rows compared (02, P3)


def own_fields(e):
    '''"fields (as trees) that are no expressions"'''
    return [key_of(f) for letter, f in zip(EXPR_FIELDS[e.kind], e.fields) if letter != "e"]


def children(e):
    return [f for letter, f in zip(EXPR_FIELDS[e.kind], e.fields) if letter == "e"]


def first_difference(a, b, equal):
    '''"the first pair of rows whose kinds, or fields (as trees) that are no expressions, differ; a row comes before its children, these
    last field first". None where there is no such pair; `equal` keeps the pairs that were found equal.'''
    if (a.row, b.row) in equal:
        return None
    if a.kind != b.kind or own_fields(a) != own_fields(b):
        return a.row, b.row
    for one, other in zip(reversed(children(a)), reversed(children(b))):
        found = first_difference(one, other, equal)
        if found:
            return found
    equal.add((a.row, b.row))
    return None


# ---------------------------------------------------------------------------------------------------------------------------------
# Calls

Areas = namedtuple("Areas", "rows text listing")
Counts = namedtuple("Counts", "document_rows text_bytes listing_length lines longest_row fit_tests")
Answer = namedtuple("Answer", "number place counts areas")


def areas(row_words=7 * DOCUMENT_ROWS, text=DOCUMENT_BYTES, listing=1 << 20, fill=0xA5):
    """Lent areas of these lengths; `fill` shows what a call leaves alone."""
    return Areas([fill] * row_words, bytearray([fill]) * text, bytearray([fill]) * listing)


def write_listing(laid, listing):
    '''"22 leaves ... in the listing area the first bytes of the full listing, as many as fit"'''
    fits = min(laid.length, len(listing))
    listing[:fits] = laid.listing[:fits]


def print_call(pool, mode, root, indent, width, lent):
    """Print expression or print declaration with its layout, in 01's order of refusals."""
    number, place = pool.fault
    if number == 0 and root >= pool.words[EXPRS if mode == 0 else DECLARS]:
        number = 5
    if number == 0 and (indent > 64 or width > 65535):
        number = 6
    if number:
        return Answer(number, place, None, lent)
    lent.rows[:] = [0] * len(lent.rows)
    lent.text[:] = bytes(len(lent.text))
    walk = Walk(len(lent.rows), len(lent.text)).run(document(pool, mode, root, indent))
    if walk.refusal:
        return Answer(*walk.refusal, None, lent)
    lent.rows[:7 * len(walk.rows)] = [w for row in walk.rows for w in row]
    lent.text[:len(walk.text)] = walk.text
    return laid_out(walk.rows, walk.text, width, lent)


def laid_out(rows, text, width, lent):
    return written(rows, text, layout(rows, text, width, len(lent.listing)), lent)


def written(rows, text, laid, lent):
    """What a layout has laid out, in the listing area, and its answer."""
    write_listing(laid, lent.listing)
    if laid.length > len(lent.listing):
        return Answer(22, 0, None, lent)
    return Answer(0, 0, Counts(len(rows), len(text), *laid[1:]), lent)


def print_expression(pool, root, indent, width, lent):
    return print_call(pool, 0, root, indent, width, lent)


def print_declaration(pool, root, indent, width, lent):
    return print_call(pool, 1, root, indent, width, lent)


def check(area, words):
    """(number, place) of check."""
    return Pool(area, words).fault


def compare(pool, first, second):
    '''"of two expression rows of a pool (5 if either is missing) it says that their trees are equal, or gives the first pair": the counts
    are (1, 0, 0), or 0 and the two rows.'''
    number, place = pool.fault
    if number == 0 and max(first, second) >= pool.words[EXPRS]:
        number = 5
    if number:
        return Answer(number, place, None, None)
    found = first_difference(pool.exprs[first], pool.exprs[second], set())
    return Answer(0, 0, (0,) + found if found else (1, 0, 0), None)


def document_fault(words, row_count, text, text_count):
    '''"9: a given document breaks a row rule, or its counts exceed its slices or limits, or it has no row."  The place, or None.'''
    if row_count == 0 or row_count > DOCUMENT_ROWS or 7 * row_count > len(words):
        return 0
    if text_count > DOCUMENT_BYTES or text_count > len(text):
        return 0
    rows, texts_end = [], 0
    for i in range(row_count):
        row = tuple(words[7 * i:7 * i + 7])
        if not row_holds(rows, row, texts_end, text_count):
            return i
        texts_end += row[2] if row[0] == TEXT else 0
        rows.append(row)
    # "the last row's subtree is the whole, rows and text bytes"
    if rows[-1][3] != row_count or texts_end != text_count:
        return row_count - 1
    return None


def row_holds(rows, row, texts_end, text_count):
    '''"0 text (offset, length; texts contiguous from 0); 1 join; 2 break (its blank's length, 0 or 1); 3 nest (amount up to 64);
    4 group."  The other four words are derived.'''
    kind, one, two = row[:3]
    if kind == TEXT and (one != texts_end or one + two > text_count):
        return False
    if kind > 4 or (kind == BREAK and one > 1) or (kind == NEST and one > 64):
        return False
    return row == next_row(rows, kind, one, two)


def given_document(words, row_count, text, text_count, width, lent, lay):
    """9, then 6; else what `lay` makes of rows and text."""
    place = document_fault(words, row_count, text, text_count)
    if place is not None:
        return Answer(9, place, None, lent)
    if width > 65535:
        return Answer(6, 0, None, lent)
    return lay([tuple(words[7 * i:7 * i + 7]) for i in range(row_count)], text[:text_count])


def layout_document(words, row_count, text, text_count, width, listing):
    '''"Layout checks 9, 6, 22."'''
    lent = Areas(words, text, listing)
    return given_document(words, row_count, text, text_count, width, lent, lambda rows, text: laid_out(rows, text, width, lent))


def laid_out_pending(rows, text, width, pending, lent):
    '''"30 when the pending area is shorter than three words for each document row, met after 6 and before 22; after a success or
    22 the pending area holds zeros, and other refusals do not touch it."'''
    if len(pending) < 3 * len(rows):
        return Answer(30, 0, None, lent)
    laid = layout_pending(rows, text, width, pending)
    pending[:] = [0] * len(pending)
    return written(rows, text, laid, lent)


def layout_document_pending(words, row_count, text, text_count, width, pending, listing):
    """The second layout's call: 9, 6, 30, 22."""
    lent = Areas(words, text, listing)
    return given_document(words, row_count, text, text_count, width, lent, lambda rows, text: laid_out_pending(rows, text, width, pending, lent))


def hand_out_text(words, row_count, text, text_count, row):
    '''"its bytes are a part of the text area ..., an empty part unless document ... is accepted and has that text ... row"'''
    if document_fault(words, row_count, text, text_count) is not None or row >= row_count or words[7 * row] != TEXT:
        return b""
    offset, length = words[7 * row + 1:7 * row + 3]
    return bytes(text[offset:offset + length])


def hand_out_string(pool, row):
    '''"... or of the byte area, an empty part unless ... pool is accepted and has that ... string row"'''
    return pool.strings[row] if pool.fault == (0, 0) and row < len(pool.strings) else b""
