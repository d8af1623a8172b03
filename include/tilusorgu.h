/*
 * The statement lister's calls, for C. rust/build-library makes the library, target/staticlib/liblister_c.a (x86-64).
 *
 * Slices. A slice is a pointer and, straight after it, a length in elements (not in bytes). The pointer of an empty slice
 * is not read, but it must not be null and must be aligned for its elements.
 *
 * Areas. What a call reads is given; what it may write is lent. The areas of one call overlap nothing: not each other, not a
 * given slice, not `out`. Given slices must not change during the call. A call keeps no pointer, allocates nothing and
 * holds no state, so calls in several threads do not disturb each other.
 *
 * Machine stack. 8 MiB are enough for every call; the main thread has them as a rule, other threads often have less.
 * tilusorgu_layout_pending needs less than 4 KiB, whatever the document: it has no deep calls.
 *
 * Answers. Each call returns the refusal number, 0 for none, and fills `out`, eight numbers of 64 bits:
 *
 *     out[0] number          the refusal number again
 *     out[1] place           see the numbers below; 0 for a success
 *     out[2] document rows   of the success; 0 for check and for a refusal, as all below
 *     out[3] text bytes      of the document
 *     out[4] listing length  in bytes: the listing is the first so many bytes of its area
 *     out[5] lines           broken places plus 1: a newline in a name, a literal or an operator begins none
 *     out[6] longest row     in bytes, indentation included
 *     out[7] fit tests       groups that are not inside a flat one: those that were tested for fitting into their row, once each
 *
 * tilusorgu_hand_out puts an offset and a length into out[2] and out[3], and 0 into the others. tilusorgu_compare puts 1 into out[2] if the
 * trees are equal, else 0 and two rows into out[3] and out[4]; the others are 0.
 *
 * An `out` of more than eight has only its first eight written. With an `out` shorter than eight nothing is written into it,
 * and the call does and returns the same.
 */
#ifndef TILUSORGU_H
#define TILUSORGU_H

#include <stddef.h>
#include <stdint.h>

#ifdef __cplusplus
extern "C" {
#endif

/* Refusal numbers, and what their place is. */
enum tilusorgu_number {
    TILUSORGU_DONE = 0,          /* not refused */
    TILUSORGU_WORDS = 1,         /* the words are short of the head, or their total is wrong; place 0 */
    TILUSORGU_LIMIT = 2,         /* a count or the byte area is over its limit; place 0 */
    TILUSORGU_STRING = 3,        /* a string pair breaks its rule; place: the first such string row */
    TILUSORGU_ROW = 4,           /* another row breaks its rule; place: the first such row, numbered in its table */
    TILUSORGU_ROOT = 5,          /* no such root, or a row to compare that is missing; place 0 */
    TILUSORGU_SIZES = 6,         /* indent over 64, or width over 65,535; place 0 */
    TILUSORGU_STACK = 7,         /* a chain or a let brings the names in force over 1,024; place: the row of the chain's start or of the let */
    TILUSORGU_DOCUMENT = 8,      /* a text byte or a row past the document's limits; place: document rows written so far */
    TILUSORGU_GIVEN = 9,         /* a given document breaks a row rule, or its counts; place: the first such row, 0 for counts */
    TILUSORGU_ROW_AREA = 20,     /* row area full; place: document rows written so far */
    TILUSORGU_TEXT_AREA = 21,    /* text area full; place: document rows written so far */
    TILUSORGU_LISTING_AREA = 22, /* the listing is longer than its area; place 0 */
    TILUSORGU_PENDING_AREA = 30, /* the pending area has fewer than three words for each document row; place 0 */
    TILUSORGU_NOTATION = 31      /* a notation row breaks its rule, or has the name tree of an earlier one; place 0; comes after 4, before 5 */
};

/* Limits. */
#define TILUSORGU_POOL_BYTES 16777216u   /* bytes of a pool */
#define TILUSORGU_TABLE_ROWS 65536u      /* rows of each of a pool's tables */
#define TILUSORGU_DOCUMENT_ROWS 16384u   /* rows of a document */
#define TILUSORGU_ROW_WORDS 7u           /* words of a document row: a row area of 7 * 16,384 words is never full */
#define TILUSORGU_PENDING_WORDS 3u       /* words of a pending row: a pending area of 3 * 16,384 words is never too short (30) */
#define TILUSORGU_DOCUMENT_BYTES 65536u  /* text bytes of a document: a text area of so many bytes is never full */
#define TILUSORGU_INDENT 64u             /* greatest indent */
#define TILUSORGU_WIDTH 65535u           /* greatest width, in bytes */
#define TILUSORGU_PRIORITY 1023u         /* greatest priority of a notation row; the least is 1 */
#define TILUSORGU_OUT 8u                 /* numbers of `out` */

/*
 * Bytes that are enough for every listing of a document of at most so many rows and text bytes, with nest amounts of at most
 * `indent`: a listing area of this length is never too short (22). A print's document has no more rows (row_words / 7) and text bytes
 * than the areas that it was lent, else 20 or 21, and its nest amounts are the print's indent; those of a document that is given to
 * a layout are at most TILUSORGU_INDENT. A listing is written from its area's start and nothing past it is touched, so of a
 * long area that the system gives page by page only what is written costs memory.
 *
 * Why it is enough. A listing has each text once, and for each break at most one blank, or a newline and its nest in spaces, which is
 * at most `indent` for each nest row. Texts and breaks are the leaves of a tree whose joins have two parts, so of r rows with b breaks
 * at least b - 1 are joins and at most r + 1 - 2b are nests: all breaks together have at most b * (1 + indent * (r + 1 - 2b)) bytes.
 * Whatever b is, that is at most indent * (r + 1)^2 / 8 + (r + 1) / 2, and 1 makes up for the divisions.
 *
 * What is past a limit counts as the limit, so nothing overflows, nor does a size_t of 32 bits: the greatest value, for 16,384 rows,
 * 65,536 bytes and indent 64, is 2,147,819,529; with indent 2 it is 67,190,785. With constants it is one, and can be an array's length;
 * `rows` and the others are evaluated more than once.
 */
#define TILUSORGU_LISTING_BYTES(rows, text_bytes, indent)                                                                     \
    ((size_t)(TILUSORGU_AT_MOST(text_bytes, TILUSORGU_DOCUMENT_BYTES) + 1u + TILUSORGU_ROWS_AND_1(rows) / 2u +                 \
              TILUSORGU_ROWS_AND_1(rows) * TILUSORGU_ROWS_AND_1(rows) * TILUSORGU_AT_MOST(indent, TILUSORGU_INDENT) / 8u))
#define TILUSORGU_ROWS_AND_1(rows) (TILUSORGU_AT_MOST(rows, TILUSORGU_DOCUMENT_ROWS) + 1u)
#define TILUSORGU_AT_MOST(n, most) ((uint64_t)(n) < (uint64_t)(most) ? (uint64_t)(n) : (uint64_t)(most))

/*
 * A pool is a byte area and words: eight head words, the counts of strings, names, levels, lists, list words, expressions,
 * declarations and notation rows, each at most 65,536; then these tables in that order, with 2, 4, 3, 2, 1, 8, 5 and 4 words a row.
 * Rows number from 0, and unused words are 0. docs/POOL-FILE.md has the tables, row by row. (Pools had seven head words before there were
 * notation rows: with a 0 put behind the seventh, such a pool is one of today, without operators.)
 *
 * A notation row makes an operator of a name: name row, kind (below), priority (1 to TILUSORGU_PRIORITY), string row; no two rows have
 * equal name trees. It acts wherever a constant with that name tree, whatever its levels, is applied to exactly one argument, or to two
 * for infix: the string then stands as it is, before, between or behind the arguments in their order, and next to it a place that may be
 * broken and is empty if it is not. Arguments print under the priority, and the whole has the level below it: it has parentheses
 * round it where it prints under its priority or more.
 */

/* The kind of a notation row. */
enum tilusorgu_notation_kind { TILUSORGU_PREFIX = 0, TILUSORGU_INFIX = 1, TILUSORGU_POSTFIX = 2 };

/*
 * Is the pool accepted? Given: the pool. Lent: nothing.
 * Refuses 1 to 4, then 31, in that order; tables in order, rows rising. For a success, out is all zeros.
 */
uint32_t tilusorgu_check(const uint8_t *bytes, size_t byte_count, const uint32_t *words, size_t word_count, uint64_t *out, size_t out_count);

/*
 * Prints the expression in row `root` of the pool, with steps of `indent` spaces, in rows of `width` bytes where they can be broken.
 * Given: the pool, root, indent, width. Lent: rows (the document, seven words a row), text (the document's texts), listing.
 *
 * Refuses 1 to 4, then 31, as check does, then 5, then 6; then, whichever the walk over the document meets first, 7, 8, 20 or 21 (8
 * before 20 and 21; a text's bytes before its row); then 22.
 *
 * What the lent areas hold afterwards:
 *     1 to 6 and 31   all three as they were
 *     7, 8, 20, 21    rows and text all zero; listing as it was
 *     22              rows and text: the document, then zeros; listing: the first bytes of the full listing, as many as fit
 *     success         rows and text: the document, then zeros; listing: the listing, and past its length as it was
 */
uint32_t tilusorgu_print_expr(const uint8_t *bytes, size_t byte_count, const uint32_t *words, size_t word_count, uint32_t root,
                              uint32_t indent, uint32_t width, uint32_t *rows, size_t row_words, uint8_t *text, size_t text_bytes,
                              uint8_t *listing, size_t listing_bytes, uint64_t *out, size_t out_count);

/* Prints the declaration in row `root` of the pool; else as tilusorgu_print_expr. */
uint32_t tilusorgu_print_declar(const uint8_t *bytes, size_t byte_count, const uint32_t *words, size_t word_count, uint32_t root,
                                uint32_t indent, uint32_t width, uint32_t *rows, size_t row_words, uint8_t *text, size_t text_bytes,
                                uint8_t *listing, size_t listing_bytes, uint64_t *out, size_t out_count);

/*
 * Compares the trees of the expression rows `first` and `second` of the pool. Given: the pool, first, second. Lent: nothing.
 *
 * Refuses 1 to 4, then 31, as check does, then 5 if either row is missing. For a success out[2] is 1 if the trees are equal, and all else
 * is 0. If they are not, out[2] is 0, and out[3] and out[4] are the first pair of rows that differs: one of the first tree, and one of the
 * second in the same place. Notation rows play no part in it.
 *
 * A pair differs if the kinds do, or a field that is no expression does, as trees: a variable's index; a sort's level; a constant's name, and its levels in
 * order; the name and the style of a pi or a lambda; a let's name and nondep; a projection's type name and index; a literal's bytes. Depth and loose
 * words are no fields. A pair comes before those of its children, and these come last field first: argument, function; body, type; body, value, type;
 * structure. Which rows are shared does not change whether trees are equal, but which rows are named.
 */
uint32_t tilusorgu_compare(const uint8_t *bytes, size_t byte_count, const uint32_t *words, size_t word_count, uint32_t first, uint32_t second,
                           uint64_t *out, size_t out_count);

/*
 * Lays out a given document at a width: the first `row_count` rows of `rows` and the first `text_count` bytes of `text`, as a print
 * left them. Given: rows, row_count, text, text_count, width. Lent: listing.
 *
 * A row has seven words: kind, two fields (0 if unused), rows of its subtree, flat size, distance to the first break (flat size if
 * there is none), has-break. Kinds: 0 text (offset, length; texts are contiguous from 0), 1 join, 2 break (its blank's length, 0 or
 * 1), 3 nest (amount, up to 64), 4 group. A row stands straight after its children's subtrees, the left one first; the last row's
 * subtree is the whole document, rows and text bytes.
 *
 * Refuses 9, then 6 (width), then 22. After 9 and 6 the listing area is as it was; after 22 it holds the first bytes of the full
 * listing, as many as fit; a success leaves it as it was past the listing.
 */
uint32_t tilusorgu_layout(const uint32_t *rows, size_t row_words, uint64_t row_count, const uint8_t *text, size_t text_bytes,
                          uint64_t text_count, uint32_t width, uint8_t *listing, size_t listing_bytes, uint64_t *out, size_t out_count);

/*
 * Lays out a given document as tilusorgu_layout does, with the same answers, counts and listing, but without calls as deep as the document:
 * the rows that are still to be laid out stand in a lent area, and loops alone go over them.
 * Given: rows, row_count, text, text_count, width. Lent: pending (three words for each document row, 3 * row_count in all), listing.
 *
 * Refuses 9, then 6 (width), then 30 (pending has fewer than 3 * row_count words), then 22.
 *
 * What the lent areas hold afterwards; what pending held before does not matter:
 *     9, 6, 30    both as they were
 *     22          pending: all zero, past the first 3 * row_count words too; listing: the first bytes of the full listing, as many as fit
 *     success     pending: all zero, likewise; listing: the listing, and past its length as it was
 */
uint32_t tilusorgu_layout_pending(const uint32_t *rows, size_t row_words, uint64_t row_count, const uint8_t *text, size_t text_bytes,
                                  uint64_t text_count, uint32_t width, uint32_t *pending, size_t pending_words, uint8_t *listing,
                                  size_t listing_bytes, uint64_t *out, size_t out_count);

/* What tilusorgu_hand_out hands out. */
enum tilusorgu_kind {
    TILUSORGU_PART_TEXT = 0,  /* the text of a document's row: a part of `text` */
    TILUSORGU_PART_STRING = 1 /* the string of a pool's string row: a part of `bytes` */
};

/*
 * Hands out the text of a document's row, or a pool's string: the out[3] bytes of `text` or of `bytes` from the offset out[2] on. They lie inside
 * that slice. Given: the pool, a document as tilusorgu_layout is given it, a kind (above) and the row. Lent: nothing.
 *
 * Returns 0 always. The part is empty, offset and length 0, unless the document is accepted (not refused 9) and the row is one of its texts, or
 * the pool is accepted and has that string row; for any other kind it is empty too. For a text the pool is not looked at, nor for a string
 * the document: those slices may be of length 0.
 */
uint32_t tilusorgu_hand_out(const uint8_t *bytes, size_t byte_count, const uint32_t *words, size_t word_count, const uint32_t *rows,
                            size_t row_words, uint64_t row_count, const uint8_t *text, size_t text_bytes, uint64_t text_count, uint32_t kind,
                            uint32_t row, uint64_t *out, size_t out_count);

#ifdef __cplusplus
}
#endif

#endif
