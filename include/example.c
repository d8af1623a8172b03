/* Prints the two declarations of a pool typed by hand, `axiom k : @C` and `axiom m : @C+@C`, hands out each document's first text, shows
 * what a refusal looks like, and compares two of the pool's expressions. */
#include "tilusorgu.h"
#include <inttypes.h>
#include <stdio.h>

static const uint8_t bytes[] = {'k', 'm', 'C', 'f', '+'};
static const uint32_t words[] = {
    5, 5, 0, 1, 0, 4, 2, 1,              /* counts: strings, names, levels, lists, list words, expressions, declarations, notation rows */
    0, 1, 1, 1, 2, 1, 3, 1, 4, 1,        /* strings: "k", "m", "C", "f", "+" */
    0, 0, 0, 0, 1, 0, 0, 0, 1, 0, 1, 0,  /* names: anonymous, k, m */
    1, 0, 2, 0, 1, 0, 3, 0,              /* C, f */
    0, 0,                                /* lists: one of no levels */
    2, 3, 0, 0, 0, 0, 1, 0,              /* expressions: the constant C; depth 1, nothing loose */
    2, 4, 0, 0, 0, 0, 1, 0,              /* the constant f */
    3, 1, 0, 0, 0, 0, 2, 0,              /* f C; depth 2 */
    3, 2, 0, 0, 0, 0, 3, 0,              /* f C C */
    0, 1, 0, 0, 0,                       /* declarations: the axiom k of the type C */
    0, 2, 0, 3, 0,                       /* the axiom m of the type f C C */
    4, TILUSORGU_INFIX, 65, 4            /* notation: f is the infix operator "+" of priority 65 */
};

/* Areas for documents of so many rows and text bytes: a longer one is refused 20 or 21, and none is refused 22. */
enum { ROWS = 1024, TEXT_BYTES = 4096, INDENT = 2, WIDTH = 80 };
static uint32_t rows[TILUSORGU_ROW_WORDS * ROWS];
static uint8_t text[TEXT_BYTES];
static uint8_t listing[TILUSORGU_LISTING_BYTES(ROWS, TEXT_BYTES, INDENT)];

static int print_declar(uint32_t root) {
    uint64_t out[TILUSORGU_OUT];
    uint32_t number = tilusorgu_print_declar(bytes, sizeof bytes, words, sizeof words / sizeof *words, root, INDENT, WIDTH, rows,
                                             sizeof rows / sizeof *rows, text, sizeof text, listing, sizeof listing, out, TILUSORGU_OUT);
    if (number != TILUSORGU_DONE) {
        printf("refused %" PRIu32 ", place %" PRIu64 "\n", number, out[1]);
        return 1;
    }
    printf("%.*s\n", (int)out[4], (const char *)listing);
    tilusorgu_hand_out(bytes, sizeof bytes, words, sizeof words / sizeof *words, rows, sizeof rows / sizeof *rows, out[2], text, sizeof text,
                       out[3], TILUSORGU_PART_TEXT, 0, out, TILUSORGU_OUT);
    printf("row 0 is the text \"%.*s\"\n", (int)out[3], (const char *)text + out[2]);
    return 0;
}

static int compare(uint32_t first, uint32_t second) {
    uint64_t out[TILUSORGU_OUT];
    uint32_t number = tilusorgu_compare(bytes, sizeof bytes, words, sizeof words / sizeof *words, first, second, out, TILUSORGU_OUT);
    if (number != TILUSORGU_DONE) {
        printf("refused %" PRIu32 ", place %" PRIu64 "\n", number, out[1]);
        return 1;
    }
    if (out[2] == 1)
        printf("equal\n");
    else
        printf("rows %" PRIu64 " and %" PRIu64 " differ\n", out[3], out[4]);
    return 0;
}

int main(void) {
    int first = print_declar(0), second = print_declar(1), third = print_declar(2);
    return first == 0 && second == 0 && third == 1 && compare(0, 0) == 0 && compare(0, 1) == 0 ? 0 : 1;
}
