/* For each line of rows, text bytes and indent on standard input a line with the length that the header says is enough. */
#include "tilusorgu.h"
#include <inttypes.h>
#include <stdio.h>

/* With constants it is a constant. */
static const uint8_t area[TILUSORGU_LISTING_BYTES(16, 16, 2)] = {0};

int main(void) {
    uint64_t rows, text_bytes, indent;
    while (scanf("%" SCNu64 " %" SCNu64 " %" SCNu64, &rows, &text_bytes, &indent) == 3) {
        printf("%zu\n", TILUSORGU_LISTING_BYTES(rows, text_bytes, indent));
    }
    return area[0];
}
