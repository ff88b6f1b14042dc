#include "table.h"

uint64_t get_word(const uint8_t *at) {
    uint64_t value = 0;
    int i;
    for (i = WORD; i > 0; i--)
        value = value << 8 | at[i - 1];
    return value;
}

void put_word(uint8_t *at, uint64_t value) {
    int i;
    for (i = 0; i < WORD; i++)
        at[i] = (uint8_t)(value >> 8 * i);
}

/* Takes a row and its ID off the rest of a table; 0 where they do not lie wholly in it. */
static int take_row(struct bytes *rest, struct row *row) {
    uint64_t length;
    if (rest->length < ROW_LENGTH)
        return 0;
    row->offset = get_word(rest->start);
    row->size = get_word(rest->start + WORD);
    length = get_word(rest->start + 2 * WORD);
    if (length > rest->length - ROW_LENGTH)
        return 0;
    row->id.start = rest->start + ROW_LENGTH;
    row->id.length = (size_t)length;
    rest->start = row->id.start + length;
    rest->length -= ROW_LENGTH + (size_t)length;
    return 1;
}

int read_row(struct bytes bundle, uint64_t index, struct row *row) {
    struct bytes rest = bundle;
    uint64_t i;
    if (bundle.length < TABLE_AT)
        return 0;
    rest.start += TABLE_AT;
    rest.length -= TABLE_AT;
    for (i = 0; i < index; i++)
        if (!take_row(&rest, row))
            return 0;
    return take_row(&rest, row);
}
