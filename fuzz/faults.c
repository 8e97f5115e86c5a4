/*
 * Faults put on purpose behind the proved reader and writer, which stand in a copy of the archive under other names. GRAIN_FAULT
 * says which one. They are what a reader or a writer could get wrong without saying so.
 */
#include "grain.h"
#include <stdlib.h>

#define TABLE(k) uint64_t *t##k, size_t n##k
#define TABLES TABLE(1), TABLE(2), TABLE(3), TABLE(4), TABLE(5), TABLE(6), TABLE(7), TABLE(8), TABLE(9), TABLE(10), TABLE(11), \
    TABLE(12), TABLE(13)
#define LENT(k) const TABLE(k)
#define ALL_LENT LENT(1), LENT(2), LENT(3), LENT(4), LENT(5), LENT(6), LENT(7), LENT(8), LENT(9), LENT(10), LENT(11), LENT(12), \
    LENT(13), const uint8_t *text, size_t text_len

uint64_t proved_read(const uint8_t *bytes, size_t len, uint8_t mask, TABLES, uint64_t answer[GRAIN_ANSWER_WORDS]);

uint64_t proved_write(const uint64_t heading[GRAIN_ANSWER_WORDS], ALL_LENT, uint8_t mask, uint8_t strip, uint8_t *out, size_t room,
                      uint64_t values[2]);

/* The tables by their numbers, and their words. */
struct lent {
    uint64_t *table[1 + GRAIN_TABLES];
    size_t words[1 + GRAIN_TABLES];
};

static int fault(void) {
    const char *number = getenv("GRAIN_FAULT");
    return number ? atoi(number) : 0;
}

static void many_arguments(struct grain_step *rows, uint64_t count) {
    for (uint64_t k = 0; k < count; k++) rows[k].argc -= rows[k].argc > 100 && rows[k].argc < 200;
}

static void accepted(const struct lent *lent, int odd_before, uint64_t *answer) {
    uint64_t steps = answer[GRAIN_ANSWER_ROWS + GRAIN_TABLE_STEPS];
    uint64_t constants = answer[GRAIN_ANSWER_ROWS + GRAIN_TABLE_CONSTANTS];
    size_t words = lent->words[GRAIN_TABLE_CONSTANTS];
    switch (fault()) {
    case 1: /* the last bracket column is off */
        if (steps > 0) lent->table[GRAIN_TABLE_STEPS][steps * GRAIN_STEP_WORDS - 1] += 1;
        break;
    case 2: /* a word behind the rows is not zero */
        if (words > constants * GRAIN_CONSTANT_WORDS) lent->table[GRAIN_TABLE_CONSTANTS][words - 1] = 1;
        break;
    case 3: /* what a table held before shows through */
        answer[GRAIN_ANSWER_MAIN_SLOTS] += odd_before;
        break;
    case 4: /* a span is off, where there is one */
        answer[GRAIN_ANSWER_POSITIONS_START] += answer[GRAIN_ANSWER_POSITIONS_LENGTH] > 0;
        break;
    case 9: /* a word behind a table is written */
        lent->table[GRAIN_TABLE_RANGES][lent->words[GRAIN_TABLE_RANGES]] = 1;
        break;
    case 11: /* an argument count between 100 and 200 is off: no artifact of vectors/ has one */
        many_arguments((struct grain_step *)lent->table[GRAIN_TABLE_STEPS], steps);
        break;
    }
}

static void refused(const struct lent *lent, uint64_t *answer) {
    size_t words = lent->words[GRAIN_TABLE_PARAMETERS];
    switch (fault()) {
    case 5: /* a word of a table is not zero */
        if (words > 0) lent->table[GRAIN_TABLE_PARAMETERS][words - 1] = 1;
        break;
    case 6: /* nor one of the answer */
        answer[GRAIN_ANSWER_TOP_CONSTANTS] = 1;
        break;
    case 7: /* another reason */
        if (answer[0] == GRAIN_BAD_UTF8) answer[0] = GRAIN_MALFORMED_VARINT;
        break;
    case 8: /* the place is one off */
        if (answer[0] == GRAIN_BAD_INDEX) answer[1] += 1;
        break;
    }
}

uint64_t grain_read(const uint8_t *bytes, size_t len, uint8_t mask, TABLES, uint64_t answer[GRAIN_ANSWER_WORDS]) {
    struct lent lent = {{0, t1, t2, t3, t4, t5, t6, t7, t8, t9, t10, t11, t12, t13},
                        {0, n1, n2, n3, n4, n5, n6, n7, n8, n9, n10, n11, n12, n13}};
    int odd_before = n2 > 0 && t2[0] % 2 == 1;
    uint64_t number = proved_read(bytes, len, mask, t1, n1, t2, n2, t3, n3, t4, n4, t5, n5, t6, n6, t7, n7, t8, n8, t9, n9, t10,
                                  n10, t11, n11, t12, n12, t13, n13, answer);
    if (number == 0) accepted(&lent, odd_before, answer);
    else refused(&lent, answer);
    /* 10: a byte behind the file is read */
    if (fault() == 10 && ((volatile const uint8_t *)bytes)[len] == 0xA5) answer[1] += 1;
    return answer[0];
}

static uint64_t written(uint64_t steps, uint8_t strip, uint8_t *out, size_t room, uint64_t *values) {
    uint64_t size = values[0];
    switch (fault()) {
    case 12: /* the last byte is off, where it is stripped and there are steps */
        if (strip && steps > 0) out[size - 1] += 1;
        break;
    case 13: /* a byte behind the written ones is touched */
        if (size < room) out[size] = 0;
        break;
    case 14: /* a byte behind the output is written */
        out[room] = 0;
        break;
    }
    return 0;
}

static uint64_t unwritten(uint64_t number, uint8_t *out, size_t room, uint64_t *values) {
    switch (fault()) {
    case 15: /* a refusal touches the output */
        if (room > 0) out[room - 1] += 1;
        break;
    case 16: /* the bytes needed are one off */
        values[0] += number == GRAIN_NO_ROOM;
        break;
    case 17: /* another rule */
        values[0] += number == GRAIN_BAD_MODEL && values[0] == 8;
        break;
    }
    return number;
}

uint64_t grain_write(const uint64_t heading[GRAIN_ANSWER_WORDS], ALL_LENT, uint8_t mask, uint8_t strip, uint8_t *out, size_t room,
                     uint64_t values[2]) {
    uint64_t number = proved_write(heading, t1, n1, t2, n2, t3, n3, t4, n4, t5, n5, t6, n6, t7, n7, t8, n8, t9, n9, t10, n10, t11, n11,
                                   t12, n12, t13, n13, text, text_len, mask, strip, out, room, values);
    if (number == 0) return written(heading[GRAIN_ANSWER_ROWS + GRAIN_TABLE_STEPS], strip, out, room, values);
    return unwritten(number, out, room, values);
}
