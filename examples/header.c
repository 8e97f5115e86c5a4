/*
 * header: holds include/grain.h to the archive: the words of each row, and every function but grain_read, called on cases of
 * document 01. Prints each line that does not hold. Exit status: 0 all hold, 1 one does not.
 */
#include <stdio.h>
#include <string.h>

#include "grain.h"

/* Refused by the compiler where a struct has other words than its row. */
#define ROW(type, words) typedef char type##_has_its_words[sizeof(struct type) == (words) * sizeof(uint64_t) ? 1 : -1]
ROW(grain_name, GRAIN_NAME_WORDS);
ROW(grain_constant, GRAIN_CONSTANT_WORDS);
ROW(grain_token, GRAIN_TOKEN_WORDS);
ROW(grain_assign, GRAIN_ASSIGN_WORDS);
ROW(grain_chain, GRAIN_CHAIN_WORDS);
ROW(grain_step, GRAIN_STEP_WORDS);
ROW(grain_switch, GRAIN_SWITCH_WORDS);
ROW(grain_case, GRAIN_CASE_WORDS);
ROW(grain_range, GRAIN_RANGE_WORDS);
ROW(grain_custom, GRAIN_CUSTOM_WORDS);
ROW(grain_input, GRAIN_INPUT_WORDS);
ROW(grain_function, GRAIN_FUNCTION_WORDS);
ROW(grain_parameter, GRAIN_PARAMETER_WORDS);

static int failed;

#define HOLDS(fact) holds((fact), #fact)

static void holds(int fact, const char *text)
{
    if (!fact) {
        printf("does not hold: %s\n", text);
        failed = 1;
    }
}

/* Sites 0 at 1:1 and 5 at 2:300, and their table. */
static const uint32_t addresses[] = {0, 5}, falling[] = {5, 0}, lines[] = {1, 2}, columns[] = {1, 300};
static const uint8_t table[] = {0x02, 0x00, 0x01, 0x01, 0x05, 0x02, 0xAC, 0x02};
static const uint8_t out_of_order[] = {0x02, 0x05, 0x01, 0x01, 0x00, 0x02, 0x02};

static void positions(void)
{
    uint64_t values[2], count = 9;

    HOLDS(grain_pos_check(table, sizeof table, values) == GRAIN_NONE && values[0] == 0 && values[1] == 0);
    HOLDS(grain_pos_check(out_of_order, sizeof out_of_order, values) == GRAIN_POSITIONS);
    HOLDS(values[0] == GRAIN_POSITIONS_OUT_OF_ORDER && values[1] == 5);
    HOLDS(grain_pos_count(table, sizeof table, &count) == GRAIN_NONE && count == 2);
    HOLDS(grain_pos_count(table, 0, &count) == GRAIN_POSITIONS && count == 0);
    HOLDS(grain_pos_resolve(table, sizeof table, 5, values) == 1 && values[0] == 2 && values[1] == 300);
    HOLDS(grain_pos_resolve(table, sizeof table, 3, values) == 0 && values[0] == 0 && values[1] == 0);
}

static void encoding(void)
{
    uint8_t out[9];
    uint64_t values[2];

    memset(out, 0xEE, sizeof out);
    HOLDS(grain_pos_encode(falling, 2, lines, 2, columns, 2, out, 9, values) == GRAIN_NOT_ASCENDING);
    HOLDS(values[0] == 0 && values[1] == 5);
    HOLDS(grain_pos_encode(addresses, 2, lines, 2, columns, 2, out, 7, values) == GRAIN_NO_ROOM);
    HOLDS(values[0] == 8 && values[1] == 0 && out[0] == 0xEE);
    HOLDS(grain_pos_encode(addresses, 2, lines, 2, columns, 2, out, 9, values) == GRAIN_NONE);
    HOLDS(values[0] == 8 && values[1] == 0);
    HOLDS(memcmp(out, table, sizeof table) == 0 && out[8] == 0xEE);
}

/* Thirteen tables without a row. A pointer is never null, so they stand at a word that is not theirs. */
#define NO_ROWS(w) w, 0, w, 0, w, 0, w, 0, w, 0, w, 0, w, 0, w, 0, w, 0, w, 0, w, 0, w, 0, w, 0

/* The least artifact from a heading of zeros, and what is refused. */
static void writing(void)
{
    static const uint8_t start[] = {'R', 'G', 'R', 'N', 11, 0, 8, 8}, text[] = {'a'};
    uint64_t heading[GRAIN_ANSWER_WORDS] = {0}, word = 0, values[2];
    uint8_t out[44];

    memset(out, 0xEE, sizeof out);
    HOLDS(grain_write(heading, NO_ROWS(&word), text, 0, 1, 0, out, 42, values) == GRAIN_NO_ROOM);
    HOLDS(values[0] == 43 && values[1] == 0 && out[0] == 0xEE);
    heading[GRAIN_ANSWER_MAIN_SLOTS] = 65536;
    HOLDS(grain_write(heading, NO_ROWS(&word), text, 0, 1, 0, out, 44, values) == GRAIN_BAD_MODEL);
    HOLDS(values[0] == GRAIN_RULE_NUMBERS && values[1] == 0 && out[0] == 0xEE);
    heading[GRAIN_ANSWER_CODE_LENGTH] = 1;
    HOLDS(grain_write(heading, NO_ROWS(&word), text, 0, 1, 0, out, 44, values) == GRAIN_BAD_MODEL);
    HOLDS(values[0] == GRAIN_RULE_SPANS && values[1] == 0 && out[0] == 0xEE);
    heading[GRAIN_ANSWER_CODE_LENGTH] = heading[GRAIN_ANSWER_MAIN_SLOTS] = 0;
    heading[GRAIN_ANSWER_NUMBER] = heading[GRAIN_ANSWER_WORDS - 1] = 9;
    HOLDS(grain_write(heading, NO_ROWS(&word), text, 0, 1, 0, out, 44, values) == GRAIN_NONE);
    HOLDS(values[0] == 43 && values[1] == 0 && out[42] == 0 && out[43] == 0xEE);
    HOLDS(memcmp(out, start, sizeof start) == 0);
}

static void parts(void)
{
    static const uint8_t padded[] = {0x80, 0x00}, cut[] = {0x80, 0x80, 0x80, 0x80, 0x80, 0x80, 0x80, 0x80, 0x80};
    static const uint8_t widest[] = {0xFF, 0xFF, 0xFF, 0xFF, 0xFF, 0xFF, 0xFF, 0xFF, 0xFF, 0x01};
    static const uint8_t wider[] = {0xFF, 0xFF, 0xFF, 0xFF, 0xFF, 0xFF, 0xFF, 0xFF, 0xFF, 0x02};
    static const uint8_t accent[] = {0xC3, 0xA9}, overlong[] = {0xC0, 0x80}, letter[] = {'a'};
    uint64_t out[2];

    HOLDS(grain_number(padded, 2, 0, out) == GRAIN_NONE && out[0] == 0 && out[1] == 2);
    HOLDS(grain_number(widest, 10, 0, out) == GRAIN_NONE && out[0] == UINT64_MAX && out[1] == 10);
    HOLDS(grain_number(wider, 10, 0, out) == GRAIN_MALFORMED_VARINT && out[0] == 0 && out[1] == 0);
    HOLDS(grain_number(cut, 9, 1, out) == GRAIN_TRUNCATED && out[0] == 0 && out[1] == 1);
    HOLDS(grain_utf8(accent, 2) == 1 && grain_utf8(overlong, 2) == 0);
    HOLDS(grain_debug_id(letter, 0, letter, 0, out) == 0);
    HOLDS(out[0] == 0x62b821756295c58d && out[1] == 0x6c62272e07bb0142);
    HOLDS(grain_debug_id(letter, 1, letter, 0, out) == 0);
    HOLDS(out[0] == 0x78912b704e4a8964 && out[1] == 0xd228cb696f1a8caf);
}

int main(void)
{
    positions();
    encoding();
    writing();
    parts();
    return failed;
}
