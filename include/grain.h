/*
 * grain.h: the loader of Rhai Grain artifacts, and their writer.
 *
 * Link target/staticlib/libgrain.a, which `rust/archive grain` makes (x86-64, Linux). Every function here is proved to do
 * what its contract in crates/grain_c/src says, for every input; the words below say the same less exactly.
 *
 * Any bytes and any lengths may be given: what is wrong is refused, by a number of `enum grain_refusal`. Nothing is kept
 * between calls, nothing is allocated, and nothing outside of what is lent is written.
 *
 * What C cannot check is left to the caller: a pointer is valid for the length that is given with it, and not null even where
 * the length is 0; and what a call writes overlaps nothing else that the call is given.
 */
#ifndef GRAIN_H
#define GRAIN_H

#include <stddef.h>
#include <stdint.h>

#ifdef __cplusplus
extern "C" {
#endif

/* The limits: bytes of an artifact, sites of an encoded table, arrays and maps and pointers around a constant. */
enum { GRAIN_MAX_BYTES = 1048576, GRAIN_MAX_SITES = 262144, GRAIN_MAX_DEPTH = 64 };

/* ---- Refusals: their numbers, and the two values that come with each (those not named are 0) ---- */

enum grain_refusal {
    GRAIN_NONE = 0,                 /* nothing was refused */
    GRAIN_TOO_LONG = 1,             /* the length */
    GRAIN_TRUNCATED = 2,
    GRAIN_BAD_MAGIC = 3,
    GRAIN_UNSUPPORTED_VERSION = 4,  /* the version found; 11 */
    GRAIN_ABI = 5,                  /* int width; float width */
    GRAIN_MALFORMED_VARINT = 6,
    GRAIN_BAD_UTF8 = 7,
    GRAIN_UNKNOWN_TAG = 8,          /* enum grain_place; the byte */
    GRAIN_CONSTANT_TOO_DEEP = 9,
    GRAIN_BAD_INDEX = 10,           /* place of the index in the file; the index */
    GRAIN_NAMES = 11,               /* enum grain_names_fault */
    GRAIN_POSITIONS = 12,           /* enum grain_positions_fault; earlier address of 3, count of 4 */
    GRAIN_TRAILING_BYTES = 13,      /* how many */
    GRAIN_FULL = 14,                /* enum grain_table */
    GRAIN_BAD_MODEL = 15,           /* enum grain_rule: the lowest that tables to be written break */
    GRAIN_NO_ROOM = 16,             /* bytes needed */
    GRAIN_NOT_ASCENDING = 17        /* the address; the earlier one */
};

/* First value of GRAIN_UNKNOWN_TAG: where the byte stood. */
enum grain_place {
    GRAIN_PLACE_CONSTANT = 1,
    GRAIN_PLACE_ROOT = 2,
    GRAIN_PLACE_FLAGS = 3,          /* step flags outside of the mask */
    GRAIN_PLACE_STEP = 4,
    GRAIN_PLACE_TAIL = 5
};

/* First value of GRAIN_NAMES. */
enum grain_names_fault {
    GRAIN_NAMES_FALL = 1,           /* an end is below the one before it */
    GRAIN_NAMES_LAST_END = 2,       /* the last end is not the blob's length */
    GRAIN_NAMES_NOT_UTF8 = 3
};

/* First value of GRAIN_POSITIONS. */
enum grain_positions_fault {
    GRAIN_POSITIONS_TRUNCATED = 1,
    GRAIN_POSITIONS_OVERFLOW = 2,
    GRAIN_POSITIONS_OUT_OF_ORDER = 3,
    GRAIN_POSITIONS_TRAILING = 4
};

/* ---- Tables: their numbers, and the words of a row ---- */

enum grain_table {
    GRAIN_TABLE_NAMES = 1,
    GRAIN_TABLE_CONSTANTS = 2,
    GRAIN_TABLE_TOKENS = 3,
    GRAIN_TABLE_ASSIGNS = 4,
    GRAIN_TABLE_CHAINS = 5,
    GRAIN_TABLE_STEPS = 6,
    GRAIN_TABLE_SWITCHES = 7,
    GRAIN_TABLE_CASES = 8,
    GRAIN_TABLE_RANGES = 9,
    GRAIN_TABLE_CUSTOMS = 10,
    GRAIN_TABLE_INPUTS = 11,
    GRAIN_TABLE_FUNCTIONS = 12,
    GRAIN_TABLE_PARAMETERS = 13,
    GRAIN_TABLES = 13               /* how many there are */
};

enum grain_row_words {
    GRAIN_NAME_WORDS = 1,
    GRAIN_CONSTANT_WORDS = 8,
    GRAIN_TOKEN_WORDS = 2,
    GRAIN_ASSIGN_WORDS = 6,
    GRAIN_CHAIN_WORDS = 9,
    GRAIN_STEP_WORDS = 11,
    GRAIN_SWITCH_WORDS = 3,
    GRAIN_CASE_WORDS = 2,
    GRAIN_RANGE_WORDS = 4,
    GRAIN_CUSTOM_WORDS = 3,
    GRAIN_INPUT_WORDS = 5,
    GRAIN_FUNCTION_WORDS = 7,
    GRAIN_PARAMETER_WORDS = 1
};

/*
 * A table is an array of words, and a row is one of these structs laid over it. A span is a start and a length in bytes of
 * the artifact. A word that a tag does not use is 0. Name, constant and operator indices are kept as they stand in the file:
 * only a case's constant has been held to its table. A signed number is kept as its 64 bits: cast it to int64_t.
 */

/* 1: where a name ends in the name blob; it starts where the one before it ends, the first one at 0. */
struct grain_name {
    uint64_t end;
};

/*
 * 2: a constant; one with items stands just before them.
 * tag: 0 unit, 1 false, 2 true, 3 signed number, 4 float, 5 char, 6 string, 7 array, 8 map, 9 blob, 10 range, 11 inclusive
 * range, 13 function pointer.
 * a, b: the signed number's 64 bits; the float's 8 bytes, low first; the char; both ends of a range; of a pointer 0x81, or
 * 0x82 and its parameter count. start, length: a string, a blob, or a pointer's name. key: of an entry of a map.
 */
struct grain_constant {
    uint64_t tag, a, b, start, length, items, key_start, key_length;
};

/* 3: an operator token. */
struct grain_token {
    uint64_t start, length;
};

/* 4: an operator that assigns: its token and name, and the token and name of the operator that it applies. */
struct grain_assign {
    uint64_t op_assign_start, op_assign_length, op_assign_name, op_start, op_length, op_name;
};

/*
 * 5: a chain; its steps follow those of the chains before it.
 * root_tag: 1 local (slot, name), 2 temporary, 3 named (name, position), 4 this (position). tail_tag: 1 read, 2 assign,
 * 3 assign with an operator. Line 0 means that there is no position.
 */
struct grain_chain {
    uint64_t root_tag, slot, name, line, column, operands, steps, tail_tag, op;
};

/* 6: a step. tag: 1 index (operand, position, bracket), 2 property (name, getter, setter), 3 method (name, argc, operand). */
struct grain_step {
    uint64_t tag, flags, operand, name, getter, setter, argc, line, column, bracket_line, bracket_column;
};

/* 7: a switch; how many cases and ranges are its own, and where it goes else. */
struct grain_switch {
    uint64_t cases, ranges, default_target;
};

/* 8: a case: where it goes, and the top constant that it is for. */
struct grain_case {
    uint64_t blocks, constant;
};

/* 9: a range of a switch; from and to are signed, inclusive is 0 or 1. */
struct grain_range {
    uint64_t from, to, inclusive, target;
};

/* 10: a site of custom syntax. */
struct grain_custom {
    uint64_t key, state, inputs;
};

/* 11: an input of a site: a chunk, and a literal where literal_present is 1. */
struct grain_input {
    uint64_t entry, end, slots, literal_present, literal;
};

/* 12: a function. access: 0 public, 1 private. this_type: 0 untyped, else one higher than the index. */
struct grain_function {
    uint64_t name, access, this_type, parameters, entry, end, slots;
};

/* 13: a parameter of a function. */
struct grain_parameter {
    uint64_t name;
};

/* ---- Reading an artifact ---- */

/* The words of an answer. On a refusal all but the first three are 0. */
enum grain_answer {
    GRAIN_ANSWER_NUMBER = 0,        /* enum grain_refusal */
    GRAIN_ANSWER_FIRST = 1,
    GRAIN_ANSWER_SECOND = 2,
    GRAIN_ANSWER_CAPS = 3,
    GRAIN_ANSWER_DEBUG_ID_LOW = 4,
    GRAIN_ANSWER_DEBUG_ID_HIGH = 5,
    GRAIN_ANSWER_SOURCE_START = 6,
    GRAIN_ANSWER_SOURCE_LENGTH = 7,
    GRAIN_ANSWER_BLOB_START = 8,    /* the text of all names */
    GRAIN_ANSWER_BLOB_LENGTH = 9,
    GRAIN_ANSWER_CODE_START = 10,
    GRAIN_ANSWER_CODE_LENGTH = 11,
    GRAIN_ANSWER_POSITIONS_START = 12,
    GRAIN_ANSWER_POSITIONS_LENGTH = 13,
    GRAIN_ANSWER_MAIN_ENTRY = 14,
    GRAIN_ANSWER_MAIN_END = 15,
    GRAIN_ANSWER_MAIN_SLOTS = 16,
    GRAIN_ANSWER_TOP_CONSTANTS = 17,
    GRAIN_ANSWER_ROWS = 17,         /* GRAIN_ANSWER_ROWS + the number of a table: its rows that are used; words 18 to 30 */
    GRAIN_ANSWER_WORDS = 32         /* how many there are; the last one is 0 */
};

/*
 * Reads an artifact of `len` bytes into thirteen tables. `mask` has the step flags that are known. n1 to n13 are the lengths
 * of the tables in words; a table has as many rows as fit whole.
 * Returns the refusal's number or 0, which is answer[0] too. Where it accepts, each table has its rows in front and zeros
 * behind them. Where it refuses, every word of every table is zero.
 */
uint64_t grain_read(const uint8_t *bytes, size_t len, uint8_t mask,
                    uint64_t *names, size_t n1, uint64_t *constants, size_t n2, uint64_t *tokens, size_t n3,
                    uint64_t *assigns, size_t n4, uint64_t *chains, size_t n5, uint64_t *steps, size_t n6,
                    uint64_t *switches, size_t n7, uint64_t *cases, size_t n8, uint64_t *ranges, size_t n9,
                    uint64_t *customs, size_t n10, uint64_t *inputs, size_t n11, uint64_t *functions, size_t n12,
                    uint64_t *parameters, size_t n13, uint64_t answer[GRAIN_ANSWER_WORDS]);

/* ---- Writing an artifact ---- */

/*
 * The rules of well-formed tables: the first value of GRAIN_BAD_MODEL is the lowest that is broken. A rule looks only at rows
 * that are used, and only at the words that their tag uses. Tables that grain_read accepted keep all of them under the same mask.
 */
enum grain_rule {
    GRAIN_RULE_COUNTS = 1,          /* counts fit their tables, and what rows own of another table uses it exactly */
    GRAIN_RULE_SPANS = 2,           /* spans lie in the text */
    GRAIN_RULE_STRINGS = 3,         /* strings are UTF-8 */
    GRAIN_RULE_NAMES = 4,           /* ends never fall, the last is the blob's length, the blob is UTF-8 */
    GRAIN_RULE_TAGS = 5,            /* tags and access are known, step flags are within the mask */
    GRAIN_RULE_DEPTH = 6,           /* at most GRAIN_MAX_DEPTH arrays, maps and pointers around a constant */
    GRAIN_RULE_CHARS = 7,           /* chars are Unicode scalars */
    GRAIN_RULE_CASES = 8,           /* cases name top constants */
    GRAIN_RULE_NUMBERS = 9,         /* line 0 has column 0, what is yes or no is 0 or 1, a literal that is there is below
                                       FFFFFFFF (hex), this_type is at most 2^32, every number fits its kind */
    GRAIN_RULE_POSITIONS = 10,      /* the position table is empty, or grain_pos_check accepts it */
    GRAIN_RULE_LENGTH = 11          /* what is to be written, in the way asked, has at most GRAIN_MAX_BYTES */
};

/*
 * Writes tables as an artifact into `out`, which has room for `room` bytes. `heading` has the words of an answer, which say what
 * stands outside of the tables and how many of their rows are used; words 0, 1, 2 and 31 are not looked at. n1 to n13 are the
 * lengths of the tables in words. `text` is what the spans cut, those of the heading too: for tables of grain_read, the bytes
 * that were read. `mask` has the step flags that may be written. `strip` 0 keeps positions; anything else writes none for every
 * position of a chain, and an empty position table.
 * Returns 0 and leaves the bytes written in values[0], 0 in values[1], the artifact in front of `out`, and what is behind it as
 * it was. Or returns GRAIN_BAD_MODEL with the rule, or GRAIN_NO_ROOM with the bytes needed, leaves the two values, and `out`
 * as it was. With a room of 0 it so tells how many bytes are needed. The least artifact has 43; tables of grain_read need no
 * more than were read.
 */
uint64_t grain_write(const uint64_t heading[GRAIN_ANSWER_WORDS],
                     const uint64_t *names, size_t n1, const uint64_t *constants, size_t n2, const uint64_t *tokens, size_t n3,
                     const uint64_t *assigns, size_t n4, const uint64_t *chains, size_t n5, const uint64_t *steps, size_t n6,
                     const uint64_t *switches, size_t n7, const uint64_t *cases, size_t n8, const uint64_t *ranges, size_t n9,
                     const uint64_t *customs, size_t n10, const uint64_t *inputs, size_t n11,
                     const uint64_t *functions, size_t n12, const uint64_t *parameters, size_t n13,
                     const uint8_t *text, size_t text_len, uint8_t mask, uint8_t strip,
                     uint8_t *out, size_t room, uint64_t values[2]);

/* ---- Position tables ---- */

/* Checks a table. Returns 0, or GRAIN_POSITIONS; leaves the refusal's two values, or zeros. No length limit. */
uint64_t grain_pos_check(const uint8_t *table, size_t len, uint64_t values[2]);

/* How many entries a table says that it has. Returns 0, or GRAIN_POSITIONS; leaves the count, or 0. */
uint64_t grain_pos_count(const uint8_t *table, size_t len, uint64_t *count);

/* Finds the site of an address. Returns 1 and leaves line and column; or 0 and zeros where there is none. */
uint64_t grain_pos_resolve(const uint8_t *table, size_t len, uint32_t address, uint64_t site[2]);

/*
 * Encodes sites, given as three lists; there are as many as the shortest list has. Those of line 0 are dropped; the rest must
 * ascend strictly. Returns 0 and leaves the bytes written in values[0], 0 in values[1], the table in front of `out`, and
 * what is behind it as it was. Or returns GRAIN_TOO_LONG, GRAIN_NOT_ASCENDING or GRAIN_NO_ROOM, leaves the two values, and
 * `out` as it was.
 */
uint64_t grain_pos_encode(const uint32_t *addresses, size_t n_addresses, const uint32_t *lines, size_t n_lines,
                          const uint32_t *columns, size_t n_columns, uint8_t *out, size_t room, uint64_t values[2]);

/* ---- The parts ---- */

/* The debug id of a position table and of the bytes of the chains. Returns 0; leaves the id's low half, then its high half. */
uint64_t grain_debug_id(const uint8_t *table, size_t table_len, const uint8_t *chains, size_t chains_len, uint64_t id[2]);

/* Whether the bytes are UTF-8 (RFC 3629). Returns 1 where they are, else 0. */
uint64_t grain_utf8(const uint8_t *bytes, size_t len);

/*
 * Reads an unsigned number of 64 bits at the place `at`. Returns 0, GRAIN_TRUNCATED or GRAIN_MALFORMED_VARINT; leaves the
 * value and the next place, or 0 and `at`.
 */
uint64_t grain_number(const uint8_t *bytes, size_t len, size_t at, uint64_t out[2]);

#ifdef __cplusplus
}
#endif

#endif
