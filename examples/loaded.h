/* What display.c and rewrite.c share: buffers of a fixed size, and an artifact loaded into them. */
#include <stdio.h>

#include "grain.h"

/* One byte more than is ever accepted: of a longer file this much is read, and that is refused as too long. */
static uint8_t bytes[GRAIN_MAX_BYTES + 1];

/* The places of each table are this display's own limits. A row is a struct of words, so a table is words too. */
static struct grain_name names[4096];
static struct grain_constant constants[4096];
static struct grain_token tokens[256];
static struct grain_assign assigns[256];
static struct grain_chain chains[2048];
static struct grain_step steps[4096];
static struct grain_switch switches[512];
static struct grain_case cases[2048];
static struct grain_range ranges[512];
static struct grain_custom customs[256];
static struct grain_input inputs[1024];
static struct grain_function functions[1024];
static struct grain_parameter parameters[4096];

/* The step flags that this display knows. */
enum { FLAGS = 0x01 };

/* A table as grain_read and grain_write take it: where it stands, and how many words it has. */
#define TABLE(rows) (uint64_t *)(rows), sizeof(rows) / (sizeof(uint64_t))
#define TABLES \
    TABLE(names), TABLE(constants), TABLE(tokens), TABLE(assigns), TABLE(chains), TABLE(steps), TABLE(switches), \
    TABLE(cases), TABLE(ranges), TABLE(customs), TABLE(inputs), TABLE(functions), TABLE(parameters)

static uint64_t load(size_t length, uint64_t answer[GRAIN_ANSWER_WORDS])
{
    return grain_read(bytes, length, FLAGS, TABLES, answer);
}

/* By their numbers. */
static const char *const refusal_names[] = {
    "None",     "TooLong",         "Truncated",    "BadMagic",      "UnsupportedVersion",
    "Abi",      "MalformedVarint", "BadUtf8",      "UnknownTag",    "ConstantTooDeep",
    "BadIndex", "Names",           "Positions",    "TrailingBytes", "Full",
    "BadModel", "NoRoom",          "NotAscending",
};

static void print_refused(uint64_t number, const uint64_t values[2])
{
    printf("refused: %s, values %llu and %llu\n", refusal_names[number], (unsigned long long)values[0],
           (unsigned long long)values[1]);
}

/* The bytes read, at most one more than are ever accepted; or -1. */
static long read_file(const char *name)
{
    FILE *file = fopen(name, "rb");
    size_t length;
    int failed;

    if (file == NULL)
        return -1;
    length = fread(bytes, 1, sizeof bytes, file);
    failed = ferror(file);
    fclose(file);
    return failed ? -1 : (long)length;
}
