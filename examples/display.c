/*
 * display: loads a Grain artifact as a display would, into buffers of a fixed size, and prints what was answered.
 *
 * usage: display FILE
 * Exit status: 0 accepted, 1 refused, 2 usage or a file that cannot be read.
 */
#include "loaded.h"

static const char *const table_names[] = {
    "",         "names", "constants", "tokens",  "assigns", "chains",    "steps",
    "switches", "cases", "ranges",    "customs", "inputs",  "functions", "parameters",
};

static unsigned long long at(const uint64_t answer[], int word)
{
    return (unsigned long long)answer[word];
}

/* Text may hold any character, a zero too. */
static void print_text(uint64_t start, uint64_t length)
{
    putchar('"');
    fwrite(bytes + start, 1, (size_t)length, stdout);
    putchar('"');
}

/* A name index is kept as it stands in the file, so it is held to the names here. */
static void print_function(const uint64_t answer[], const struct grain_function *f)
{
    uint64_t begin;

    printf("function ");
    if (f->name < answer[GRAIN_ANSWER_ROWS + GRAIN_TABLE_NAMES]) {
        begin = f->name == 0 ? 0 : names[f->name - 1].end;
        print_text(answer[GRAIN_ANSWER_BLOB_START] + begin, names[f->name].end - begin);
    } else {
        printf("without a name");
    }
    printf(", parameters %llu\n", (unsigned long long)f->parameters);
}

static void print_accepted(const uint64_t answer[])
{
    uint64_t i;
    int table;

    puts("accepted");
    printf("caps %llu, debug id %016llx%016llx\n", at(answer, GRAIN_ANSWER_CAPS), at(answer, GRAIN_ANSWER_DEBUG_ID_HIGH),
           at(answer, GRAIN_ANSWER_DEBUG_ID_LOW));
    printf("source ");
    print_text(answer[GRAIN_ANSWER_SOURCE_START], answer[GRAIN_ANSWER_SOURCE_LENGTH]);
    printf("\ncode %llu bytes, positions %llu bytes\n", at(answer, GRAIN_ANSWER_CODE_LENGTH),
           at(answer, GRAIN_ANSWER_POSITIONS_LENGTH));
    printf("main from %llu to %llu, slots %llu\n", at(answer, GRAIN_ANSWER_MAIN_ENTRY), at(answer, GRAIN_ANSWER_MAIN_END),
           at(answer, GRAIN_ANSWER_MAIN_SLOTS));
    printf("top constants %llu\n", at(answer, GRAIN_ANSWER_TOP_CONSTANTS));
    for (table = 1; table <= GRAIN_TABLES; table++)
        printf("%s %llu\n", table_names[table], at(answer, GRAIN_ANSWER_ROWS + table));
    for (i = 0; i < answer[GRAIN_ANSWER_ROWS + GRAIN_TABLE_FUNCTIONS]; i++)
        print_function(answer, &functions[i]);
}

int main(int argc, char **argv)
{
    uint64_t answer[GRAIN_ANSWER_WORDS];
    long length;

    if (argc != 2) {
        fprintf(stderr, "usage: display FILE\n");
        return 2;
    }
    length = read_file(argv[1]);
    if (length < 0) {
        fprintf(stderr, "display: %s cannot be read\n", argv[1]);
        return 2;
    }
    if (load((size_t)length, answer) != GRAIN_NONE) {
        print_refused(answer[GRAIN_ANSWER_NUMBER], &answer[GRAIN_ANSWER_FIRST]);
        return 1;
    }
    print_accepted(answer);
    return 0;
}
