/*
 * rewrite: loads a Grain artifact and writes it anew: into KEPT as it is, into STRIPPED without its positions, and once into a
 * room that is a byte too small.
 *
 * usage: rewrite FILE KEPT STRIPPED
 * Exit status: 0 written, 1 refused, 2 usage or a file that cannot be read or written.
 */
#include "loaded.h"

/* Room for any artifact. */
static uint8_t out[GRAIN_MAX_BYTES];

enum { KEEP = 0, STRIP = 1 };

/* The answer of the read is the heading of what is written, and the bytes that were read are the text of its spans. */
static uint64_t write_anew(const uint64_t heading[], long length, uint8_t strip, size_t room, uint64_t values[2])
{
    return grain_write(heading, TABLES, bytes, (size_t)length, FLAGS, strip, out, room, values);
}

/* Returns 0, or -1 where not all of it could be written. */
static int write_file(const char *name, size_t length)
{
    FILE *file = fopen(name, "wb");
    size_t done;

    if (file == NULL)
        return -1;
    done = fwrite(out, 1, length, file);
    return fclose(file) == 0 && done == length ? 0 : -1;
}

/* Writes into the buffer and from there into a file. Returns an exit status. */
static int save(const uint64_t heading[], long length, uint8_t strip, const char *name)
{
    uint64_t values[2], number = write_anew(heading, length, strip, sizeof out, values);

    if (number != GRAIN_NONE) {
        print_refused(number, values);
        return 1;
    }
    printf("%s: %llu bytes\n", strip == KEEP ? "kept" : "stripped", (unsigned long long)values[0]);
    if (write_file(name, (size_t)values[0]) != 0) {
        fprintf(stderr, "rewrite: %s cannot be written\n", name);
        return 2;
    }
    return 0;
}

/* Asks how many bytes are needed, by no room at all, and then gives one less. */
static void try_short(const uint64_t heading[], long length)
{
    uint64_t values[2], number;

    write_anew(heading, length, STRIP, 0, values);
    number = write_anew(heading, length, STRIP, (size_t)values[0] - 1, values);
    print_refused(number, values);
}

int main(int argc, char **argv)
{
    uint64_t answer[GRAIN_ANSWER_WORDS];
    long length;
    int status;

    if (argc != 4) {
        fprintf(stderr, "usage: rewrite FILE KEPT STRIPPED\n");
        return 2;
    }
    length = read_file(argv[1]);
    if (length < 0) {
        fprintf(stderr, "rewrite: %s cannot be read\n", argv[1]);
        return 2;
    }
    if (load((size_t)length, answer) != GRAIN_NONE) {
        print_refused(answer[GRAIN_ANSWER_NUMBER], &answer[GRAIN_ANSWER_FIRST]);
        return 1;
    }
    printf("read: %ld bytes\n", length);
    status = save(answer, length, KEEP, argv[2]);
    if (status == 0)
        status = save(answer, length, STRIP, argv[3]);
    if (status == 0)
        try_short(answer, length);
    return status;
}
