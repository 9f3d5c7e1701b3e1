/*
 * What the examples share: a stream is read from a file, and a refusal or a failure ends the program.
 */
#include <errno.h>
#include <inttypes.h>
#include <stdio.h>
#include <stdlib.h>
#include <string.h>

#include "mitrelilac.h"

struct stream {
    const uint8_t *bytes;
    size_t length;
};

static const char *const reasons[] = {
    [MITRELILAC_UNEXPECTED_EOF] = "the bytes run out",
    [MITRELILAC_SYMBOL_TOO_SHORT] = "a record is too short to have a kind",
    [MITRELILAC_UNIMPLEMENTED_KIND] = "no layout is known for the record's kind",
    [MITRELILAC_UNEXPECTED_NUMERIC_PREFIX] = "the value of a constant has an unknown prefix",
    [MITRELILAC_TOO_LONG] = "there are too many bytes",
    [MITRELILAC_UNREADABLE_OPENER] = "the links of a scope can't be read",
    [MITRELILAC_OPENER_AT_0] = "a scope opens at 0",
    [MITRELILAC_WRONG_PARENT] = "a scope names another parent than the one around it",
    [MITRELILAC_TOO_DEEP] = "more than 64 scopes lie in one another",
    [MITRELILAC_NOTHING_OPEN] = "a scope is closed where none is open",
    [MITRELILAC_WRONG_END] = "a scope is closed elsewhere than it says",
    [MITRELILAC_LEFT_OPEN] = "a scope is left open",
    [MITRELILAC_UNUSABLE_LINK] = "a link can't be followed",
    [MITRELILAC_NOTHING_THERE] = "no record begins there",
    [MITRELILAC_INVALID_COMPRESSED_ANNOTATION] = "a compressed number is cut off or malformed",
    [MITRELILAC_UNKNOWN_BINARY_ANNOTATION] = "there is no such instruction",
    [MITRELILAC_WRONG_NEXT] = "a next names no record",
    [MITRELILAC_NO_ROOM] = "the buffer is too short",
};

static void refused(const char *what, uint32_t number, const uint64_t *out)
{
    fprintf(stderr, "%s: %s (%" PRIu32 ")", what, reasons[number], number);
    /* Annotations start at 0, where a number may be cut off as anywhere; else a position of 0 is none. */
    if (out[0] || number == MITRELILAC_INVALID_COMPRESSED_ANNOTATION)
        fprintf(stderr, ", at %" PRIu64, out[0]);
    fputc('\n', stderr);
    exit(1);
}

static void failed(const char *path)
{
    fprintf(stderr, "%s: %s\n", path, strerror(errno));
    exit(2);
}

static struct stream read_file(const char *path)
{
    FILE *file = fopen(path, "rb");
    if (!file || fseek(file, 0, SEEK_END) != 0)
        failed(path);
    long length = ftell(file);
    if (length < 0)
        failed(path);
    rewind(file);
    /* One byte more, so that the pointer is not null where the file is empty. */
    uint8_t *bytes = malloc((size_t)length + 1);
    if (!bytes || fread(bytes, 1, (size_t)length, file) != (size_t)length)
        failed(path);
    fclose(file);
    return (struct stream){ bytes, (size_t)length };
}

/* The second argument of `PROGRAM FILE POSITION`. */
static size_t position_of(int argc, char **argv)
{
    char *end;
    size_t position = argc == 3 ? strtoull(argv[2], &end, 10) : 0;
    if (argc != 3 || end == argv[2] || *end) {
        fprintf(stderr, "usage: %s FILE POSITION\n", argv[0]);
        exit(2);
    }
    return position;
}
