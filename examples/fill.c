/*
 * Puts a filler behind each record of a stream whose records start at a position, as incremental links do, and moves the links with the
 * records. A stream that passes the check, whose nexts name records and that has no filler behind its first record comes back from
 * squeeze.c.
 *
 *     fill FILE POSITION >FILLED
 */
#include "stream.h"

/* An S_SKIP. */
static const uint8_t filler[8] = { 6, 0, 0x07, 0x00 };

static int next_record(struct stream s, size_t position, uint64_t *step)
{
    uint32_t number = mitrelilac_step(s.bytes, s.length, position, step);
    if (number)
        refused("step", number, step);
    return step[0] != 0;
}

static void put(const uint8_t *bytes, size_t length)
{
    fwrite(bytes, 1, length, stdout);
}

static void put32(uint32_t number)
{
    put((uint8_t[]){ (uint8_t)number, (uint8_t)(number >> 8), (uint8_t)(number >> 16), (uint8_t)(number >> 24) }, 4);
}

static uint32_t get32(const uint8_t *bytes)
{
    return bytes[0] | (uint32_t)bytes[1] << 8 | (uint32_t)bytes[2] << 16 | (uint32_t)bytes[3] << 24;
}

/* How many links a record has behind its kind. */
static size_t links_of(const uint8_t *record, size_t length)
{
    uint64_t fields[24];
    if (mitrelilac_decode(record, length, fields) != 0)
        return 0;
    switch (fields[0]) {
    case MITRELILAC_PROCEDURE:
    case MITRELILAC_THUNK:
        return 3; /* parent, end, next */
    case MITRELILAC_INLINE_SITE:
    case MITRELILAC_BLOCK:
    case MITRELILAC_SEPARATED_CODE:
        return 2;
    default:
        return 0;
    }
}

int main(int argc, char **argv)
{
    size_t start = position_of(argc, argv);
    struct stream s = read_file(argv[1]);
    /* By the index of a record the new one; 0, which names none, stays. */
    uint32_t *moved = calloc(s.length + 1, sizeof *moved);
    if (!moved)
        failed(argv[1]);
    uint64_t step[5];
    uint32_t grown = 0;
    for (size_t at = start; next_record(s, at, step); at = step[4]) {
        moved[step[1]] = (uint32_t)step[1] + grown;
        grown += sizeof filler;
    }

    size_t written = 0;
    for (size_t at = start; next_record(s, at, step); at = step[4]) {
        const uint8_t *record = s.bytes + step[2], *links = record + 2;
        put(s.bytes + written, step[2] + 2 - written);
        for (size_t left = links_of(record, step[3]); left > 0; left--, links += 4) {
            uint32_t link = get32(links);
            put32(link < s.length ? moved[link] : link);
        }
        put(links, s.bytes + step[4] - links);
        put(filler, sizeof filler);
        written = step[4];
    }
    put(s.bytes + written, s.length - written);
    if (fflush(stdout) != 0 || ferror(stdout))
        failed("standard output");
    free(moved);
    free((void *)s.bytes);
    return 0;
}
