/*
 * Measures what nexts cost a squeeze and its preview, on streams of procedures that hold nothing, and prints a table in Markdown:
 *
 *     nexts ROUNDS
 *
 * Every round checks a stream, squeezes it, and previews its last record. A time is the median over the rounds, and a ratio the median of the rounds' ratios.
 */
#include "timing.h"

/* A procedure's record, its closer's, and both. */
enum { START = 4, OPENER = 40, CLOSER = 4, PROCEDURE = OPENER + CLOSER };

static const char *const names[] = { "all 0", "rising", "back and forth", "falling" };
enum nexts { NONE, RISING, BACK_AND_FORTH, FALLING, NEXTS };

static const uint32_t counts[] = { 1125, 2250, 4500 };
enum { COUNTS = sizeof counts / sizeof *counts };

static uint32_t index_of(uint32_t k)
{
    return START + k * PROCEDURE;
}

static uint32_t next_of(uint32_t k, uint32_t count, enum nexts nexts)
{
    switch (nexts) {
    case RISING:
        return k + 1 < count ? index_of(k + 1) : 0;
    case BACK_AND_FORTH: /* the last procedure, the first one, .. */
        return index_of(k % 2 ? 0 : count - 1);
    case FALLING: /* the last record, a closer, the one before it, .. */
        return index_of(count - 1 - k / 2) + (k % 2 ? 0 : OPENER);
    default:
        return 0;
    }
}

static void put32(uint8_t *bytes, uint32_t number)
{
    for (int k = 0; k < 4; k++)
        bytes[k] = (uint8_t)(number >> 8 * k);
}

static uint8_t *stream_of(uint32_t count, enum nexts nexts)
{
    uint8_t *stream = room(index_of(count), 1);
    for (uint32_t k = 0; k < count; k++) {
        uint8_t *opener = stream + index_of(k), *closer = opener + OPENER;
        memcpy(opener, "\x26\0\x10\x11", 4);
        put32(opener + 8, index_of(k) + OPENER);
        put32(opener + 12, next_of(k, count, nexts));
        memcpy(closer, "\x02\0\x06\0", 4);
    }
    return stream;
}

static void measure(uint32_t count, enum nexts nexts, int rounds)
{
    uint8_t *stream = stream_of(count, nexts);
    size_t length = index_of(count);
    uint8_t *buffer = room(length, 1);
    double *checks = room((size_t)rounds, sizeof *checks), *squeezes = room((size_t)rounds, sizeof *squeezes);
    double *previews = room((size_t)rounds, sizeof *previews);
    uint64_t out[6];
    for (int round = 0; round < rounds; round++) {
        double start = now();
        uint32_t checked = mitrelilac_check(stream, length, START, out);
        double between = now();
        uint32_t squeezed = mitrelilac_squeeze(stream, length, START, buffer, length, out);
        double behind = now();
        uint32_t previewed = mitrelilac_preview(stream, length, START, length - CLOSER, out);
        previews[round] = now() - behind;
        squeezes[round] = behind - between;
        checks[round] = between - start;
        if (checked || squeezed || memcmp(stream, buffer, length) != 0)
            fail("a stream without fillers is squeezed wrong");
        if (previewed || out[0] != length || out[1] != 0 || out[2] != length - CLOSER)
            fail("a stream without fillers is previewed wrong");
    }
    printf("| %s | %" PRIu32 " | %.1f | %.1f | %.2f ", names[nexts], count, median(checks, rounds) / 1e3,
           median(squeezes, rounds) / 1e3, ratio(squeezes, checks, rounds));
    printf("| %.1f | %.2f |\n", median(previews, rounds) / 1e3, ratio(previews, squeezes, rounds));
    free(stream);
    free(buffer);
    free(checks);
    free(squeezes);
    free(previews);
}

int main(int argc, char **argv)
{
    int rounds = argc == 2 ? atoi(argv[1]) : 0;
    if (rounds < 1) {
        fputs("usage: nexts ROUNDS\n", stderr);
        return 2;
    }
    printf("### Nexts\n\n| nexts | procedures | check, us | squeeze, us | to the check | preview, us | to the squeeze |\n");
    printf("|---|---|---|---|---|---|---|\n");
    for (int nexts = 0; nexts < NEXTS; nexts++) {
        for (int k = 0; k < COUNTS; k++)
            measure(counts[k], (enum nexts)nexts, rounds);
    }
    return 0;
}
