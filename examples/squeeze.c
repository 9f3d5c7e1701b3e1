/*
 * Squeezes the fillers out of a stream whose records start at a position (4 in a module's), and writes what is left:
 *
 *     squeeze FILE POSITION >SQUEEZED
 *
 * How long the stream was and is, and how many fillers are gone, it says on standard error.
 */
#include "stream.h"

int main(int argc, char **argv)
{
    size_t start = position_of(argc, argv);
    struct stream s = read_file(argv[1]);
    uint64_t step[5], gain[3], out[2];
    uint32_t number = mitrelilac_step(s.bytes, s.length, start, step);
    if (number)
        refused("step", number, step);
    /* A stream with no record, of which nothing is dropped, is previewed nowhere. */
    gain[0] = s.length;
    gain[1] = 0;
    if (step[0] && (number = mitrelilac_preview(s.bytes, s.length, start, step[1], gain)))
        refused("preview", number, gain);

    /* (One byte more, so that the pointer is not null where the stream is empty.) */
    uint8_t *buffer = malloc(gain[0] + 1);
    if (!buffer)
        failed(argv[1]);
    number = mitrelilac_squeeze(s.bytes, s.length, start, buffer, gain[0], out);
    if (number)
        refused("squeeze", number, out);
    fwrite(buffer, 1, out[0], stdout);
    if (fflush(stdout) != 0 || ferror(stdout))
        failed("standard output");
    fprintf(stderr, "%zu bytes, %" PRIu64 " without %" PRIu64 " fillers\n", s.length, out[0], gain[1]);
    free(buffer);
    free((void *)s.bytes);
    return 0;
}
