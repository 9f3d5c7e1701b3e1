/*
 * Checks the symbols of a module, as examples/nested.sym holds them, and prints the scopes that enclose the record at a position:
 *
 *     scopes FILE POSITION
 *
 * A line for each scope, the outermost first: its index, the kind of its opener and its name, - where it has none.
 */
#include "stream.h"

/* A module's records start behind its signature. */
enum { START = 4 };

/* The file may come from anywhere: nothing that moves a terminal's cursor is printed. */
static void print_name(const uint8_t *name, size_t length)
{
    for (size_t k = 0; k < length; k++)
        putchar(name[k] > ' ' && name[k] <= '~' ? name[k] : '?');
}

static void print_scope(struct stream s, uint64_t index)
{
    uint64_t step[5], kind[3], name[3];
    uint32_t number = mitrelilac_step(s.bytes, s.length, index, step);
    if (number)
        refused("step", number, step);
    const uint8_t *record = s.bytes + step[2];
    size_t length = step[3];
    mitrelilac_kind(record, length, kind);
    number = mitrelilac_name(record, length, name);
    if (number)
        refused("name", number, name);
    printf("%" PRIu64 " %04" PRIx64 " ", index, kind[0]);
    if (name[0])
        print_name(record + name[1], name[2]);
    else
        putchar('-');
    putchar('\n');
}

int main(int argc, char **argv)
{
    size_t position = position_of(argc, argv);
    struct stream s = read_file(argv[1]);

    uint64_t counts[6], walked[66], jumped[66];
    uint32_t number = mitrelilac_check(s.bytes, s.length, START, counts);
    if (number)
        refused("check", number, counts);
    printf("%" PRIu64 " records, %" PRIu64 " scopes, %" PRIu64 " levels\n", counts[0], counts[4], counts[5]);

    number = mitrelilac_walk(s.bytes, s.length, START, position, walked);
    if (number)
        refused("walk", number, walked);
    for (uint64_t k = 0; k < walked[1]; k++)
        print_scope(s, walked[2 + k]);

    number = mitrelilac_jump(s.bytes, s.length, START, position, jumped);
    if (number)
        refused("jump", number, jumped);
    printf("records read: %" PRIu64 " by walking, %" PRIu64 " by jumping\n", walked[0], jumped[0]);
    free((void *)s.bytes);
    return 0;
}
