/*
 * Writes a synthetic stream to standard output, three to four fillers on average before each record: procedures with blocks in one another,
 * and in these records of several classes. Links are right, so that the stream passes the nesting check and can be squeezed.
 */
#include <stdint.h>
#include <stdio.h>
#include <stdlib.h>
#include <string.h>

enum { SIZE = 6000000, DEEPEST = 8 };

static uint8_t stream[SIZE + (1 << 20)] = { 4 };
static uint32_t length = 4;

static uint32_t below(uint32_t bound)
{
    static uint64_t seed = 20;
    seed = seed * 16807 % 2147483647;
    return (uint32_t)(seed % bound);
}

static void put(const void *bytes, size_t count)
{
    memcpy(stream + length, bytes, count);
    length += (uint32_t)count;
}

static void put16(unsigned number)
{
    put((uint8_t[]){ (uint8_t)number, (uint8_t)(number >> 8) }, 2);
}

static void put32(uint32_t number)
{
    put16(number & 0xffff);
    put16(number >> 16);
}

/* The length is set at the record's end. */
static uint32_t begin(unsigned kind)
{
    uint32_t index = length;
    put16(0);
    put16(kind);
    return index;
}

/* Records are padded to multiples of 4, as compilers do. */
static void end(uint32_t index)
{
    put("\0\0\0", (4 - length % 4) % 4);
    uint32_t bytes = length - index - 2;
    stream[index] = (uint8_t)bytes;
    stream[index + 1] = (uint8_t)(bytes >> 8);
}

static void put_name(void)
{
    static const char letters[] = "enumeration_of_symbol_scopes";
    put(letters, 1 + below(sizeof letters - 1));
    put("", 1);
}

static void fillers(void)
{
    for (uint32_t count = below(7); count > 0; count--) {
        uint32_t index = begin(below(2) ? 0x0402 : 0x0007);
        for (uint32_t word = below(4); word > 0; word--)
            put32(0);
        end(index);
    }
}

static void leaf(void)
{
    static const unsigned kinds[] = { 0x1107, 0x1108, 0x110d, 0x110e, 0x1111, 0x113e };
    unsigned kind = kinds[below(6)];
    uint32_t index = begin(kind);
    put32(0x1000 + below(1000));
    switch (kind) {
    case 0x1107: /* a constant */
        put16(0x8003);
        put32(below(1000000));
        break;
    case 0x110d: /* data, public: a place */
    case 0x110e:
        put32(below(1000000));
        put16(1);
        break;
    case 0x1111: /* register relative */
        put32(0x1000 + below(1000));
        put16(335);
        break;
    case 0x113e: /* a local: flags */
        put16(below(1024));
    }
    put_name();
    end(index);
}

static void set32(uint32_t position, uint32_t number)
{
    uint32_t back = length;
    length = position;
    put32(number);
    length = back;
}

/* Each procedure's next is the one behind it, and the last one's 0. */
static void set_next(uint32_t index)
{
    static uint32_t last;
    if (last)
        set32(last + 12, index);
    set32(index + 12, 0);
    last = index;
}

/* A procedure, or in one a block. */
static void scope(uint32_t parent, int depth)
{
    fillers();
    uint32_t index = begin(depth ? 0x1103 : 0x1110);
    put32(parent);
    put32(0);
    for (int words = depth ? 1 : 5; words > 0; words--)
        put32(below(1000));
    put32(below(1000000));
    put16(1);
    if (!depth) {
        put("\x80", 1);
        set_next(index);
    }
    put_name();
    end(index);
    for (uint32_t records = 1 + below(8); records > 0; records--) {
        fillers();
        if (depth < DEEPEST && below(6) == 0)
            scope(index, depth + 1);
        else
            leaf();
    }
    fillers();
    set32(index + 8, length);
    end(begin(0x0006));
}

int main(void)
{
    while (length < SIZE)
        scope(0, 0);
    return fwrite(stream, 1, length, stdout) == length ? 0 : 1;
}
