/*
 * Prints the line program of the inline site at a position, an instruction a line: its bytes, and which code and which line of the
 * inlined function it leads to. Those that clang writes are printed as `llvm-pdbutil dump -symbols` prints them.
 *
 *     lines FILE POSITION
 */
#include "stream.h"

/* Where a line program stands, in the code and in the lines of the function. */
struct place {
    uint64_t code;
    int64_t line;
};

struct annotations {
    const uint8_t *bytes;
    size_t length;
};

static struct annotations site_at(struct stream s, size_t position)
{
    uint64_t step[5], fields[24];
    uint32_t number = mitrelilac_step(s.bytes, s.length, position, step);
    if (number)
        refused("step", number, step);
    if (!step[0] || step[1] != position) {
        fprintf(stderr, "no record begins at %zu\n", position);
        exit(1);
    }
    const uint8_t *record = s.bytes + step[2];
    number = mitrelilac_decode(record, step[3], fields);
    if (number)
        refused("decode", number, fields);
    if (fields[0] != MITRELILAC_INLINE_SITE) {
        fprintf(stderr, "the record at %zu is no inline site\n", position);
        exit(1);
    }
    return (struct annotations){ record + fields[7], fields[8] };
}

static void print_bytes(const uint8_t *bytes, size_t length)
{
    int left = 9;
    for (size_t k = 0; k < length; k++)
        left -= printf("%02X", bytes[k]);
    printf("%*s", left > 0 ? left : 0, "");
}

static void print_code(const struct place *at, uint64_t grown)
{
    printf(" code 0x%" PRIX64 " (+0x%" PRIX64 ")", at->code, grown);
}

static void print_length(const struct place *at, uint64_t length)
{
    printf(" code end 0x%" PRIX64 " (+0x%" PRIX64 ")", at->code + length, length);
}

static void print_line(const struct place *at, int64_t grown)
{
    printf(" line %" PRId64 " (%c%" PRId64 ")", at->line, grown > 0 ? '+' : '-', grown < 0 ? -grown : grown);
}

/* The instructions that neither move in the code nor in the lines. */
static const char *const others[] = {
    [MITRELILAC_ANNOTATION_CHANGE_CODE_OFFSET_BASE] = "code base",
    [MITRELILAC_ANNOTATION_CHANGE_FILE] = "file",
    [MITRELILAC_ANNOTATION_CHANGE_LINE_END_DELTA] = "lines covered",
    [MITRELILAC_ANNOTATION_CHANGE_RANGE_KIND] = "statement",
    [MITRELILAC_ANNOTATION_CHANGE_COLUMN_START] = "column",
    [MITRELILAC_ANNOTATION_CHANGE_COLUMN_END_DELTA] = "last column +",
    [MITRELILAC_ANNOTATION_CHANGE_COLUMN_END] = "last column",
};

static void print_instruction(struct place *at, uint64_t code, uint64_t first, uint64_t second)
{
    switch (code) {
    case MITRELILAC_ANNOTATION_CODE_OFFSET:
        at->code = first;
        printf(" code 0x%" PRIX64, first);
        break;
    case MITRELILAC_ANNOTATION_CHANGE_CODE_OFFSET:
        at->code += first;
        print_code(at, first);
        break;
    case MITRELILAC_ANNOTATION_CHANGE_CODE_LENGTH:
        print_length(at, first);
        at->code += first;
        break;
    case MITRELILAC_ANNOTATION_CHANGE_LINE_OFFSET:
        at->line += (int64_t)first;
        print_line(at, (int64_t)first);
        break;
    case MITRELILAC_ANNOTATION_CHANGE_CODE_OFFSET_AND_LINE_OFFSET:
        at->code += first;
        at->line += (int64_t)second;
        print_code(at, first);
        print_line(at, (int64_t)second);
        break;
    case MITRELILAC_ANNOTATION_CHANGE_CODE_LENGTH_AND_CODE_OFFSET:
        at->code += second;
        print_code(at, second);
        print_length(at, first);
        break;
    default:
        printf(" %s %" PRId64, others[code], (int64_t)first);
    }
}

int main(int argc, char **argv)
{
    size_t position = position_of(argc, argv);
    struct stream s = read_file(argv[1]);
    struct annotations a = site_at(s, position);
    struct place at = { 0, 0 };
    uint64_t out[5];
    for (size_t next = 0;; next = out[4]) {
        uint32_t number = mitrelilac_annotation(a.bytes, a.length, next, out);
        if (number)
            refused("annotation", number, out);
        if (!out[0])
            break;
        print_bytes(a.bytes + next, out[4] - next);
        print_instruction(&at, out[1], out[2], out[3]);
        putchar('\n');
    }
    free((void *)s.bytes);
    return 0;
}
