/*
 * Measures the library against pdb (pdb.rs) on streams of modules, and prints tables in Markdown:
 *
 *     measure ROUNDS STREAM ..
 *
 * A pass does one thing to the whole stream. Every round makes all passes, one after another, so that whatever slows the machine
 * down for a while meets all of them. A pass is made twice in a row and the second time counts: the caches are as the first left them.
 * A time is the median over the rounds, and a ratio the median of the rounds' ratios.
 */
#include "timing.h"

typedef uint32_t step_function(const uint8_t *, size_t, size_t, uint64_t *);
typedef uint32_t record_function(const uint8_t *, size_t, uint64_t *);

step_function pdb_step, pdb_annotation;
record_function pdb_decode, pdb_name;

/* A module's records start behind its signature. */
enum { START = 4, CLIMBS = 1000, SIZES = 6 };

struct record {
    uint32_t start, length;
};

struct records {
    struct record *at;
    size_t count;
};

struct stream {
    const uint8_t *bytes;
    size_t length;
    struct records all, decodable;
    struct records sites; /* the annotations of inline sites */
    size_t instructions;  /* how many these hold */
    uint64_t counts[6];   /* what the check says */
    uint8_t *buffer;      /* for the squeezed stream */
    size_t deepest;       /* the opener within most scopes */
    size_t lasts[SIZES];  /* the last record of a top-level scope: at a 32nd of the stream, a 16th, .., at its end */
    size_t passed[SIZES]; /* the scopes at the top level before that one */
    uint64_t walked[SIZES], jumped[SIZES]; /* the records that are read up to there */
};

/* ---- A stream, and that both sides agree about it */

static void agree(uint32_t ours, uint32_t theirs, const uint64_t *out, const uint64_t *other, size_t words)
{
    if (ours != theirs || memcmp(out, other, words * sizeof *out) != 0)
        fail("the library and pdb differ");
}

static void add(struct records *records, struct record record)
{
    records->at[records->count++] = record;
}

static void read_site(struct stream *s, struct record site)
{
    const uint8_t *bytes = s->bytes + site.start;
    uint64_t out[5] = { 0 }, other[5] = { 0 };
    add(&s->sites, site);
    for (size_t at = 0;; at = out[4]) {
        if (mitrelilac_annotation(bytes, site.length, at, out) != 0)
            fail("an instruction is refused");
        agree(0, pdb_annotation(bytes, site.length, at, other), out, other, 5);
        if (!out[0])
            break;
        s->instructions++;
    }
}

static void read_record(struct stream *s, struct record record)
{
    const uint8_t *bytes = s->bytes + record.start;
    uint64_t out[24] = { 0 }, other[24] = { 0 };
    uint32_t number = mitrelilac_decode(bytes, record.length, out);
    agree(number, pdb_decode(bytes, record.length, other), out, other, 24);
    add(&s->all, record);
    if (number == 0)
        add(&s->decodable, record);
    if (number == 0 && out[0] == MITRELILAC_INLINE_SITE)
        read_site(s, (struct record){ record.start + (uint32_t)out[7], (uint32_t)out[8] });
    agree(mitrelilac_name(bytes, record.length, out), pdb_name(bytes, record.length, other), out, other, 24);
}

/* The sizes get their positions as the scopes at the top level close. */
static void read_stream(struct stream *s)
{
    uint64_t out[5] = { 0 }, other[5] = { 0 }, kind[3];
    size_t depth = 0, deepest = 0, size = 0, closed = 0;
    for (size_t at = START;; at = out[4]) {
        agree(mitrelilac_step(s->bytes, s->length, at, out), pdb_step(s->bytes, s->length, at, other), out, other, 5);
        if (!out[0])
            break;
        read_record(s, (struct record){ (uint32_t)out[2], (uint32_t)out[3] });
        mitrelilac_kind(s->bytes + out[2], out[3], kind);
        int opens = kind[1] || kind[0] == 0x1146; /* S_LPROC32_ID, as the check takes it */
        if (opens && depth++ == deepest) {
            deepest = depth;
            s->deepest = out[1];
        }
        if (kind[2] && --depth == 0) {
            s->lasts[size] = s->lasts[SIZES - 1] = out[1];
            s->passed[size] = s->passed[SIZES - 1] = closed++;
            if (out[1] >= s->length >> (SIZES - 1 - size))
                size++;
        }
    }
}

static struct stream load(const char *path)
{
    FILE *file = fopen(path, "rb");
    if (!file || fseek(file, 0, SEEK_END) != 0 || ftell(file) < 0)
        fail(path);
    struct stream s = { .length = (size_t)ftell(file) };
    rewind(file);
    uint8_t *bytes = room(s.length + 1, 1);
    if (fread(bytes, 1, s.length, file) != s.length)
        fail(path);
    fclose(file);
    s.bytes = bytes;
    s.all.at = room(s.length / 4 + 1, sizeof *s.all.at);
    s.decodable.at = room(s.length / 4 + 1, sizeof *s.decodable.at);
    s.sites.at = room(s.length / 4 + 1, sizeof *s.sites.at);
    if (mitrelilac_check(s.bytes, s.length, START, s.counts) != 0)
        fail("the stream does not pass the check");
    read_stream(&s);
    uint64_t out[66];
    s.buffer = room(s.length + 1, 1);
    if (mitrelilac_squeeze(s.bytes, s.length, START, s.buffer, s.length, out) != 0)
        fail("the stream is not squeezed");
    uint64_t length = out[0];
    if (mitrelilac_preview(s.bytes, s.length, START, s.lasts[SIZES - 1], out) != 0 || out[0] != length)
        fail("the preview is of another stream");
    for (int size = 0; size < SIZES; size++) {
        if (mitrelilac_walk(s.bytes, s.length, START, s.lasts[size], out) != 0)
            fail("the stream has no scopes");
        s.walked[size] = out[0];
        mitrelilac_jump(s.bytes, s.length, START, s.lasts[size], out);
        s.jumped[size] = out[0];
    }
    return s;
}

/* ---- Passes */

static void step_through(const uint8_t *bytes, size_t length, size_t at, step_function step)
{
    uint64_t out[5] = { 1 };
    for (; out[0]; at = out[4])
        step(bytes, length, at, out);
}

static void step_all(const struct stream *s, step_function step)
{
    step_through(s->bytes, s->length, START, step);
}

static void annotate(const struct stream *s, step_function annotation)
{
    for (size_t k = 0; k < s->sites.count; k++)
        step_through(s->bytes + s->sites.at[k].start, s->sites.at[k].length, 0, annotation);
}

static void ask_all(const struct stream *s, const struct records *records, record_function ask)
{
    uint64_t out[24];
    for (size_t k = 0; k < records->count; k++)
        ask(s->bytes + records->at[k].start, records->at[k].length, out);
}

static void check(const struct stream *s)
{
    uint64_t out[6];
    mitrelilac_check(s->bytes, s->length, START, out);
}

static void squeeze(const struct stream *s)
{
    uint64_t out[2];
    mitrelilac_squeeze(s->bytes, s->length, START, s->buffer, s->length, out);
}

/* Of the last record, to which it reads on. */
static void preview(const struct stream *s)
{
    uint64_t out[3];
    mitrelilac_preview(s->bytes, s->length, START, s->lasts[SIZES - 1], out);
}

static void walk(const struct stream *s, int size)
{
    uint64_t out[66];
    mitrelilac_walk(s->bytes, s->length, START, s->lasts[size], out);
}

static void jump(const struct stream *s, int size)
{
    uint64_t out[66];
    mitrelilac_jump(s->bytes, s->length, START, s->lasts[size], out);
}

static void climb(const struct stream *s)
{
    uint64_t out[66];
    for (int k = 0; k < CLIMBS; k++)
        mitrelilac_climb(s->bytes, s->length, s->deepest, out);
}

enum pass {
    STEP, PDB_STEP, DECODE, PDB_DECODE, DECODE_KNOWN, PDB_DECODE_KNOWN, NAME, PDB_NAME,
    ANNOTATE, PDB_ANNOTATE, CHECK, SQUEEZE, PREVIEW, CLIMB,
    WALK, JUMP = WALK + SIZES, PASSES = JUMP + SIZES
};

static void make(const struct stream *s, int pass)
{
    switch (pass) {
    case STEP: step_all(s, mitrelilac_step); break;
    case PDB_STEP: step_all(s, pdb_step); break;
    case DECODE: ask_all(s, &s->all, mitrelilac_decode); break;
    case PDB_DECODE: ask_all(s, &s->all, pdb_decode); break;
    case DECODE_KNOWN: ask_all(s, &s->decodable, mitrelilac_decode); break;
    case PDB_DECODE_KNOWN: ask_all(s, &s->decodable, pdb_decode); break;
    case NAME: ask_all(s, &s->all, mitrelilac_name); break;
    case PDB_NAME: ask_all(s, &s->all, pdb_name); break;
    case ANNOTATE: annotate(s, mitrelilac_annotation); break;
    case PDB_ANNOTATE: annotate(s, pdb_annotation); break;
    case CHECK: check(s); break;
    case SQUEEZE: squeeze(s); break;
    case PREVIEW: preview(s); break;
    case CLIMB: climb(s); break;
    default: pass < JUMP ? walk(s, pass - WALK) : jump(s, pass - JUMP);
    }
}

/* ---- Times */

struct times {
    int rounds;
    double *first[PASSES], *again[PASSES];
};

static struct times measure(const struct stream *s, int rounds)
{
    struct times times = { .rounds = rounds };
    for (int pass = 0; pass < PASSES; pass++) {
        times.first[pass] = room((size_t)rounds, sizeof(double));
        times.again[pass] = room((size_t)rounds, sizeof(double));
    }
    for (int round = 0; round < rounds; round++) {
        for (int pass = 0; pass < PASSES; pass++) {
            double start = now();
            make(s, pass);
            double between = now();
            make(s, pass);
            times.first[pass][round] = between - start;
            times.again[pass][round] = now() - between;
        }
    }
    return times;
}

static double time_of(const struct times *times, int pass)
{
    return median(times->again[pass], times->rounds);
}

/* ---- Tables */

static void row(const struct times *times, const char *what, int pass, const char *against, int other, size_t records,
                const char *wanted)
{
    printf("| %s | %.2f | %s | %.2f | %.2f | %s |\n", what, time_of(times, pass) / (double)records, against,
           time_of(times, other) / (double)records, ratio(times->again[pass], times->again[other], times->rounds), wanted);
}

static void report(const char *path, const struct stream *s, const struct times *times)
{
    const char *slash = strrchr(path, '/');
    size_t all = s->all.count, known = s->decodable.count, walked = s->walked[SIZES - 1];
    int walk = WALK + SIZES - 1, jump = JUMP + SIZES - 1;
    printf("### %s\n\n%zu bytes, %zu records, %zu of them with a layout, ", slash ? slash + 1 : path, s->length, all, known);
    printf("%" PRIu64 " fillers, %" PRIu64 " scopes, %" PRIu64 " levels, ", s->counts[2], s->counts[4], s->counts[5]);
    printf("%zu inline sites with %zu instructions; ", s->sites.count, s->instructions);
    printf("medians of %d rounds.\n\n", times->rounds);
    printf("| | ns per record | against | ns per record | ratio | wanted |\n|---|---|---|---|---|---|\n");
    row(times, "step through all", STEP, "pdb's iterator", PDB_STEP, all, "1.00");
    row(times, "decode all", DECODE, "pdb's parse", PDB_DECODE, all, "0.67");
    row(times, "decode those with a layout", DECODE_KNOWN, "pdb's parse", PDB_DECODE_KNOWN, known, "");
    row(times, "names of all", NAME, "pdb's name", PDB_NAME, all, "0.67");
    if (s->instructions)
        row(times, "annotations, per instruction", ANNOTATE, "pdb's iterator", PDB_ANNOTATE, s->instructions, "1.00");
    row(times, "check", CHECK, "step through all", STEP, all, "2.00");
    row(times, "squeeze", SQUEEZE, "check", CHECK, all, "");
    row(times, "preview of the last record", PREVIEW, "squeeze", SQUEEZE, all, "1.00");
    row(times, "walk to the last record", walk, "step through all", STEP, walked, "1.30");
    row(times, "jump to the last record", jump, "walk to it", walk, walked, "0.20");
    printf("\nClimb from the deepest opener: %.1f ns, %" PRIu64 " links.\n\n", time_of(times, CLIMB) / CLIMBS, s->counts[5] - 1);
    printf("| position | scopes passed | walk reads | walk, us | jump reads | jump, us | the first time |\n");
    printf("|---|---|---|---|---|---|---|\n");
    for (int size = 0; size < SIZES; size++) {
        printf("| %zu | %zu ", s->lasts[size], s->passed[size]);
        printf("| %" PRIu64 " | %.1f ", s->walked[size], time_of(times, WALK + size) / 1e3);
        printf("| %" PRIu64 " | %.1f ", s->jumped[size], time_of(times, JUMP + size) / 1e3);
        printf("| %.1f |\n", median(times->first[JUMP + size], times->rounds) / 1e3);
    }
    printf("\n");
}

int main(int argc, char **argv)
{
    int rounds = argc > 2 ? atoi(argv[1]) : 0;
    if (rounds < 1) {
        fputs("usage: measure ROUNDS STREAM ..\n", stderr);
        return 2;
    }
    for (int place = 2; place < argc; place++) {
        struct stream s = load(argv[place]);
        struct times times = measure(&s, rounds);
        report(argv[place], &s, &times);
    }
    return 0;
}
