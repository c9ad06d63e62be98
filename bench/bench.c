/*
 * Side by side in one run on the same inputs: the library, plain C (plain.h says of which loops) and, where it was built in, ISA-L's
 * Reed-Solomon decode (14 + 4) of the same payloads. Each case rotates over many inputs. Before any is timed, every answer and
 * every byte of every output is compared: the library's with those of plain C, and both with what is known of the input. It
 * prints a table, writes a plot, and asserts nothing about time.
 *
 *     bench [--short] [PLOT.svg]
 *
 * --short: all cases and all comparisons, but few inputs of each and one short run, for tests.
 */
#define _POSIX_C_SOURCE 200809L

#include "axp.h"
#include "plain.h"

#include <assert.h>
#include <stdio.h>
#include <stdlib.h>
#include <string.h>
#include <time.h>

#ifdef WITH_ISAL
#include <isa-l/erasure_code.h>
#endif

/*
 * The inputs of a case, as many for each track: of long records few are enough that no branch predictor learns them, of short
 * ones it takes more. An output has room past every result.
 */
enum { FEW_INPUTS = 3 * AXP_TRACKS, INPUTS = 24 * AXP_TRACKS };
enum { SET = AXP_TRACKS / 2, ROOM = AXP_MAX_FILE_SIZE + 64, ROWS = 23 };

/* The runs of each, spread over some passes over all cases, so that a slow spell of the machine falls on no case alone. */
enum { PASSES = 20, RUNS = 160 };

/* An input: flags and a ceiling, or a table of spans, memory of its own where it has any, and what is right: the bytes at the start of
 * the output, and the answer. */
struct input {
    uint32_t flags, ceiling;
    const uint8_t *bytes;
    uint8_t *memory;
    const uint8_t *result;
    axp_result answer;
    size_t span_count;
    axp_span spans[AXP_MAX_SPANS];
};

typedef axp_result (*call)(uint32_t blocks, const struct input *x, size_t len, uint8_t *out, size_t out_len);

/* Who runs: the name, the call, an output of its own, and nanoseconds a call. */
struct runner {
    const char *name;
    call call;
    uint8_t *out;
    double best;
};

/* A case, which is a row of the table, and the payload bytes of an input, 0 where it works on none. The second runner is plain C, where
 * there is one. */
struct row {
    const char *name;
    struct input *inputs;
    size_t input_len, result_len, payload, rounds;
    int runner_count;
    struct runner runners[2];
};

static int is_short;
static uint32_t blocks;
static int input_count;
static uint8_t *payloads[INPUTS], *records[INPUTS];
static struct row rows[ROWS];
static int row_count;
static uint8_t pattern[ROOM], wanted[ROOM];
/* Both outputs lie alike in their pages. */
static _Alignas(4096) uint8_t library_out[ROOM];
static _Alignas(4096) uint8_t plain_out[ROOM];
static volatile uint32_t sink;

/* An input without a table. Its ceiling is 2. */
static struct input plain_input(uint32_t flags, const uint8_t *bytes, uint8_t *memory, const uint8_t *result, axp_result answer)
{
    struct input x = {.flags = flags, .ceiling = AXP_MAX_CEILING, .bytes = bytes, .memory = memory, .result = result, .answer = answer};
    return x;
}

static uint64_t state = 1;

static uint32_t next(void)
{
    state = state * 6364136223846793005u + 1442695040888963407u;
    return (uint32_t)(state >> 33);
}

static void *allocate(size_t size)
{
    void *p = malloc(size > 0 ? size : 1);
    if (!p) {
        perror("bench");
        exit(1);
    }
    return p;
}

/* ---- calls of one type */

/* A call of the library, and that of plain C, by an input. */
#define CALL(name, ...) \
    static axp_result library_##name(uint32_t n, const struct input *x, size_t len, uint8_t *out, size_t out_len) \
    { \
        return axp_##name(__VA_ARGS__); \
    } \
    static axp_result c_##name(uint32_t n, const struct input *x, size_t len, uint8_t *out, size_t out_len) \
    { \
        return plain_##name(__VA_ARGS__); \
    }

CALL(encode, n, x->bytes, len, out, out_len)
CALL(read, n, x->bytes, len, out, out_len)
CALL(repair, n, x->flags, x->bytes, len, out, out_len)
CALL(trace, n, x->flags, x->bytes, len, out, out_len)
CALL(trace_within, n, x->flags, x->ceiling, x->bytes, len, out, out_len)
CALL(repair_spans, n, x->spans, x->span_count, x->bytes, len, out, out_len)
CALL(pack, n, x->bytes, len, out, out_len)
CALL(unpack, n, x->bytes, len, out, out_len)

/* Of files: the flags are the number of entries, or an index. Their answers stand in fields of the one type. */
static axp_result of_written(axp_written w) { return (axp_result){w.answer, 0, 0, w.length, AXP_NO_EXTRA, AXP_NO_EXTRA}; }
static axp_result of_counted(axp_counted c) { return (axp_result){c.answer, 0, 0, c.entries, AXP_NO_EXTRA, AXP_NO_EXTRA}; }
static axp_result of_stretch(axp_stretch s) { return (axp_result){s.answer, 0, s.offset, s.length, AXP_NO_EXTRA, AXP_NO_EXTRA}; }

#define FILE_CALL(name, of, ...) \
    static axp_result library_##name(uint32_t n, const struct input *x, size_t len, uint8_t *out, size_t out_len) \
    { \
        (void)n, (void)out, (void)out_len; \
        return of(axp_##name(__VA_ARGS__)); \
    } \
    static axp_result c_##name(uint32_t n, const struct input *x, size_t len, uint8_t *out, size_t out_len) \
    { \
        (void)n, (void)out, (void)out_len; \
        return of(plain_##name(__VA_ARGS__)); \
    }

FILE_CALL(file_write, of_written, x->flags, x->bytes, len, out, out_len)
FILE_CALL(file_count, of_counted, x->bytes, len)
FILE_CALL(file_entry, of_stretch, x->bytes, len, x->flags)

/* The answer 0 with no changed cell. */
static const axp_result unchanged = {AXP_OK, 0, 0, 0, AXP_NO_EXTRA, AXP_NO_EXTRA};

static axp_result copy_image(uint32_t n, const struct input *x, size_t len, uint8_t *out, size_t out_len)
{
    (void)n, (void)out_len;
    memcpy(out, x->bytes, len);
    return unchanged;
}

#ifdef WITH_ISAL
enum { K = 14, M = 18, LOST = 4 };

static unsigned char generator[K * M];

/* Some of ISA-L's functions leave the upper halves of vector registers in use, which slows whatever is run after them. */
static void leave_isal(void)
{
#if defined(__x86_64__)
    if (__builtin_cpu_supports("avx"))
        __asm__ volatile("vzeroupper");
#endif
}

/* The parts follow one another. The flags name the lost ones, four data parts: the inverse of what is left, then the four. */
static axp_result isal_decode(uint32_t n, const struct input *x, size_t len, uint8_t *out, size_t out_len)
{
    uint32_t flags = x->flags;
    unsigned char left[K * K], inverse[K * K], rows[K * LOST], tables[32 * K * LOST];
    unsigned char *from[K], *to[LOST];
    int kept = 0, lost = 0;
    (void)len, (void)out_len;
    for (int i = 0; i < M && kept < K; i++)
        if (!(flags >> i & 1)) {
            from[kept] = (unsigned char *)x->bytes + (size_t)i * n;
            memcpy(left + K * kept, generator + K * i, K);
            kept++;
        }
    gf_invert_matrix(left, inverse, K);
    for (int i = 0; i < K; i++)
        if (flags >> i & 1) {
            to[lost] = out + (size_t)lost * n;
            memcpy(rows + K * lost, inverse + K * i, K);
            lost++;
        }
    ec_init_tables(K, LOST, rows, tables);
    ec_encode_data((int)n, K, LOST, tables, from, to);
    leave_isal();
    return unchanged;
}
#endif

/* ---- comparison */

static void fail(const char *name, int i, const char *what)
{
    fprintf(stderr, "bench: n = %u: %s: input %d: %s\n", blocks, name, i, what);
    exit(1);
}

static int same(axp_result a, axp_result b)
{
    return a.answer == b.answer && a.detail == b.detail && a.mask == b.mask && a.cells == b.cells && a.extra_a == b.extra_a &&
           a.extra_b == b.extra_b;
}

/* The first byte at which two outputs differ, and ROOM where there is none. */
static size_t difference(const uint8_t *a, const uint8_t *b)
{
    size_t at = 0;
    if (memcmp(a, b, ROOM) == 0)
        return ROOM;
    while (a[at] == b[at])
        at++;
    return at;
}

/* Every input, each runner into its own output: all must answer and leave what the first does, and what is right. */
static void compare(const struct row *row)
{
    char what[200];
    for (int i = 0; i < input_count; i++) {
        const struct input *x = &row->inputs[i];
        const char *first_name = row->runners[0].name;
        axp_result first = unchanged;
        memcpy(wanted, pattern, ROOM);
        memcpy(wanted, x->result, row->result_len);
        for (int k = 0; k < row->runner_count; k++) {
            const struct runner *w = &row->runners[k];
            memcpy(w->out, pattern, ROOM);
            axp_result r = w->call(blocks, x, row->input_len, w->out, ROOM);
            if (k == 0)
                first = r;
            if (!same(r, first)) {
                snprintf(what, sizeof what, "%s and %s answer differently", first_name, w->name);
                fail(row->name, i, what);
            }
            if (!same(r, x->answer)) {
                snprintf(what, sizeof what, "%s: answer %u, detail %u, mask %#x, cells %u, extras %u and %u are not right", w->name,
                         r.answer, r.detail, r.mask, r.cells, r.extra_a, r.extra_b);
                fail(row->name, i, what);
            }
            size_t at = difference(row->runners[0].out, w->out);
            if (at < ROOM) {
                snprintf(what, sizeof what, "%s and %s differ at byte %zu of the output", first_name, w->name, at);
                fail(row->name, i, what);
            }
            at = difference(wanted, w->out);
            if (at < ROOM) {
                snprintf(what, sizeof what, "%s: byte %zu of the output is not right", w->name, at);
                fail(row->name, i, what);
            }
        }
    }
}

/* ---- time */

static double now(void)
{
    struct timespec t;
    clock_gettime(CLOCK_MONOTONIC, &t);
    return (double)t.tv_sec * 1e9 + (double)t.tv_nsec;
}

/* Nanoseconds of one run: the rounds of the case over all its inputs. */
static double run(const struct row *row, const struct runner *w)
{
    double from = now();
    for (size_t r = 0; r < row->rounds; r++)
        for (const struct input *x = row->inputs; x < row->inputs + input_count; x++)
            sink += w->call(blocks, x, row->input_len, w->out, ROOM).answer;
    return now() - from;
}

/* Is a run long enough to be timed? The shortest of three counts, so that it is not other work that makes it long. */
static int is_long(const struct row *row, const struct runner *w)
{
    for (int i = 0; i < 3; i++)
        if (run(row, w) < 1e6)
            return 0;
    return 1;
}

static void set_rounds(struct row *row)
{
    row->rounds = 1;
    for (int k = 0; k < row->runner_count && !is_short; k++)
        while (!is_long(row, &row->runners[k]))
            row->rounds *= 2;
}

/* Some runs of each runner, of which the best counts, so that other work on the machine counts least. They take turns. */
static void measure(struct row *row, int runs)
{
    for (int r = 0; r < runs; r++)
        for (int k = 0; k < row->runner_count; k++) {
            double time = run(row, &row->runners[k]) / ((double)row->rounds * input_count);
            if (time < row->runners[k].best)
                row->runners[k].best = time;
        }
}

/* ---- inputs */

/* Some different tracks among `span` from track number `first` on, by chance. */
static uint32_t pick(unsigned first, unsigned span, unsigned count)
{
    uint32_t tracks = 0;
    while (count > 0) {
        uint32_t bit = (uint32_t)1 << (first + next() % span);
        if (!(tracks & bit)) {
            tracks |= bit;
            count--;
        }
    }
    return tracks;
}

/* The damaged tracks of a case's inputs, for each number k of an input. */

static uint32_t no_track(unsigned k)
{
    (void)k;
    return 0;
}

static uint32_t one_track(unsigned k) { return (uint32_t)1 << k % AXP_TRACKS; }

static uint32_t two_and_two(unsigned k)
{
    (void)k;
    return pick(0, SET, 2) | pick(SET, SET, 2);
}

/* Three tracks of one set, and one of the other. */
static uint32_t three_and_one(unsigned k)
{
    return k % 2 ? pick(0, SET, 3) | pick(SET, SET, 1) : pick(SET, SET, 3) | pick(0, SET, 1);
}

/* A track of each set, each of A and each of B as often. */
static uint32_t one_and_one(unsigned k) { return axp_flag_a(k % SET) | axp_flag_b((k + k / SET) % SET); }

/* Those of the choice that is tried last. */
static uint32_t last_choice(unsigned k)
{
    (void)k;
    return axp_flag_a(SET - 1) | axp_flag_b(SET - 1);
}

/* Any two tracks, of which each track is as often the first. */
static uint32_t any_two(unsigned k)
{
    unsigned g = k % AXP_TRACKS;
    return (uint32_t)1 << g | (uint32_t)1 << (g + 1 + next() % (AXP_TRACKS - 1)) % AXP_TRACKS;
}

static uint32_t two_of_a_set(unsigned k) { return k % 2 ? pick(0, SET, 2) : pick(SET, SET, 2); }

/* The numbers of the inputs, in an order by chance. */
static void shuffle(unsigned *order)
{
    unsigned count = (unsigned)input_count;
    for (unsigned i = 0; i < count; i++)
        order[i] = i;
    for (unsigned i = count - 1; i > 0; i--) {
        unsigned j = next() % (i + 1), k = order[i];
        order[i] = order[j];
        order[j] = k;
    }
}

/* Noise on a track, of which the first cell is wrong for certain. */
static void noise(uint8_t *track, size_t l)
{
    track[0] ^= 1;
    for (size_t m = 1; m < l; m++)
        track[m] ^= next() & 1;
}

/* Loses a burst of 100 cells, or all of a shorter track: by chance at its start, so late that it reaches into the tail, or anywhere. */
static void burst(uint8_t *track, size_t l)
{
    size_t n = l < 100 ? l : 100, places = l - n + 1, tail = l - 8 * (size_t)blocks, start = next() % places;
    switch (next() % 6) {
    case 0: start = 0; break;
    case 1: start = places - 1 - start % (tail < places ? tail : places); break;
    }
    memset(track + start, AXP_LOST, n);
}

/* A wrong cell at the last position of the data, or of the tail where there are none. */
static void last_data_cell(uint8_t *track, size_t l)
{
    track[blocks > 0 ? 8 * blocks - 1 : l - 1] ^= 1;
}

/* What repairers and tracers answer where an image is to become a record: which tracks differ, flagged or not, and the cells. */
static axp_result changes(const uint8_t *image, const uint8_t *record, uint32_t flags)
{
    size_t l = AXP_TRACK_LENGTH(blocks);
    axp_result r = unchanged;
    for (uint32_t g = 0; g < AXP_TRACKS; g++) {
        uint32_t cells = 0;
        for (size_t m = 0; m < l; m++)
            cells += image[g * l + m] != record[g * l + m];
        if (cells == 0)
            continue;
        r.cells += cells;
        r.mask |= (uint32_t)1 << g;
        if (flags >> g & 1)
            continue;
        if (g < SET)
            r.extra_a = g;
        else
            r.extra_b = g;
    }
    return r;
}

/* ---- cases */

static struct row *add_row(const char *name, size_t input_len, size_t result_len, call library, call plain)
{
    assert(row_count < ROWS);
    struct row *row = &rows[row_count++];
    row->name = name;
    row->inputs = allocate((size_t)input_count * sizeof *row->inputs);
    row->input_len = input_len;
    row->result_len = result_len;
    row->payload = AXP_PAYLOAD_SIZE(blocks);
    row->runner_count = plain ? 2 : 1;
    row->runners[0] = (struct runner){"the library", library, library_out, 1e18};
    row->runners[1] = (struct runner){"plain C", plain, plain_out, 1e18};
    return row;
}

/* Frees the last row. */
static void free_row(void)
{
    struct row *row = &rows[--row_count];
    for (int i = 0; i < input_count; i++)
        free(row->inputs[i].memory);
    free(row->inputs);
}

/* Damage to a track, and the input that an image with some damaged tracks is: its flags, and what is right. */
typedef void (*damage)(uint8_t *track, size_t l);
typedef struct input (*meaning)(uint8_t *image, const uint8_t *record, uint32_t damaged);

static struct input flagged(uint8_t *image, const uint8_t *record, uint32_t damaged)
{
    return plain_input(damaged, image, image, record, changes(image, record, damaged));
}

static struct input unknown(uint8_t *image, const uint8_t *record, uint32_t damaged)
{
    (void)damaged;
    return plain_input(0, image, image, record, changes(image, record, 0));
}

/* Tracks with a lost cell are not flagged by the word, and are no extras. */
static struct input lost(uint8_t *image, const uint8_t *record, uint32_t damaged)
{
    return plain_input(0, image, image, record, changes(image, record, damaged));
}

static struct input out_of_reach(uint8_t *image, const uint8_t *record, uint32_t damaged)
{
    (void)record, (void)damaged;
    return plain_input(0, image, image, image, (axp_result){AXP_NO_RECORD, 0, 0, 0, AXP_NO_EXTRA, AXP_NO_EXTRA});
}

/* Images of the records, each with this damage to some tracks. */
static void add_damaged(const char *name, call library, call plain, uint32_t (*tracks)(unsigned k), damage damage, meaning meaning)
{
    size_t l = AXP_TRACK_LENGTH(blocks), size = AXP_IMAGE_SIZE(blocks);
    struct row *row = add_row(name, size, size, library, plain);
    unsigned order[INPUTS];
    shuffle(order);
    for (int i = 0; i < input_count; i++) {
        uint32_t damaged = tracks(order[i]);
        uint8_t *image = allocate(size);
        memcpy(image, records[i], size);
        for (unsigned g = 0; g < AXP_TRACKS; g++)
            if (damaged >> g & 1)
                damage(image + g * l, l);
        row->inputs[i] = meaning(image, records[i], damaged);
    }
}

/* Compared and not timed: a wrong track in each set, by ceilings 0 to 3, which are too low, too low, just right and none. */
static void compare_ceilings(const char *name)
{
    struct row *row;
    add_damaged(name, library_trace_within, c_trace_within, one_and_one, noise, unknown);
    row = &rows[row_count - 1];
    for (int i = 0; i < input_count; i++) {
        struct input *x = &row->inputs[i];
        x->ceiling = (uint32_t)i % 4;
        if (x->ceiling == 2)
            continue;
        x->answer = unchanged;
        x->answer.answer = x->ceiling < 2 ? AXP_NO_RECORD : AXP_CEILING;
        x->result = x->ceiling < 2 ? x->bytes : pattern;
    }
    compare(row);
    free_row();
}

/* Flagged stretches of an image: some cells of one track, in order of the cells. Each is a pair of the table. */
static void add_stretch(struct input *x, uint8_t *image, size_t g, size_t from, size_t n)
{
    size_t at = g * AXP_TRACK_LENGTH(blocks) + from, k = x->span_count++;
    assert(k < AXP_MAX_SPANS);
    for (; k > 0 && x->spans[k - 1].offset > at; k--)
        x->spans[k] = x->spans[k - 1];
    x->spans[k] = (axp_span){(uint32_t)at, (uint32_t)n};
    noise(image + at, n);
}

/* Whole tracks of noise, three of one set and one of the other. */
static void whole_tracks(struct input *x, uint8_t *image, unsigned k)
{
    uint32_t tracks = three_and_one(k);
    for (size_t g = 0; g < AXP_TRACKS; g++)
        if (tracks >> g & 1)
            add_stretch(x, image, g, 0, AXP_TRACK_LENGTH(blocks));
}

/* In each of three tracks of one set and one of the other a burst of 100 cells, or of a whole shorter track. */
static void bursts(struct input *x, uint8_t *image, unsigned k)
{
    size_t l = AXP_TRACK_LENGTH(blocks), n = l < 100 ? l : 100;
    uint32_t tracks = three_and_one(k);
    for (size_t g = 0; g < AXP_TRACKS; g++)
        if (tracks >> g & 1)
            add_stretch(x, image, g, next() % (l - n + 1), n);
}

/* Up to 64 stretches of one to eight cells, scattered over the tracks, one in as many positions as are left for each, 24 at least. */
static void short_stretches(struct input *x, uint8_t *image, unsigned k)
{
    size_t l = AXP_TRACK_LENGTH(blocks), count = l / 24 < AXP_MAX_SPANS ? l / 24 : AXP_MAX_SPANS;
    if (count == 0)
        count = 1;
    for (size_t i = 0; i < count; i++) {
        size_t places = l / count, n = 1 + next() % 8;
        add_stretch(x, image, (i + k) % 4 ? next() % AXP_TRACKS : k % AXP_TRACKS, i * places + next() % (places - n + 1), n);
    }
}

/* Images of the records, each with some flagged stretches of noise. */
static void add_spans(const char *name, void (*stretches)(struct input *x, uint8_t *image, unsigned k))
{
    size_t size = AXP_IMAGE_SIZE(blocks);
    struct row *row = add_row(name, size, size, library_repair_spans, c_repair_spans);
    unsigned order[INPUTS];
    shuffle(order);
    for (int i = 0; i < input_count; i++) {
        struct input *x = &row->inputs[i];
        uint8_t *image = allocate(size);
        memcpy(image, records[i], size);
        *x = plain_input(0, image, image, records[i], unchanged);
        stretches(x, image, order[i]);
        x->answer = changes(image, records[i], ((uint32_t)1 << AXP_TRACKS) - 1);
    }
}

/* Payloads and records, from the ones to the others. */
static void add_encode(const char *name)
{
    struct row *row = add_row(name, AXP_PAYLOAD_SIZE(blocks), AXP_IMAGE_SIZE(blocks), library_encode, c_encode);
    for (int i = 0; i < input_count; i++)
        row->inputs[i] = plain_input(0, payloads[i], NULL, records[i], unchanged);
}

static void add_read(const char *name)
{
    struct row *row = add_row(name, AXP_IMAGE_SIZE(blocks), AXP_PAYLOAD_SIZE(blocks), library_read, c_read);
    for (int i = 0; i < input_count; i++)
        row->inputs[i] = plain_input(0, records[i], NULL, payloads[i], unchanged);
}

/* An image of bits by chance, good record or not, and behind it its packed form, bit by bit. */
static uint8_t *packed_image(void)
{
    size_t l = AXP_TRACK_LENGTH(blocks), size = AXP_IMAGE_SIZE(blocks), n = (size_t)blocks + 2;
    uint8_t *image = allocate(size + AXP_PACKED_SIZE(blocks));
    memset(image + size, 0, AXP_PACKED_SIZE(blocks));
    for (size_t g = 0; g < AXP_TRACKS; g++) {
        uint8_t *packed = image + size + (g < SET ? 2 * g : 2 * (g - SET) + 1) * n;
        for (size_t m = 0; m < l; m++) {
            image[g * l + m] = next() & 1;
            if (image[g * l + m])
                packed[m / 8] |= (uint8_t)(128 >> m % 8);
        }
    }
    return image;
}

/* Images and packed forms, from the ones to the others. */
static void add_pack(const char *name)
{
    size_t size = AXP_IMAGE_SIZE(blocks);
    struct row *row = add_row(name, size, AXP_PACKED_SIZE(blocks), library_pack, c_pack);
    for (int i = 0; i < input_count; i++) {
        uint8_t *image = packed_image();
        row->inputs[i] = plain_input(0, image, image, image + size, unchanged);
    }
}

static void add_unpack(const char *name)
{
    size_t size = AXP_IMAGE_SIZE(blocks);
    struct row *row = add_row(name, AXP_PACKED_SIZE(blocks), size, library_unpack, c_unpack);
    for (int i = 0; i < input_count; i++) {
        uint8_t *image = packed_image();
        row->inputs[i] = plain_input(0, image + size, image, image, unchanged);
    }
}

/* Compared and not timed: packed forms with one padding bit, of each track as often, which leave the output as it came. */
static void compare_padding(const char *name)
{
    size_t size = AXP_IMAGE_SIZE(blocks), n = (size_t)blocks + 2;
    struct row *row = add_row(name, AXP_PACKED_SIZE(blocks), 0, library_unpack, c_unpack);
    for (int i = 0; i < input_count; i++) {
        uint8_t *image = packed_image();
        image[size + (size_t)(i % AXP_TRACKS) * n + n - 1] |= 1;
        row->inputs[i] = plain_input(0, image + size, image, image, (axp_result){AXP_PADDING, 0, 0, 0, AXP_NO_EXTRA, AXP_NO_EXTRA});
    }
    compare(row);
    free_row();
}

/* The entries of a file: as many as fit it. Their bytes, and the file's. */
static uint32_t most_entries(void)
{
    size_t most = (AXP_MAX_FILE_SIZE - 2) / (8 + AXP_ENTRY_SIZE(blocks));
    return (uint32_t)(most < AXP_MAX_ENTRIES ? most : AXP_MAX_ENTRIES);
}

static size_t entries_size(void) { return most_entries() * AXP_ENTRY_SIZE(blocks); }
static size_t file_size(void) { return AXP_DIRECTORY_SIZE(most_entries()) + entries_size(); }

static void put_number(uint8_t *to, size_t width, size_t x)
{
    while (width-- > 0) {
        to[width] = (uint8_t)x;
        x /= 256;
    }
}

/* Entries of records by chance, and behind them their file. */
static uint8_t *entries_and_file(void)
{
    uint8_t *entries = allocate(entries_size() + file_size()), *file = entries + entries_size();
    size_t size = AXP_ENTRY_SIZE(blocks), first = AXP_DIRECTORY_SIZE(most_entries());
    put_number(file, 2, most_entries());
    for (size_t k = 0; k < most_entries(); k++) {
        uint8_t *image = packed_image(), *entry = entries + k * size;
        put_number(entry, 4, next());
        put_number(entry + 4, 2, blocks);
        memcpy(entry + 6, image + AXP_IMAGE_SIZE(blocks), AXP_PACKED_SIZE(blocks));
        free(image);
        put_number(file + 2 + 8 * k, 4, first + k * size);
        put_number(file + 6 + 8 * k, 4, size);
    }
    memcpy(file + first, entries, entries_size());
    return entries;
}

static void add_file_write(const char *name)
{
    struct row *row = add_row(name, entries_size(), file_size(), library_file_write, c_file_write);
    row->payload = most_entries() * AXP_PAYLOAD_SIZE(blocks);
    for (int i = 0; i < input_count; i++) {
        uint8_t *entries = entries_and_file();
        row->inputs[i] = plain_input(most_entries(), entries, entries, entries + entries_size(),
                                     of_written((axp_written){AXP_OK, (uint32_t)file_size()}));
    }
}

static void add_file_entry(const char *name)
{
    struct row *row = add_row(name, file_size(), 0, library_file_entry, c_file_entry);
    row->payload = 0;
    for (int i = 0; i < input_count; i++) {
        uint8_t *entries = entries_and_file();
        uint32_t index = next() % most_entries();
        size_t size = AXP_ENTRY_SIZE(blocks), offset = AXP_DIRECTORY_SIZE(most_entries()) + index * size;
        row->inputs[i] = plain_input(index, entries + entries_size(), entries, entries,
                                     of_stretch((axp_stretch){AXP_OK, (uint32_t)offset, (uint32_t)size}));
    }
}

/* Compared and not timed: the number of entries, of a file and of one that is damaged in one of its lengths. */
static void compare_count(const char *name)
{
    struct row *row = add_row(name, file_size(), 0, library_file_count, c_file_count);
    for (int i = 0; i < input_count; i++) {
        uint8_t *entries = entries_and_file(), *file = entries + entries_size();
        axp_counted c = {AXP_OK, most_entries()};
        if (i % 2 == 1) {
            file[9 + 8 * (next() % most_entries())] ^= 1;
            c = (axp_counted){AXP_DAMAGED_FILE, 0};
        }
        row->inputs[i] = plain_input(0, file, entries, entries, of_counted(c));
    }
    compare(row);
    free_row();
}

#ifdef WITH_ISAL
/* Each payload in fourteen parts, and four parts made of them. Behind them are the parts that are lost. */
static void add_isal(const char *name)
{
    struct row *row = add_row(name, M * (size_t)blocks, LOST * (size_t)blocks, isal_decode, NULL);
    unsigned char tables[32 * K * (M - K)], *from[K], *to[M - K];
    row->runners[0].name = "ISA-L";
    gf_gen_cauchy1_matrix(generator, M, K);
    ec_init_tables(K, M - K, generator + K * K, tables);
    for (int i = 0; i < input_count; i++) {
        uint8_t *parts = allocate(row->input_len + row->result_len), *lost = parts + row->input_len;
        uint32_t flags = pick(0, K, LOST);
        memcpy(parts, payloads[i], AXP_PAYLOAD_SIZE(blocks));
        for (int k = 0; k < K; k++)
            from[k] = parts + (size_t)k * blocks;
        for (int k = K; k < M; k++)
            to[k - K] = parts + (size_t)k * blocks;
        ec_encode_data((int)blocks, K, M - K, tables, from, to);
        leave_isal();
        row->inputs[i] = plain_input(flags, parts, parts, lost, unchanged);
        for (int k = 0; k < K; k++)
            if (flags >> k & 1) {
                memcpy(lost, from[k], blocks);
                lost += blocks;
            }
    }
}
#endif

static void make_records(void)
{
    for (int i = 0; i < input_count; i++) {
        payloads[i] = allocate(AXP_PAYLOAD_SIZE(blocks));
        records[i] = allocate(AXP_IMAGE_SIZE(blocks));
        for (size_t k = 0; k < AXP_PAYLOAD_SIZE(blocks); k++)
            payloads[i][k] = (uint8_t)next();
        if (axp_encode(blocks, payloads[i], AXP_PAYLOAD_SIZE(blocks), records[i], AXP_IMAGE_SIZE(blocks)).answer != AXP_OK)
            fail("encode", i, "the library makes no record");
    }
}

static void free_records(void)
{
    for (int i = 0; i < input_count; i++) {
        free(payloads[i]);
        free(records[i]);
    }
}

/* The cases of 256 blocks, as multiples of a copy. */
struct bar {
    const char *name;
    double library, plain;
};

static struct bar bars[ROWS];
static int bar_count;

static void print_row(const struct row *row, double copy)
{
    double a = row->runners[0].best, b = row->runners[1].best, speed = (double)row->payload / a * 1e3;
    printf("%5u  %-36s %10.0f %8.1f", blocks, row->name, a, a / copy);
    if (row->runner_count == 2 && row->payload == 0)
        printf(" %10.0f %8.1f %9.2f\n", b, b / copy, a / b);
    else if (row->runner_count == 2)
        printf(" %10.0f %8.1f %9.2f %9.0f\n", b, b / copy, a / b, speed);
    else if (row->runners[0].call != copy_image)
        printf(" %10s %8s %9s %9.0f\n", "", "", "", speed);
    else
        printf("\n");
    if (blocks == 256 && row->runner_count == 2 && row->payload > 0)
        bars[bar_count++] = (struct bar){row->name, a / copy, b / copy};
}

static void all(uint32_t n)
{
    blocks = n;
    input_count = n == 256 || is_short ? FEW_INPUTS : INPUTS;
    make_records();
    add_damaged("copy of the image", copy_image, NULL, no_track, noise, unknown);
    add_encode("encode");
    add_read("read a clean record");
    add_damaged("repair a clean record", library_repair, c_repair, no_track, noise, flagged);
    add_damaged("repair one flagged track", library_repair, c_repair, one_track, noise, flagged);
    add_damaged("repair 2 + 2 tracks of noise", library_repair, c_repair, two_and_two, noise, flagged);
    add_damaged("repair 3 + 1 tracks of noise", library_repair, c_repair, three_and_one, noise, flagged);
    add_damaged("repair two bursts of lost cells", library_repair, c_repair, any_two, burst, lost);
    add_spans("spans: 3 + 1 whole tracks of noise", whole_tracks);
    add_spans("spans: bursts of 100 in 3 + 1 tracks", bursts);
    add_spans("spans: 64 short stretches", short_stretches);
    add_damaged("trace a clean record", library_trace, c_trace, no_track, noise, unknown);
    add_damaged("trace one unknown track", library_trace, c_trace, one_track, noise, unknown);
    add_damaged("trace two unknown tracks, ceiling 2", library_trace_within, c_trace_within, one_and_one, noise, unknown);
    add_damaged("trace the last two tracks, ceiling 2", library_trace_within, c_trace_within, last_choice, noise, unknown);
    add_damaged("trace to 7, errors at the very end", library_trace, c_trace, two_of_a_set, last_data_cell, out_of_reach);
    add_damaged("trace to 7, errors at end, ceiling 2", library_trace_within, c_trace_within, two_of_a_set, last_data_cell, out_of_reach);
    compare_ceilings("trace by each ceiling");
    add_pack("pack");
    add_unpack("unpack");
    compare_padding("unpack to 8");
    add_file_write("write a full file");
    add_file_entry("find an entry of a full file");
    compare_count("count the entries of a full file");
#ifdef WITH_ISAL
    if (n > 0)
        add_isal("(ISA-L, 14 + 4, four lost)");
#endif
    for (int i = 0; i < row_count; i++)
        compare(&rows[i]);
    for (int i = 0; i < row_count; i++)
        set_rounds(&rows[i]);
    for (int p = 0; p < (is_short ? 1 : PASSES); p++)
        for (int i = 0; i < row_count; i++)
            measure(&rows[i], is_short ? 1 : RUNS / PASSES);
    for (int i = 0; i < row_count; i++)
        print_row(&rows[i], rows[0].runners[0].best);
    while (row_count > 0)
        free_row();
    free_records();
}

/* ---- plot: bars for 256 blocks, as multiples of a copy, on a scale of logarithms */

/* The binary logarithm of a number, 0 where it is below 1: whole halvings, then a digit for each squaring. */
static double logarithm(double v)
{
    double x = 0, digit = 1;
    if (v < 1)
        return 0;
    for (; v >= 2; v /= 2)
        x += 1;
    for (int i = 0; i < 20; i++) {
        digit /= 2;
        v *= v;
        if (v >= 2) {
            v /= 2;
            x += digit;
        }
    }
    return x;
}

static void bar(FILE *f, int y, double width, double value, const char *name, const char *color)
{
    fprintf(f, "<rect x=\"250\" y=\"%d\" width=\"%.1f\" height=\"12\" fill=\"%s\"/>", y, width, color);
    fprintf(f, "<text x=\"%.1f\" y=\"%d\">%.1f %s</text>\n", 254 + width, y + 10, value, name);
}

static void plot(const char *path)
{
    FILE *f = fopen(path, "w");
    if (!f) {
        perror(path);
        exit(1);
    }
    int top = 1, bottom = 38 + 34 * bar_count;
    for (int i = 0; i < bar_count; i++)
        while (logarithm(bars[i].library) > top || logarithm(bars[i].plain) > top)
            top++;
    double unit = 480.0 / top;
    fprintf(f, "<svg xmlns=\"http://www.w3.org/2000/svg\" width=\"840\" height=\"%d\" ", bottom + 22);
    fprintf(f, "font-family=\"sans-serif\" font-size=\"12\">\n");
    fprintf(f, "<rect width=\"100%%\" height=\"100%%\" fill=\"#ffffff\"/>\n");
    fprintf(f, "<text x=\"10\" y=\"20\">256 blocks: time as a multiple of a copy of the image (logarithmic)</text>\n");
    for (int k = 0; k <= top; k++) {
        double x = 250 + unit * k;
        fprintf(f, "<line x1=\"%.1f\" y1=\"34\" x2=\"%.1f\" y2=\"%d\" stroke=\"#dddddd\"/>", x, x, bottom);
        fprintf(f, "<text x=\"%.1f\" y=\"%d\" fill=\"#666666\" text-anchor=\"middle\">%.0f</text>\n", x, bottom + 16,
                (double)((uint64_t)1 << k));
    }
    for (int i = 0, y = 40; i < bar_count; i++, y += 34) {
        fprintf(f, "<text x=\"244\" y=\"%d\" text-anchor=\"end\">%s</text>\n", y + 17, bars[i].name);
        bar(f, y, unit * logarithm(bars[i].library), bars[i].library, "library", "#1f6f8b");
        bar(f, y + 14, unit * logarithm(bars[i].plain), bars[i].plain, "plain C", "#c9a227");
    }
    fprintf(f, "</svg>\n");
    if (fclose(f) != 0) {
        perror(path);
        exit(1);
    }
    printf("plot: %s\n", path);
}

int main(int argc, char **argv)
{
    const char *path = NULL;
    for (int i = 1; i < argc; i++) {
        if (strcmp(argv[i], "--short") == 0) {
            is_short = 1;
        } else if (argv[i][0] == '-' || path) {
            fprintf(stderr, "usage: bench [--short] [PLOT.svg]\n");
            return 2;
        } else {
            path = argv[i];
        }
    }
    for (size_t i = 0; i < ROOM; i++)
        pattern[i] = (uint8_t)(AXP_LOST + 1 + next() % (255 - AXP_LOST));
    printf("%5s  %-36s %10s %8s %10s %8s %9s %9s\n", "n", "", "library ns", "copies", "plain C ns", "copies", "lib/plain", "MB/s");
    all(0);
    all(1);
    all(16);
    all(256);
    printf("MB/s: payload bytes by the library; the drive of the source reads 3 MB/s.\n");
    if (path)
        plot(path);
    return 0;
}
