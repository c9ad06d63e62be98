/* A C program over the shipped archive and the shared library: the README's calls in order, run under sanitizers and valgrind by the gate. */
#include <axp.h>

#include <stdio.h>
#include <string.h>

static int failures;

static void expect(int ok, const char *what)
{
    if (!ok) {
        failures++;
        printf("client: FAILED: %s\n", what);
    }
}

/* An answer in which no number past the detail is set, as in every one of packing and unpacking. */
static int is_plain(axp_result r, uint32_t answer, uint32_t detail)
{
    return r.answer == answer && r.detail == detail && r.mask == 0 && r.cells == 0 && r.extra_a == AXP_NO_EXTRA && r.extra_b == AXP_NO_EXTRA;
}

/* Is every byte from `from` on as `memset` left it? */
static int is_filled(const uint8_t *bytes, size_t from, size_t len, uint8_t value)
{
    while (from < len && bytes[from] == value)
        from++;
    return from >= len;
}

/* An image's packed form, bit by bit, and the image from it again. Then what is refused, which leaves the output as it came. */
static void packing(uint32_t n, const uint8_t *image)
{
    static uint8_t cells[AXP_MAX_IMAGE_SIZE + 8], packed[AXP_MAX_PACKED_SIZE + 8], out[AXP_MAX_IMAGE_SIZE + 8];
    size_t l = AXP_TRACK_LENGTH(n), size = AXP_IMAGE_SIZE(n), bytes = AXP_PACKED_SIZE(n), p, m;
    int bits = 1, padding = 1;
    memcpy(cells, image, size);
    memset(packed, 0xaa, sizeof packed);
    expect(is_plain(axp_pack(n, cells, size, packed, sizeof packed), AXP_OK, 0), "pack");
    for (p = 0; p < AXP_TRACKS; p++) {
        const uint8_t *track = image + (p % 2 == 0 ? p / 2 : 9 + p / 2) * l, *byte = packed + p * (n + 2);
        for (m = 0; m < l; m++)
            bits &= ((byte[m / 8] & 128 >> m % 8) != 0) == track[m];
        padding &= byte[n + 1] % 2 == 0;
    }
    expect(bits, "packed bits");
    expect(padding, "padding bits");
    expect(is_filled(packed, bytes, sizeof packed, 0xaa), "bytes past the packed form");
    memset(out, 0x55, sizeof out);
    expect(is_plain(axp_unpack(n, packed, bytes, out, sizeof out), AXP_OK, 0) && memcmp(out, image, size) == 0, "unpack");
    expect(is_filled(out, size, sizeof out, 0x55), "bytes past the image");

    memset(out, 0x55, sizeof out);
    for (p = 0; p < AXP_TRACKS; p++) {
        packed[p * (n + 2) + n + 1] |= 1;
        expect(is_plain(axp_unpack(n, packed, bytes, out, sizeof out), AXP_PADDING, 0), "padding bit of a track");
        packed[p * (n + 2) + n + 1] &= 254;
    }
    expect(is_plain(axp_unpack(n, packed, bytes, out, size - 1), AXP_OUTPUT_SHORT, 0), "unpack to a short output");
    expect(is_plain(axp_unpack(n, packed, bytes - 1, out, size), AXP_INPUT_LENGTH, 0), "unpack a byte less");
    expect(is_plain(axp_unpack(n, packed, bytes + 1, out, size), AXP_INPUT_LENGTH, 0), "unpack a byte more");
    expect(is_filled(out, 0, sizeof out, 0x55), "output of a refused unpacking");

    memset(packed, 0xaa, sizeof packed);
    expect(is_plain(axp_pack(n, cells, size, packed, bytes - 1), AXP_OUTPUT_SHORT, 0), "pack to a short output");
    expect(is_plain(axp_pack(n, cells, size - 1, packed, bytes), AXP_INPUT_LENGTH, 0), "pack a cell less");
    expect(is_plain(axp_pack(n, cells, size + 1, packed, bytes), AXP_INPUT_LENGTH, 0), "pack a cell more");
    cells[size - 1] = AXP_LOST;
    expect(is_plain(axp_pack(n, cells, size, packed, bytes), AXP_CELL_VALUE, (uint32_t)(size - 1)), "pack a wrong last cell");
    cells[7] = 255;
    expect(is_plain(axp_pack(n, cells, size, packed, bytes), AXP_CELL_VALUE, 7), "pack two wrong cells");
    expect(is_filled(packed, 0, sizeof packed, 0xaa), "output of a refused packing");
}

/* Was a record found that changes so many cells, in these tracks, and are these extras named? */
static int is_found(axp_result r, uint32_t mask, size_t cells, uint32_t extra_a, uint32_t extra_b)
{
    return r.answer == AXP_OK && r.detail == 0 && r.mask == mask && r.cells == cells && r.extra_a == extra_a && r.extra_b == extra_b;
}

/* A record with a track that the drive could not read and with one lost cell in another, then with more and more against it. */
static void lost(uint32_t n, const uint8_t *image)
{
    static uint8_t cells[AXP_MAX_IMAGE_SIZE], out[AXP_MAX_IMAGE_SIZE + 8], bytes[AXP_MAX_PACKED_SIZE];
    size_t l = AXP_TRACK_LENGTH(n), size = AXP_IMAGE_SIZE(n), t;
    uint32_t mask = axp_flag_a(2) | axp_flag_b(8);
    memcpy(cells, image, size);
    memset(cells + 2 * l, AXP_LOST, l);
    cells[size - 1] = AXP_LOST;
    memset(out, 0x55, sizeof out);
    expect(is_found(axp_repair(n, 0, cells, size, out, sizeof out), mask, l + 1, AXP_NO_EXTRA, AXP_NO_EXTRA) && memcmp(out, image, size) == 0, "repair of lost cells");
    expect(is_filled(out, size, sizeof out, 0x55), "bytes past the repaired image");
    expect(is_found(axp_trace(n, axp_flag_a(2), cells, size, out, size), mask, l + 1, AXP_NO_EXTRA, AXP_NO_EXTRA) && memcmp(out, image, size) == 0, "trace of lost cells");
    cells[4 * l + l / 2] ^= 1;
    expect(is_found(axp_trace(n, 0, cells, size, out, size), mask | axp_flag_a(4), l + 2, 4, AXP_NO_EXTRA) && memcmp(out, image, size) == 0, "extra beside lost cells");
    expect(is_plain(axp_repair(n, 0, cells, size, out, size), AXP_NO_RECORD, 0) && memcmp(out, cells, size) == 0 && out[size - 1] == AXP_LOST, "lost cells after 7");

    memset(out, 0x55, sizeof out);
    memset(bytes, 0xaa, sizeof bytes);
    expect(is_plain(axp_repair(n, axp_flag_b(9), cells, size, out, size), AXP_FLAG_BIT, 0), "flag of no track beside lost cells");
    for (t = 5; t < 8; t++)
        cells[t * l + t] = AXP_LOST;
    expect(is_plain(axp_repair(n, 0, cells, size, out, size), AXP_TOO_MANY, 0), "repair of too many lost tracks");
    expect(is_plain(axp_trace(n, 0, cells, size, out, size), AXP_TOO_MANY, 0), "trace of too many lost tracks");
    expect(is_plain(axp_read(n, cells, size, bytes, sizeof bytes), AXP_NO_RECORD, 0), "read lost cells");
    cells[size - 2] = AXP_LOST + 1;
    expect(is_plain(axp_read(n, cells, size, bytes, sizeof bytes), AXP_CELL_VALUE, (uint32_t)(size - 2)), "read a 3 behind lost cells");
    expect(is_plain(axp_repair(n, 0, cells, size, out, size), AXP_CELL_VALUE, (uint32_t)(size - 2)), "repair a 3 behind lost cells");
    expect(is_plain(axp_trace(n, 0, cells, size, out, size), AXP_CELL_VALUE, (uint32_t)(size - 2)), "trace a 3 behind lost cells");
    expect(is_plain(axp_pack(n, cells, size, bytes, sizeof bytes), AXP_CELL_VALUE, (uint32_t)(2 * l)), "pack lost cells");
    memcpy(cells, image, size);
    cells[l] = AXP_LOST;
    expect(is_plain(axp_read(n, cells, size, bytes, sizeof bytes), AXP_NO_RECORD, 0), "read a lost cell");
    expect(is_plain(axp_pack(n, cells, size, bytes, sizeof bytes), AXP_CELL_VALUE, (uint32_t)l), "pack a lost cell");
    expect(is_filled(out, 0, sizeof out, 0x55) && is_filled(bytes, 0, sizeof bytes, 0xaa), "outputs of refused lost cells");
}

/* A record whose tracks were distrusted for a while: pairs that touch and one that runs into the next track, then lost cells beside
 * them, then tables that are refused. */
static void stretches(uint32_t n, const uint8_t *image)
{
    static uint8_t cells[AXP_MAX_IMAGE_SIZE], out[AXP_MAX_IMAGE_SIZE + 8], tracks[AXP_MAX_IMAGE_SIZE];
    static axp_span many[AXP_MAX_SPANS + 1];
    uint32_t l = (uint32_t)AXP_TRACK_LENGTH(n), size = (uint32_t)AXP_IMAGE_SIZE(n), i;
    uint32_t flags = axp_flag_a(1) | axp_flag_a(2) | axp_flag_b(4);
    axp_span spans[4];
    spans[0].offset = 2 * l - 3; /* the end of A1 and the start of A2 */
    spans[0].length = 7;
    spans[1].offset = 2 * l + 4; /* and on in A2 */
    spans[1].length = 5;
    spans[2].offset = 13 * l;    /* all of B4 */
    spans[2].length = l;
    spans[3].offset = size - 1;  /* the last cell of B8 */
    spans[3].length = 1;
    memcpy(cells, image, size);
    for (i = 0; i < 4; i++) {
        uint32_t k;
        for (k = 0; k < spans[i].length; k++)
            cells[spans[i].offset + k] ^= 1;
    }
    memset(out, 0x55, sizeof out);
    expect(is_found(axp_repair_spans(n, spans, 4, cells, size, out, sizeof out), flags | axp_flag_b(8), l + 13, AXP_NO_EXTRA, AXP_NO_EXTRA) && memcmp(out, image, size) == 0, "repair of stretches");
    expect(is_filled(out, size, sizeof out, 0x55), "bytes past the image of stretches");
    expect(is_plain(axp_repair_spans(n, spans, 3, cells, size, out, size), AXP_NO_RECORD, 0) && memcmp(out, cells, size) == 0, "stretches to 7");
    cells[size - 1] = AXP_LOST; /* a lost cell flags itself */
    cells[2 * l + 2] = AXP_LOST;
    expect(is_found(axp_repair_spans(n, spans, 3, cells, size, out, size), flags | axp_flag_b(8), l + 13, AXP_NO_EXTRA, AXP_NO_EXTRA) && memcmp(out, image, size) == 0, "lost cells beside stretches");

    /* Whole tracks are repaired as by their flags. */
    memcpy(cells, image, size);
    for (i = 0; i < l; i++)
        cells[3 * l + i] = cells[4 * l + i] = (uint8_t)(i % 2);
    spans[0].offset = 3 * l;
    spans[0].length = 2 * l;
    memcpy(tracks, cells, size);
    {
        axp_result by_cells = axp_repair_spans(n, spans, 1, cells, size, out, size);
        axp_result by_tracks = axp_repair(n, axp_flag_a(3) | axp_flag_a(4), cells, size, tracks, size);
        expect(by_tracks.answer == AXP_OK && is_found(by_cells, by_tracks.mask, by_tracks.cells, AXP_NO_EXTRA, AXP_NO_EXTRA) && memcmp(out, tracks, size) == 0, "whole tracks as stretches");
    }
    /* No table: a good record stays, a lost cell is filled. */
    expect(is_plain(axp_repair_spans(n, NULL, 0, image, size, out, size), AXP_OK, 0) && memcmp(out, image, size) == 0, "no stretches");
    memcpy(cells, image, size);
    cells[5] = AXP_LOST;
    expect(is_found(axp_repair_spans(n, NULL, 0, cells, size, out, size), 1, 1, AXP_NO_EXTRA, AXP_NO_EXTRA) && memcmp(out, image, size) == 0, "a lost cell without stretches");

    /* Tables out of order, which leave the output as it came. */
    memset(out, 0x55, sizeof out);
    for (i = 0; i <= AXP_MAX_SPANS; i++) {
        many[i].offset = 4 * i;
        many[i].length = 1;
    }
    expect(is_plain(axp_repair_spans(n, many, AXP_MAX_SPANS + 1, image, size, out, size), AXP_SPANS, 0), "65 pairs");
    spans[0].length = 0;
    expect(is_plain(axp_repair_spans(n, spans, 1, image, size, out, size), AXP_SPANS, 0), "a pair of no cells");
    spans[0].offset = size - 1;
    spans[0].length = 2;
    expect(is_plain(axp_repair_spans(n, spans, 1, image, size, out, size), AXP_SPANS, 0), "a pair beyond the image");
    spans[0].offset = spans[0].length = 4294967295u;
    expect(is_plain(axp_repair_spans(n, spans, 1, image, size, out, size), AXP_SPANS, 0), "a pair far beyond the image");
    spans[0].offset = 2;
    spans[0].length = 4294967295u;
    expect(is_plain(axp_repair_spans(n, spans, 1, image, size, out, size), AXP_SPANS, 0), "a pair that ends where 32 bits wrap");
    spans[0].offset = 10;
    spans[0].length = 3;
    spans[1].offset = 12;
    spans[1].length = 1;
    expect(is_plain(axp_repair_spans(n, spans, 2, image, size, out, size), AXP_SPANS, 0), "pairs that overlap");
    spans[1].offset = 9;
    expect(is_plain(axp_repair_spans(n, spans, 2, image, size, out, size), AXP_SPANS, 0), "pairs out of order");
    spans[0].offset = 0;
    spans[0].length = 4 * l;
    expect(is_plain(axp_repair_spans(n, spans, 1, image, size, out, size), AXP_TOO_MANY, 0), "four tracks of a set as a stretch");
    expect(is_plain(axp_repair_spans(n, spans, 1, image, size, out, size - 1), AXP_OUTPUT_SHORT, 0), "stretches to a short output");
    expect(is_plain(axp_repair_spans(n, spans, 1, image, size - 1, out, size), AXP_INPUT_LENGTH, 0), "stretches of a cell less");
    cells[7] = AXP_LOST + 1;
    expect(is_plain(axp_repair_spans(n, many, AXP_MAX_SPANS + 1, cells, size, out, size), AXP_CELL_VALUE, 7), "a 3 before 65 pairs");
    expect(is_filled(out, 0, sizeof out, 0x55), "output of refused stretches");
}

/* What each ceiling gives: from ceiling `least` on the record, with what is found, and below it 7 with a copy. axp_repair is as ceiling 0,
 * axp_trace as ceiling 1. */
static void each_ceiling(uint32_t n, uint32_t flags, const uint8_t *cells, const uint8_t *record, uint32_t least, axp_result found, const char *what)
{
    static uint8_t out[AXP_MAX_IMAGE_SIZE + 8];
    size_t size = AXP_IMAGE_SIZE(n);
    uint32_t call, ceiling;
    for (call = 0; call < 5; call++) {
        axp_result r;
        memset(out, 0x55, sizeof out);
        ceiling = call < 3 ? call : call - 3;
        if (call < 3)
            r = axp_trace_within(n, flags, ceiling, cells, size, out, sizeof out);
        else
            r = (call == 3 ? axp_repair : axp_trace)(n, flags, cells, size, out, sizeof out);
        if (ceiling < least)
            expect(is_plain(r, AXP_NO_RECORD, 0) && memcmp(out, cells, size) == 0, what);
        else
            expect(is_found(r, found.mask, found.cells, found.extra_a, found.extra_b) && memcmp(out, record, size) == 0, what);
        expect(is_filled(out, size, sizeof out, 0x55), "bytes past an image with a ceiling");
    }
}

/* A record with more and more wrong tracks, by each ceiling, and the ceilings that are refused. */
static void ceilings(uint32_t n, const uint8_t *image)
{
    static const uint32_t high[] = {AXP_MAX_CEILING + 1, 4, 255, 256, 257, 258, 65537, (uint32_t)1 << 31, 4294967295u};
    static uint8_t cells[AXP_MAX_IMAGE_SIZE], out[AXP_MAX_IMAGE_SIZE + 8];
    axp_result found = {AXP_OK, 0, 0, 0, AXP_NO_EXTRA, AXP_NO_EXTRA};
    size_t l = AXP_TRACK_LENGTH(n), size = AXP_IMAGE_SIZE(n), i;
    memcpy(cells, image, size);
    each_ceiling(n, 0, cells, image, 0, found, "a good record with a ceiling");
    cells[4 * l + l / 2] ^= 1;
    found.mask = axp_flag_a(4);
    found.cells = 1;
    each_ceiling(n, axp_flag_a(4), cells, image, 0, found, "a flagged track with a ceiling");
    found.extra_a = 4;
    each_ceiling(n, 0, cells, image, 1, found, "a wrong track with a ceiling");
    cells[9 * l] ^= 1;
    cells[10 * l - 1] ^= 1;
    found.mask |= axp_flag_b(0);
    found.cells = 3;
    found.extra_b = 9;
    each_ceiling(n, 0, cells, image, 2, found, "a wrong track in each set with a ceiling");
    found.extra_b = AXP_NO_EXTRA;
    each_ceiling(n, axp_flag_b(0), cells, image, 1, found, "a wrong track beside a flag with a ceiling");
    /* A lost cell flags its track: beside it one extra in all is allowed, with each ceiling but 0. */
    cells[9 * l] = AXP_LOST;
    each_ceiling(n, 0, cells, image, 1, found, "a wrong track beside a lost cell with a ceiling");
    cells[11 * l] ^= 1;
    each_ceiling(n, 0, cells, image, 3, found, "a wrong track in each set beside a lost cell");
    memcpy(cells, image, size);
    cells[1 * l] ^= 1;
    cells[2 * l] ^= 1;
    each_ceiling(n, 0, cells, image, 3, found, "two wrong tracks of a set with a ceiling");

    /* A ceiling above 2 comes after 5 and before 6 and 7, and leaves the output as it came. */
    memset(out, 0x55, sizeof out);
    for (i = 0; i < sizeof high / sizeof *high; i++) {
        expect(is_plain(axp_trace_within(n, 0, high[i], image, size, out, sizeof out), AXP_CEILING, 0), "a ceiling above 2");
        expect(is_plain(axp_trace_within(n, 0, high[i], cells, size, out, size), AXP_CEILING, 0), "a ceiling above 2 before 7");
        expect(is_plain(axp_trace_within(n, 15, high[i], cells, size, out, size), AXP_CEILING, 0), "a ceiling above 2 before 6");
        expect(is_plain(axp_trace_within(n, axp_flag_b(9), high[i], cells, size, out, size), AXP_FLAG_BIT, 0), "5 before a ceiling above 2");
        expect(is_plain(axp_trace_within(n, 0, high[i], cells, size, out, size - 1), AXP_OUTPUT_SHORT, 0), "3 before a ceiling above 2");
        expect(is_plain(axp_trace_within(n, 0, high[i], cells, size - 1, out, 0), AXP_INPUT_LENGTH, 0), "2 before a ceiling above 2");
        expect(is_plain(axp_trace_within(n, 0, high[i], NULL, 0, NULL, 0), AXP_INPUT_LENGTH, 0), "no image and a ceiling above 2");
        expect(is_plain(axp_trace_within(n, 0, high[i], cells, size, NULL, 0), AXP_OUTPUT_SHORT, 0), "no output and a ceiling above 2");
    }
    cells[7] = AXP_LOST + 1;
    expect(is_plain(axp_trace_within(n, axp_flag_b(9), 3, cells, size, out, size), AXP_CELL_VALUE, 7), "4 before a ceiling above 2");
    cells[7] = 0;
    for (i = 0; i <= AXP_MAX_CEILING; i++) {
        expect(is_plain(axp_trace_within(n, 15, (uint32_t)i, cells, size, out, size), AXP_TOO_MANY, 0), "6 with a ceiling");
        expect(is_plain(axp_trace_within(n, 0, (uint32_t)i, NULL, 0, out, size), AXP_INPUT_LENGTH, 0), "no image with a ceiling");
        expect(is_plain(axp_trace_within(n, 0, (uint32_t)i, cells, size, NULL, 0), AXP_OUTPUT_SHORT, 0), "no output with a ceiling");
    }
    expect(is_filled(out, 0, sizeof out, 0x55), "output of refused ceilings");
}

static void one(uint32_t n)
{
    static uint8_t payload[AXP_MAX_PAYLOAD_SIZE], back[AXP_MAX_PAYLOAD_SIZE + 8];
    static uint8_t image[AXP_MAX_IMAGE_SIZE], out[AXP_MAX_IMAGE_SIZE + 8], damaged[AXP_MAX_IMAGE_SIZE];
    size_t l = AXP_TRACK_LENGTH(n), size = AXP_IMAGE_SIZE(n), bytes = AXP_PAYLOAD_SIZE(n), i;
    axp_result r;
    for (i = 0; i < bytes; i++)
        payload[i] = (uint8_t)(i * 37 + n);
    r = axp_encode(n, payload, bytes, image, size);
    expect(r.answer == AXP_OK && r.extra_a == AXP_NO_EXTRA, "encode");
    memset(back, 0xaa, sizeof back);
    r = axp_read(n, image, size, back, bytes + 8);
    expect(r.answer == AXP_OK && memcmp(back, payload, bytes) == 0 && back[bytes] == 0xaa, "read");
    packing(n, image);
    lost(n, image);
    stretches(n, image);
    ceilings(n, image);
    memcpy(damaged, image, size);
    for (i = 0; i < l; i++) {
        damaged[1 * l + i] ^= i % 3 == 0;
        damaged[7 * l + i] ^= i % 2;
        damaged[12 * l + i] = 0;
    }
    packing(n, damaged);
    memset(out, 0x55, sizeof out);
    r = axp_repair(n, axp_flag_a(1) | axp_flag_a(7) | axp_flag_b(3), damaged, size, out, size + 8);
    expect(r.answer == AXP_OK && memcmp(out, image, size) == 0 && out[size] == 0x55, "repair");
    expect((r.mask & ~(axp_flag_a(1) | axp_flag_a(7) | axp_flag_b(3))) == 0, "mask");
    r = axp_repair(n, axp_flag_a(1), damaged, size, out, size);
    expect(r.answer == AXP_NO_RECORD && memcmp(out, damaged, size) == 0, "repair to 7");
    memcpy(damaged, image, size);
    damaged[4 * l + l / 2] ^= 1;
    r = axp_trace(n, 0, damaged, size, out, size);
    expect(r.answer == AXP_OK && r.cells == 1 && r.extra_a == 4 && r.extra_b == AXP_NO_EXTRA, "trace");
    r = axp_trace(n, 15, damaged, size, out, size);
    expect(r.answer == AXP_TOO_MANY && r.extra_a == AXP_NO_EXTRA, "too many");
    damaged[5] = 3;
    r = axp_repair(n, 0, damaged, size, out, size);
    expect(r.answer == AXP_CELL_VALUE && r.detail == 5, "cell value");
}

/* The bit of each track, and of what is no track. */
static void flags(void)
{
    uint8_t image[AXP_IMAGE_SIZE(1)] = {0}, out[AXP_IMAGE_SIZE(1)];
    unsigned t;
    for (t = 0; t < 9; t++)
        expect(axp_flag_a(t) == (uint32_t)1 << t && axp_flag_b(t) == (uint32_t)1 << (9 + t), "flag of a track");
    for (t = 9; t < 70; t++)
        expect(axp_repair(1, axp_flag_a(t), image, sizeof image, out, sizeof out).answer == AXP_FLAG_BIT &&
               axp_trace(1, axp_flag_b(t), image, sizeof image, out, sizeof out).answer == AXP_FLAG_BIT &&
               axp_trace_within(1, axp_flag_a(t), t % 5, image, sizeof image, out, sizeof out).answer == AXP_FLAG_BIT, "flag of no track");
}

/* Is every cell of the output 0? It is filled again for the next call. */
static int is_zeroed(uint8_t *out, size_t size)
{
    int zeroed = is_filled(out, 0, size, 0);
    memset(out, 0x55, size);
    return zeroed;
}

/* No blocks, beyond what every count is put to: the record is 270 cells, all 0, and carries no byte. A null pointer stands for no bytes. */
static void no_blocks(void)
{
    uint8_t image[AXP_IMAGE_SIZE(0) + 1] = {0}, out[AXP_IMAGE_SIZE(0) + 8], bytes[AXP_PAYLOAD_SIZE(1)];
    size_t l = AXP_TRACK_LENGTH(0), size = AXP_IMAGE_SIZE(0);
    uint32_t g;
    expect(l == 15 && size == 270 && AXP_PAYLOAD_SIZE(0) == 0 && AXP_PACKED_SIZE(0) == 36, "sizes of no blocks");
    memset(out, 0x55, sizeof out);
    memset(bytes, 0xaa, sizeof bytes);
    expect(is_plain(axp_encode(0, NULL, 0, out, size), AXP_OK, 0) && is_zeroed(out, size), "encode no payload");
    expect(is_plain(axp_encode(0, image, 0, out, sizeof out), AXP_OK, 0) && is_zeroed(out, size), "encode a payload of no bytes");
    expect(is_plain(axp_read(0, image, size, NULL, 0), AXP_OK, 0), "read to no output");
    expect(is_plain(axp_read(0, image, size, bytes, 0), AXP_OK, 0), "read to an output of no bytes");
    expect(is_plain(axp_read(0, image, size, bytes, sizeof bytes), AXP_OK, 0), "read no payload");
    expect(is_filled(bytes, 0, sizeof bytes, 0xaa), "bytes past no payload");
    expect(is_plain(axp_repair(0, 0, image, size, out, sizeof out), AXP_OK, 0) && is_zeroed(out, size), "repair zeros");
    expect(is_plain(axp_trace(0, 0, image, size, out, sizeof out), AXP_OK, 0) && is_zeroed(out, size), "trace zeros");

    /* A cell of each track that is 1, then lost: in the last track the last cell. */
    for (g = 0; g < AXP_TRACKS; g++) {
        uint32_t bit = (uint32_t)1 << g, extra_a = g < 9 ? g : AXP_NO_EXTRA, extra_b = g < 9 ? AXP_NO_EXTRA : g;
        uint8_t *cell = image + g * l + (g + 12) % l;
        *cell = 1;
        expect(is_plain(axp_read(0, image, size, NULL, 0), AXP_NO_RECORD, 0), "read a one");
        expect(is_plain(axp_repair(0, 0, image, size, out, size), AXP_NO_RECORD, 0) && memcmp(out, image, size) == 0, "repair a one without its flag");
        expect(is_found(axp_repair(0, bit, image, size, out, size), bit, 1, AXP_NO_EXTRA, AXP_NO_EXTRA) && is_zeroed(out, size), "repair a one");
        expect(is_found(axp_trace(0, 0, image, size, out, size), bit, 1, extra_a, extra_b) && is_zeroed(out, size), "trace a one");
        packing(0, image);
        *cell = AXP_LOST;
        expect(is_found(axp_repair(0, 0, image, size, out, size), bit, 1, AXP_NO_EXTRA, AXP_NO_EXTRA) && is_zeroed(out, size), "repair a lost cell of no blocks");
        expect(is_found(axp_trace(0, 0, image, size, out, size), bit, 1, AXP_NO_EXTRA, AXP_NO_EXTRA) && is_zeroed(out, size), "trace a lost cell of no blocks");
        *cell = 0;
    }
    /* A one in each set, then two in A, at the same position. */
    image[0] = image[17 * l] = 1;
    expect(is_found(axp_trace_within(0, 0, 2, image, size, out, size), axp_flag_a(0) | axp_flag_b(8), 2, 0, 17) && is_zeroed(out, size), "trace a one in each set with ceiling 2");
    expect(is_plain(axp_trace(0, 0, image, size, out, size), AXP_NO_RECORD, 0) && memcmp(out, image, size) == 0, "trace a one in each set");
    image[17 * l] = 0;
    image[8 * l] = 1;
    expect(is_plain(axp_read(0, image, size, NULL, 0), AXP_NO_RECORD, 0), "read two ones");
    expect(is_plain(axp_trace(0, 0, image, size, out, size), AXP_NO_RECORD, 0) && memcmp(out, image, size) == 0, "trace two ones in a set");
    expect(is_plain(axp_trace_within(0, 0, 2, image, size, out, size), AXP_NO_RECORD, 0) && memcmp(out, image, size) == 0, "trace two ones in a set with ceiling 2");

    /* What is refused leaves the output as it came. */
    memset(out, 0x55, size);
    expect(is_plain(axp_encode(0, image, 1, out, size), AXP_INPUT_LENGTH, 0), "encode a byte of no blocks");
    expect(is_plain(axp_encode(0, NULL, 0, out, size - 1), AXP_OUTPUT_SHORT, 0), "encode no blocks to a short output");
    expect(is_plain(axp_encode(0, NULL, 0, NULL, 0), AXP_OUTPUT_SHORT, 0), "encode no blocks to no output");
    expect(is_plain(axp_read(0, image, size - 1, NULL, 0), AXP_INPUT_LENGTH, 0), "read a cell less of no blocks");
    expect(is_plain(axp_read(0, image, size + 1, NULL, 0), AXP_INPUT_LENGTH, 0), "read a cell more of no blocks");
    expect(is_plain(axp_repair(0, 0, image, size, out, size - 1), AXP_OUTPUT_SHORT, 0), "repair no blocks to a short output");
    expect(is_plain(axp_trace(0, 0, image, size + 1, out, size), AXP_INPUT_LENGTH, 0), "trace a cell more of no blocks");
    expect(is_plain(axp_trace(0, 0, NULL, 0, out, size), AXP_INPUT_LENGTH, 0), "trace no image of no blocks");
    expect(is_plain(axp_pack(0, NULL, 0, out, size), AXP_INPUT_LENGTH, 0), "pack no image of no blocks");
    expect(is_plain(axp_unpack(0, NULL, 0, out, size), AXP_INPUT_LENGTH, 0), "unpack no bytes of no blocks");
    expect(is_filled(out, 0, sizeof out, 0x55), "output of refused no blocks, and bytes past an image");
}

/* The block counts that are refused, by each call and before all else. */
static void block_counts(void)
{
    static const uint32_t counts[] = {AXP_MAX_BLOCKS + 1, 512, 65536, (uint32_t)1 << 31, 4294967295u};
    size_t i;
    for (i = 0; i < sizeof counts / sizeof *counts; i++) {
        uint32_t n = counts[i];
        expect(is_plain(axp_encode(n, NULL, 0, NULL, 0), AXP_BLOCK_COUNT, 0), "encode too many blocks");
        expect(is_plain(axp_read(n, NULL, 0, NULL, 0), AXP_BLOCK_COUNT, 0), "read too many blocks");
        expect(is_plain(axp_repair(n, 0, NULL, 0, NULL, 0), AXP_BLOCK_COUNT, 0), "repair too many blocks");
        expect(is_plain(axp_trace(n, 0, NULL, 0, NULL, 0), AXP_BLOCK_COUNT, 0), "trace too many blocks");
        expect(is_plain(axp_trace_within(n, 0, 3, NULL, 0, NULL, 0), AXP_BLOCK_COUNT, 0), "trace too many blocks with a ceiling above 2");
        expect(is_plain(axp_repair_spans(n, NULL, 0, NULL, 0, NULL, 0), AXP_BLOCK_COUNT, 0), "stretches of too many blocks");
        expect(is_plain(axp_pack(n, NULL, 0, NULL, 0), AXP_BLOCK_COUNT, 0), "pack too many blocks");
        expect(is_plain(axp_unpack(n, NULL, 0, NULL, 0), AXP_BLOCK_COUNT, 0), "unpack too many blocks");
    }
    expect(strcmp(axp_strerror(AXP_BLOCK_COUNT), "the block count is above 256") == 0, "text of a block count");
}

/* Is this an empty stretch, with this answer? */
static int is_empty(axp_stretch s, uint32_t answer) { return s.answer == answer && s.offset == 0 && s.length == 0; }

/* Is a file of so many bytes damaged, for each call, at the first index and the last? */
static int is_damaged(const uint8_t *file, size_t len)
{
    axp_counted c = axp_file_count(file, len);
    return c.answer == AXP_DAMAGED_FILE && c.entries == 0 && is_empty(axp_file_entry(file, len, 0), AXP_DAMAGED_FILE) &&
           is_empty(axp_file_entry(file, len, 4294967295u), AXP_DAMAGED_FILE);
}

/* Was the writer refused, with its output left as it came? */
static int is_unwritten(axp_written w, uint32_t answer, const uint8_t *out, size_t len)
{
    return w.answer == answer && w.length == 0 && is_filled(out, 0, len, 0x55);
}

/* Three records in a cartridge file: written, walked and read back, then what is refused. */
static void files(void)
{
    static const uint32_t counts[] = {2, 0, 256};
    static uint8_t payloads[3][AXP_MAX_PAYLOAD_SIZE], entries[3 * AXP_MAX_ENTRY_SIZE], image[AXP_MAX_IMAGE_SIZE], payload[AXP_MAX_PAYLOAD_SIZE];
    static uint8_t file[AXP_MAX_FILE_SIZE + 1], other[AXP_MAX_FILE_SIZE + 1];
    size_t used = 0, size, at, i;
    axp_written w;
    axp_counted c;
    uint32_t k;
    for (k = 0; k < 3; k++) {
        uint8_t *entry = entries + used;
        uint32_t n = counts[k];
        for (i = 0; i < AXP_PAYLOAD_SIZE(n); i++)
            payloads[k][i] = (uint8_t)(31 * i + k);
        entry[0] = 0xfe;
        entry[1] = entry[2] = 0;
        entry[3] = (uint8_t)k;
        entry[4] = (uint8_t)(n >> 8);
        entry[5] = (uint8_t)n;
        expect(axp_encode(n, payloads[k], AXP_PAYLOAD_SIZE(n), image, sizeof image).answer == AXP_OK &&
               axp_pack(n, image, AXP_IMAGE_SIZE(n), entry + 6, AXP_PACKED_SIZE(n)).answer == AXP_OK, "an entry");
        used += AXP_ENTRY_SIZE(n);
    }
    size = AXP_DIRECTORY_SIZE(3) + used;
    memset(file, 0x55, sizeof file);
    w = axp_file_write(3, entries, used, file, sizeof file);
    expect(w.answer == AXP_OK && w.length == size && is_filled(file, size, sizeof file, 0x55), "write a file");
    c = axp_file_count(file, size);
    expect(c.answer == AXP_OK && c.entries == 3, "count the entries");
    for (k = 0, at = AXP_DIRECTORY_SIZE(3); k < 3; k++) {
        axp_stretch s = axp_file_entry(file, size, k);
        uint32_t n = counts[k];
        expect(s.answer == AXP_OK && s.offset == at && s.length == AXP_ENTRY_SIZE(n), "find an entry");
        expect(axp_entry_key(file + s.offset) == 0xfe000000u + k && axp_entry_blocks(file + s.offset) == n, "key and count of an entry");
        expect(axp_unpack(n, file + s.offset + 6, s.length - 6, image, sizeof image).answer == AXP_OK &&
               axp_read(n, image, AXP_IMAGE_SIZE(n), payload, sizeof payload).answer == AXP_OK &&
               memcmp(payload, payloads[k], AXP_PAYLOAD_SIZE(n)) == 0, "the payload of an entry");
        at += s.length;
    }
    expect(is_empty(axp_file_entry(file, size, 3), AXP_OK) && is_empty(axp_file_entry(file, size, 4294967295u), AXP_OK), "past the last entry");
    expect(axp_file_count(file, AXP_MAX_FILE_SIZE).answer == AXP_OK && is_damaged(file, AXP_MAX_FILE_SIZE + 1), "the most bytes of a file");
    expect(axp_file_write(0, NULL, 0, other, 2).length == 2 && axp_file_count(other, 2).answer == AXP_OK && is_empty(axp_file_entry(other, 2, 0), AXP_OK), "no entries");

    /* Damage: what is cut off, and each number of the directory and of a head one more and one less. */
    expect(is_damaged(NULL, 0) && is_damaged(file, 1) && is_damaged(file, 25) && is_damaged(file, size - 1), "a file that is cut");
    memcpy(other, file, size);
    for (i = 0; i < 3; i++) {
        size_t numbers[3];
        unsigned j;
        numbers[0] = 5 + 8 * i;
        numbers[1] = 9 + 8 * i;
        numbers[2] = axp_file_entry(file, size, (uint32_t)i).offset + 5;
        for (j = 0; j < 3; j++) {
            other[numbers[j]]++;
            expect(is_damaged(other, size), "a number one more");
            other[numbers[j]] = (uint8_t)(other[numbers[j]] - 2);
            expect(is_damaged(other, size), "a number one less");
            other[numbers[j]]++;
        }
    }
    other[1] = 65;
    expect(is_damaged(other, size), "65 entries");
    expect(memcmp(other + 2, file + 2, size - 2) == 0, "a file is not written to");

    /* The writer's numbers, each with what a later one is about wrong too. */
    memset(other, 0x55, sizeof other);
    expect(is_unwritten(axp_file_write(4, entries, used, other, 0), AXP_INPUT_LENGTH, other, sizeof other), "an entry of no bytes");
    expect(is_unwritten(axp_file_write(4294967295u, entries, used, other, sizeof other), AXP_INPUT_LENGTH, other, sizeof other), "more entries than bytes");
    expect(is_unwritten(axp_file_write(4294967295u, NULL, 0, NULL, 0), AXP_INPUT_LENGTH, other, sizeof other), "entries of no bytes");
    expect(is_unwritten(axp_file_write(3, entries, used - 1, other, 0), AXP_INPUT_LENGTH, other, sizeof other), "an entry that is cut");
    expect(is_unwritten(axp_file_write(2, entries, used, other, 0), AXP_INPUT_LENGTH, other, sizeof other), "bytes left over");
    expect(is_unwritten(axp_file_write(3, entries, used, other, size - 1), AXP_NO_ROOM, other, sizeof other), "an output one byte short");
    entries[used - 1] |= 1;
    expect(is_unwritten(axp_file_write(3, entries, used, other, 0), AXP_PADDING, other, sizeof other), "a padding bit before an output of no bytes");
    entries[4] = 1;
    entries[5] = 1;
    expect(is_unwritten(axp_file_write(3, entries, used, other, sizeof other), AXP_BLOCK_COUNT, other, sizeof other), "257 blocks in an entry");
    expect(strcmp(axp_strerror(AXP_DAMAGED_FILE), "the file is no cartridge file") == 0, "text of a damaged file");
    expect(strcmp(axp_strerror(AXP_NO_ROOM), "the entries do not fit the file or the output") == 0, "text of no room");
}

int main(void)
{
    static const uint32_t counts[] = {0, 1, 2, 7, 16, 100, 256};
    size_t i;
    for (i = 0; i < sizeof counts / sizeof *counts; i++)
        one(counts[i]);
    no_blocks();
    block_counts();
    flags();
    files();
    expect(axp_repair(1, 0, NULL, 0, NULL, 0).answer == AXP_INPUT_LENGTH, "no image");
    expect(strcmp(axp_strerror(AXP_PADDING), "a padding bit is 1") == 0, "text of an answer");
    expect(strcmp(axp_strerror(AXP_SPANS), "the table of spans is out of order") == 0, "text of a table");
    expect(strcmp(axp_strerror(AXP_CEILING), "the ceiling is above 2") == 0, "text of a ceiling");
    expect(strcmp(axp_strerror(AXP_CEILING + 1), "unknown answer") == 0, "text of no answer");
    expect(sizeof(axp_result) == 24, "size of axp_result");
    expect(sizeof(axp_span) == 8, "size of axp_span");
    expect(sizeof(axp_written) == 8 && sizeof(axp_counted) == 8 && sizeof(axp_stretch) == 12, "sizes of the results of files");
    printf("client: %s\n", failures ? "FAILED" : "ok");
    return failures != 0;
}
