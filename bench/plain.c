#include "plain.h"

#include <stdbool.h>
#include <string.h>

/* Of a set: its data tracks, and all its tracks. Then the lag, all tracks of a record, and a track and the syndromes of the longest. */
enum { DATA = 7, TRACKS = DATA + 2, LAG = 2 * DATA + 1, ALL = 2 * TRACKS, TRACK = 8 * 256 + LAG, ROOM = 4 * TRACK };

/* Are all loops the library's of today? Else they are plainer: those of before its version 0.7.2, by which the marks were set. */
#ifdef CLOSED_FORMS
enum { LATEST = 1 };
#else
enum { LATEST = 0 };
#endif

/* Past every track. */
enum { NONE = 16 };

/* Past every value of a cell: where none may be lost, and where some may. */
enum { BITS = 2, READINGS = AXP_LOST + 1 };

static axp_result answer(uint32_t number, uint32_t detail)
{
    return (axp_result){number, detail, 0, 0, AXP_NO_EXTRA, AXP_NO_EXTRA};
}

/* ---- tracks */

/* Adds a track, modulo 2, to an accumulator, its first cell at `off`. */
static inline void add_track(uint8_t *restrict acc, const uint8_t *restrict track, size_t l, size_t off)
{
    size_t n = l - off;
    acc += off;
    for (size_t k = 0; k < n; k++)
        acc[k] ^= track[k];
}

static inline uint8_t larger(uint8_t x, uint8_t y) { return x < y ? y : x; }

static inline uint8_t highest_few(const uint8_t *s, size_t n)
{
    uint8_t most = 0;
    for (size_t i = 0; i < n; i++)
        most = larger(most, s[i]);
    return most;
}

/* Of many cells the highest is that of two parts, the first cells and the last ones, which may overlap. */
static inline uint8_t highest(const uint8_t *s, size_t n)
{
    if (!LATEST || n < 32)
        return highest_few(s, n);
    size_t h = 32 * ((n + 63) / 64);
    const uint8_t *t = s + n - h;
    uint8_t a = 0, b = 0;
    for (size_t i = 0; i < h; i++) {
        a = larger(a, s[i]);
        b = larger(b, t[i]);
    }
    return larger(a, b);
}

/* Are eight cells 0? */
static inline bool eight_zero(const uint8_t *s)
{
    uint64_t x;
    memcpy(&x, s, sizeof x);
    return x == 0;
}

/* Few cells are tested by eights, of which the last may overlap the one before. */
static inline bool all_zero(const uint8_t *s, size_t n)
{
    if (!LATEST || n < 8 || 64 < n)
        return highest(s, n) == 0;
    for (size_t i = 8; i < n; i += 8)
        if (!eight_zero(s + i - 8))
            return false;
    return eight_zero(s + n - 8);
}

/* The index of the first cell that has none of so many values. There is one. */
static size_t first_bad_cell(const uint8_t *s, uint8_t values)
{
    size_t i = 0;
    while (s[i] < values)
        i++;
    return i;
}

/* Makes a working copy, in which a lost cell is 0: a plain copy where none is lost. */
static inline void copy_known(uint8_t *restrict out, const uint8_t *restrict source, size_t n, bool lost)
{
    if (!lost) {
        memcpy(out, source, n);
        return;
    }
    for (size_t i = 0; i < n; i++)
        out[i] = source[i] == 1;
}

/* The number of places at which two stretches differ: few enough that a byte holds it. */
static inline uint8_t count_few(const uint8_t *a, const uint8_t *b, size_t n)
{
    uint8_t count = 0;
    for (size_t i = 0; i < n; i++)
        if (a[i] != b[i])
            count++;
    return count;
}

static size_t count_differing(const uint8_t *a, const uint8_t *b, size_t n)
{
    size_t count = 0, i = 0;
    for (; 224 <= n - i; i += 224)
        count += count_few(a + i, b + i, 224);
    return count + count_few(a + i, b + i, n - i);
}

/* The number whose four bytes are four cells, the least significant first. */
static inline uint64_t four(const uint8_t *p)
{
    return p[0] | (uint64_t)p[1] << 8 | (uint64_t)p[2] << 16 | (uint64_t)p[3] << 24;
}

/* The byte whose bits are eight cells, the most significant first. One product gathers four cells. */
static inline uint8_t pack(const uint8_t *p)
{
    return (uint8_t)((four(p) * 0x80402010 + four(p + 4) * 0x8040201) >> 24);
}

/* The number whose eight bytes are a byte's bits, the most significant first. One product spreads all bits but the last. */
static inline uint64_t spread(uint8_t byte)
{
    uint64_t b = byte;
    return (b * 0x40201008040201 + (b << 63)) >> 7 & 0x101010101010101;
}

/* Writes the bytes of `x`, the least significant first: one store where that is the order of bytes in memory. */
static inline void put(uint8_t *p, uint64_t x)
{
#if defined(__BYTE_ORDER__) && __BYTE_ORDER__ == __ORDER_LITTLE_ENDIAN__
    memcpy(p, &x, 8);
#else
    for (int k = 0; k < 8; k++)
        p[k] = (uint8_t)(x >> 8 * k);
#endif
}

/* ---- syndromes: the rows are the diagonals of A and B, then their verticals */

static inline size_t track_number(size_t s, size_t t)
{
    return TRACKS * s + t;
}

/* The positions that are summed at a time, and the first cells of a track that are padded. */
enum { RUN = 64, FIRST = 80, PADDED = LAG + FIRST };

/* The sums of a run. */
struct run {
    uint8_t sums[RUN];
};

static inline void add_run(struct run *r, const uint8_t *from)
{
    for (size_t k = 0; k < RUN; k++)
        r->sums[k] ^= from[k];
}

/* The diagonals of set s at the positions from m on, in head order. */
static inline void diagonal_run(uint8_t *restrict row, const uint8_t *restrict image, size_t l, size_t s, size_t m)
{
    struct run r = {0};
    for (size_t t = 0; t <= DATA; t++) {
        add_run(&r, image + track_number(0, t) * l + m - (s == 0 ? t : LAG - t));
        add_run(&r, image + track_number(1, t) * l + m - (s == 1 ? t : LAG - t));
    }
    memcpy(row, r.sums, RUN);
}

/* The verticals of set s there. */
static inline void vertical_run(uint8_t *restrict row, const uint8_t *restrict image, size_t l, size_t s, size_t m)
{
    struct run r = {0};
    for (size_t t = 0; t < TRACKS; t++)
        add_run(&r, image + track_number(s, t) * l + m);
    memcpy(row, r.sums, RUN);
}

/* Puts the sums of an image at the positions from m on into four rows of l, from p on. */
static void put_rows(uint8_t *restrict syn, size_t l, size_t p, const uint8_t *restrict image, size_t image_l, size_t m)
{
    diagonal_run(syn + p, image, image_l, 0, m);
    diagonal_run(syn + l + p, image, image_l, 1, m);
    vertical_run(syn + 2 * l + p, image, image_l, 0, m);
    vertical_run(syn + 3 * l + p, image, image_l, 1, m);
}

/* Copies so many cells as the first n and the last m. */
static inline void copy_ends(uint8_t *restrict out, const uint8_t *restrict track, size_t l, size_t n, size_t m)
{
    memcpy(out, track, n);
    memcpy(out + l - m, track + l - m, m);
}

/* Copies the first of so many cells, or all where there are fewer. */
static inline void copy_first(uint8_t *restrict out, const uint8_t *restrict track, size_t l)
{
    if (FIRST <= l)
        memcpy(out, track, FIRST);
    else if (LATEST && 64 <= l)
        copy_ends(out, track, l, 64, 16);
    else if (LATEST && 48 <= l)
        copy_ends(out, track, l, 48, 16);
    else if (LATEST && 32 <= l)
        copy_ends(out, track, l, 32, 16);
    else if (LATEST && 16 <= l)
        copy_ends(out, track, l, 16, 16);
    else if (LATEST && 8 <= l)
        copy_ends(out, track, l, 8, 8);
    else
        memcpy(out, track, l);
}

/* The first cells of each track behind zeros, for the positions where a diagonal goes back past the start. */
static inline void pad(uint8_t *restrict padded, const uint8_t *restrict image, size_t l)
{
    for (size_t g = 0; g < ALL; g++)
        copy_first(padded + g * PADDED + LAG, image + g * l, l);
}

/* Puts the sums at the positions from m on into four rows of w, from p on. */
static inline void put_sums(uint8_t *restrict rows, size_t w, size_t p, const uint8_t *restrict image, const uint8_t *restrict padded, size_t l,
                            size_t m)
{
    if (m < LAG)
        put_rows(rows, w, p, padded, PADDED, LAG + m);
    else
        put_rows(rows, w, p, image, l, m);
}

/* Where the run of position m begins: there or, where fewer positions are left, so far before that it ends with the track. */
static inline size_t run_start(size_t l, size_t m) { return l < RUN ? 0 : l - RUN < m ? l - RUN : m; }

static void syndromes(const uint8_t *restrict image, size_t l, uint8_t *restrict syn)
{
    uint8_t padded[ALL * PADDED] = {0};
    pad(padded, image, l);
    if (l < RUN) {
        uint8_t rows[4 * RUN];
        put_sums(rows, RUN, 0, image, padded, l, 0);
        for (size_t r = 0; r < 4; r++)
            memcpy(syn + r * l, rows + r * RUN, l);
        return;
    }
    for (size_t m = 0; m < l; m += RUN) {
        size_t p = run_start(l, m);
        put_sums(syn, l, p, image, padded, l, p);
    }
}

/* Adds a bit to a syndrome, where the row has it. */
static inline void turn(uint8_t *row, size_t l, size_t m, uint8_t w)
{
    if (m < l)
        row[m] ^= w;
}

/* Adds a bit to one cell, and to the syndromes that it stands in. */
static void flip(uint8_t *restrict out, uint8_t *restrict syn, size_t l, size_t s, size_t t, size_t p, uint8_t w)
{
    if (!LATEST && w == 0)
        return;
    out[track_number(s, t) * l + p] ^= w;
    turn(syn + (2 + s) * l, l, p, w);
    if (t <= DATA) {
        turn(syn + s * l, l, p + t, w);
        turn(syn + (1 - s) * l, l, p + LAG - t, w);
    }
}

/* A track's cells in the image, and its cells' sums on its set's diagonal, on the other set's and on its vertical. */
typedef struct {
    uint8_t *cell, *own, *other, *vertical;
} line;

/* The line of track t of a set. A number past the set's tracks has none. */
static line find_line(uint8_t *out, uint8_t *syn, size_t l, size_t s, size_t t)
{
    if (t >= TRACKS)
        return (line){0};
    return (line){out + track_number(s, t) * l, syn + s * l + t, syn + (1 - s) * l + LAG - t, syn + (2 + s) * l};
}

/* Adds a bit to a cell at a position of the data, and to the sums that it stands in. The same is done for 0 and for 1. */
static inline void add_cell(line x, size_t t, size_t p, uint8_t w)
{
    x.cell[p] ^= w;
    x.vertical[p] ^= w;
    if (t <= DATA) {
        x.own[p] ^= w;
        x.other[p] ^= w;
    }
}

static bool tail_zero(const uint8_t *out, size_t l, size_t s)
{
    for (size_t t = 1; t <= DATA; t++)
        if (!all_zero(out + track_number(s, t) * l + l - LAG, LAG))
            return false;
    return true;
}

static bool is_good(const uint8_t *out, const uint8_t *syn, size_t l)
{
    return all_zero(syn, 4 * l) && tail_zero(out, l, 0) && tail_zero(out, l, 1);
}

/* ---- the solver */

/* The flagged tracks of a set: the lowest, the highest data track, and the one that is left. */
typedef struct {
    size_t low, high, last;
} plan;

static plan make_plan(const uint8_t *marks, size_t s)
{
    size_t i = NONE, j = NONE, k = NONE;
    marks += track_number(s, 0);
    for (size_t t = 0; t < TRACKS; t++)
        if (marks[t] == 1) {
            i = j;
            j = k;
            k = t;
        }
    if (i == NONE)
        return (plan){j, NONE, k};
    if (k == TRACKS - 1)
        return (plan){i, j, k};
    return (plan){i, k, j};
}

/* Makes a cell right by the vertical. */
static void by_vertical(uint8_t *restrict out, uint8_t *restrict syn, size_t l, size_t s, size_t t, size_t p)
{
    if (t < TRACKS)
        flip(out, syn, l, s, t, p, syn[(2 + s) * l + p]);
}

/* Makes a cell right in the tail: of track 0 by the diagonal of its set, 0 in a data track, else by the vertical. */
static void by_tail(uint8_t *restrict out, uint8_t *restrict syn, size_t l, size_t s, size_t t, size_t p)
{
    if (t == 0)
        flip(out, syn, l, s, t, p, syn[s * l + p]);
    else if (t <= DATA)
        flip(out, syn, l, s, t, p, out[track_number(s, t) * l + p]);
    else
        by_vertical(out, syn, l, s, t, p);
}

/* Makes a cell at a position of the data right by the diagonal of its own set. */
static inline void low_at(line x, size_t t, size_t p)
{
    if (t <= DATA)
        add_cell(x, t, p, x.own[p]);
}

/* The same by the diagonal of the other set. */
static inline void high_at(line x, size_t t, size_t p)
{
    if (t <= DATA)
        add_cell(x, t, p, x.other[p]);
}

/* The same by the vertical. */
static inline void last_at(line x, size_t t, size_t p)
{
    if (t < TRACKS)
        add_cell(x, t, p, x.vertical[p]);
}

static void tail_step(uint8_t *restrict out, uint8_t *restrict syn, size_t l, size_t s, plan q, size_t m)
{
    by_tail(out, syn, l, s, q.low, m);
    by_tail(out, syn, l, s, q.high, m);
    by_tail(out, syn, l, s, q.last, m);
}

/* Are the four sums at m 0? */
static inline bool sums_zero(const uint8_t *syn, size_t l, size_t m)
{
    return (syn[m] | syn[l + m] | syn[2 * l + m] | syn[3 * l + m]) == 0;
}

/* Makes one track of a set right by the verticals, at the positions of the data from `from` up to `to`. */
static void verticals(uint8_t *restrict out, uint8_t *restrict syn, size_t l, size_t s, size_t t, size_t from, size_t to)
{
    line x = find_line(out, syn, l, s, t);
    for (size_t p = from; p < to; p++)
        last_at(x, t, p);
}

/* The same at every position. */
static void ahead(uint8_t *restrict out, uint8_t *restrict syn, size_t l, size_t s, size_t t)
{
    verticals(out, syn, l, s, t, 0, l - LAG);
    for (size_t p = l - LAG; p < l; p++)
        by_vertical(out, syn, l, s, t, p);
}

/* Are all syndromes of the columns from `from` up to `to` 0? */
static bool columns_zero(const uint8_t *syn, size_t l, size_t from, size_t to)
{
    size_t n = to - from;
    return all_zero(syn + from, n) && all_zero(syn + l + from, n) && all_zero(syn + 2 * l + from, n) &&
           all_zero(syn + 3 * l + from, n);
}

/* A position before which nothing is to be done: all syndromes are 0, up to a lag past each position. */
static size_t quiet(const uint8_t *syn, size_t l)
{
    size_t m = 0;
    while (m + 64 <= l - LAG && columns_zero(syn, l, m, m + 64 + LAG))
        m += 64;
    return m;
}

/* Does a plan name one track at the most? */
static bool is_single(plan q)
{
    return q.low >= TRACKS && q.high >= TRACKS;
}

/* The data where neither set has more than one track to be made right. False: no record fits. */
static bool solve_singles(uint8_t *restrict out, uint8_t *restrict syn, size_t l, plan a, plan b)
{
    size_t positions = l - LAG, m = quiet(syn, l);
    while (m < positions) {
        size_t end = positions - m < 128 ? positions : m + 128;
        verticals(out, syn, l, 0, a.last, m, end);
        verticals(out, syn, l, 1, b.last, m, end);
        if (!columns_zero(syn, l, m, end))
            return false;
        m = end;
    }
    return true;
}

/* The data of one set, where the other set is right. */
static bool solve_set(uint8_t *restrict out, uint8_t *restrict syn, size_t l, size_t s, plan q)
{
    line low = find_line(out, syn, l, s, q.low);
    line high = find_line(out, syn, l, s, q.high);
    line last = find_line(out, syn, l, s, q.last);
    for (size_t m = quiet(syn, l); m < l - LAG; m++) {
        low_at(low, q.low, m);
        high_at(high, q.high, m);
        last_at(last, q.last, m);
        if (!sums_zero(syn, l, m))
            return false;
    }
    return true;
}

/* The data of both sets, of which neither has three tracks to be made right. */
static bool solve_pairs(uint8_t *restrict out, uint8_t *restrict syn, size_t l, plan a, plan b)
{
    line a_low = find_line(out, syn, l, 0, a.low);
    line a_last = find_line(out, syn, l, 0, a.last);
    line b_low = find_line(out, syn, l, 1, b.low);
    line b_last = find_line(out, syn, l, 1, b.last);
    for (size_t m = quiet(syn, l); m < l - LAG; m++) {
        low_at(a_low, a.low, m);
        last_at(a_last, a.last, m);
        low_at(b_low, b.low, m);
        last_at(b_last, b.last, m);
        if (!sums_zero(syn, l, m))
            return false;
    }
    return true;
}

/* The positions of the data. Beside more tracks of a set, the one of the other set is made right first. */
static bool solve_data(uint8_t *restrict out, uint8_t *restrict syn, size_t l, plan a, plan b)
{
    if (is_single(a)) {
        if (is_single(b))
            return solve_singles(out, syn, l, a, b);
        ahead(out, syn, l, 0, a.last);
        return solve_set(out, syn, l, 1, b);
    }
    if (is_single(b)) {
        ahead(out, syn, l, 1, b.last);
        return solve_set(out, syn, l, 0, a);
    }
    if (a.high < TRACKS || b.high < TRACKS)
        return false;
    return solve_pairs(out, syn, l, a, b);
}

/* Makes the named tracks of a working copy right. True: the copy is now a good record. False: there is none. */
static bool solve(uint8_t *restrict out, uint8_t *restrict syn, size_t l, plan a, plan b)
{
    if (!solve_data(out, syn, l, a, b))
        return false;
    for (size_t m = l - LAG; m < l; m++) {
        tail_step(out, syn, l, 0, a, m);
        tail_step(out, syn, l, 1, b, m);
    }
    return is_good(out, syn, l);
}

/* ---- checks */

/* Numbers 1 to 3. */
static axp_result check_sizes(uint32_t blocks, size_t input, size_t wanted, size_t room, size_t size)
{
    if (blocks > 256)
        return answer(1, 0);
    if (input != wanted)
        return answer(2, 0);
    if (room < size)
        return answer(3, 0);
    return answer(0, 0);
}

/* Numbers 1 to 4, and where none applies: is a cell lost? */
static axp_result check_image(uint32_t blocks, const uint8_t *image, size_t len, size_t room, size_t size, uint8_t values,
                              bool *lost)
{
    axp_result r = check_sizes(blocks, len, AXP_IMAGE_SIZE(blocks), room, size);
    if (r.answer)
        return r;
    uint8_t most = highest(image, len);
    if (most >= values)
        return answer(4, (uint32_t)first_bad_cell(image, values));
    *lost = most == AXP_LOST;
    return r;
}

/* Numbers 1 to 5, and the same. */
static axp_result check(uint32_t blocks, uint32_t flags, const uint8_t *image, size_t len, size_t room, bool *lost)
{
    axp_result r = check_image(blocks, image, len, room, AXP_IMAGE_SIZE(blocks), READINGS, lost);
    if (r.answer)
        return r;
    if (flags >> ALL)
        return answer(5, 0);
    return r;
}

/* ---- encoder and reader */

/* The number of the track along which byte c of each block goes. */
static inline size_t data_number(size_t c)
{
    return c < DATA ? c + 1 : c + 3;
}

/* Writes the data tracks, and 0 to all other tracks. */
static void write_data(uint8_t *restrict out, size_t l, const uint8_t *restrict payload, size_t blocks)
{
    memset(out, 0, ALL * l);
    for (size_t c = 0; c < 2 * DATA; c++) {
        uint8_t *track = out + data_number(c) * l;
        for (size_t b = 0; b < blocks; b++)
            put(track + 8 * b, spread(payload[2 * DATA * b + c]));
    }
}

/* The fifteen places of a register, or what enters them: eight in one word and seven in another, the first least significant. */
struct places {
    uint64_t low, high;
};

/* The registers of A and of B, or what enters them. */
struct registers {
    struct places a, b;
};

/* A register shifted by one place towards its head, and a cell added to each place. */
static inline struct places shifted(struct places r, struct places cells)
{
    return (struct places){(r.low >> 8 | r.high << 56) ^ cells.low, r.high >> 8 ^ cells.high};
}

/* Bit k of the byte at each place. */
static inline struct places bits_at(struct places bytes, unsigned k)
{
    const uint64_t ones = 0x101010101010101;
    return (struct places){bytes.low >> k & ones, bytes.high >> k & ones};
}

/* The registers after a position: track 0 of a set is the head of its register, and enters the other's last place. */
static inline struct registers step(struct registers r, struct registers cells)
{
    cells.a.high |= (r.b.low & 0xff) << 48;
    cells.b.high |= (r.a.low & 0xff) << 48;
    return (struct registers){shifted(r.a, cells.a), shifted(r.b, cells.b)};
}

/* The order of a register's places: tracks 1 to 7 of its own set, then 7 to 1 of the other. */
static inline struct places ordered(const uint8_t *own, const uint8_t *across)
{
    uint8_t bytes[16] = {0};
    memcpy(bytes, own, DATA);
    for (size_t i = 0; i < DATA; i++)
        bytes[DATA + i] = across[DATA - 1 - i];
    return (struct places){four(bytes) | four(bytes + 4) << 32, four(bytes + 8) | four(bytes + 12) << 32};
}

/* A position passes: the heads are its tracks 0, and its other cells are bit k of each byte. */
static inline struct registers pass(uint8_t *a, uint8_t *b, struct registers r, struct registers bytes, unsigned k)
{
    *a = (uint8_t)r.a.low;
    *b = (uint8_t)r.b.low;
    return step(r, (struct registers){bits_at(bytes.a, k), bits_at(bytes.b, k)});
}

/* The fifteen places, one a byte. */
static inline void put_places(uint8_t *to, struct places r)
{
    memcpy(to, &r.low, 8);
    memcpy(to + 8, &r.high, 7);
}

/* Tracks 0 of both sets for a payload: its blocks pass, and then the tail. */
static void carry(uint8_t *restrict a, uint8_t *restrict b, const uint8_t *restrict payload, size_t blocks)
{
    struct registers r = {{0, 0}, {0, 0}}, none = {{0, 0}, {0, 0}};
    for (size_t block = 0; block < blocks; block++) {
        const uint8_t *p = payload + 2 * DATA * block;
        struct registers bytes = {ordered(p, p + DATA), ordered(p + DATA, p)};
        for (size_t j = 0; j < 8; j++)
            r = pass(a + 8 * block + j, b + 8 * block + j, r, bytes, 7 - (unsigned)j);
    }
    if (LATEST) { /* no cells enter but tracks 0, behind places that are still to pass: they are the places as they stand */
        put_places(a + 8 * blocks, r.a);
        put_places(b + 8 * blocks, r.b);
        return;
    }
    for (size_t m = 8 * blocks; m < 8 * blocks + LAG; m++)
        r = pass(a + m, b + m, r, none, 0);
}

/* Writes the check tracks of a set. Track 0 is at hand, and the vertical track is the sum of it and of the data tracks, whose tails
 * are 0. */
static void write_checks(uint8_t *restrict out, uint8_t *restrict first, size_t l, int s)
{
    memcpy(out + track_number(s, 0) * l, first, l);
    for (int t = 1; t <= DATA; t++)
        add_track(first, out + track_number(s, t) * l, LATEST ? l - LAG : l, 0);
    memcpy(out + track_number(s, DATA + 1) * l, first, l);
}

axp_result plain_encode(uint32_t blocks, const uint8_t *restrict payload, size_t payload_len, uint8_t *restrict out, size_t out_len)
{
    uint8_t a[TRACK], b[TRACK];
    axp_result r = check_sizes(blocks, payload_len, AXP_PAYLOAD_SIZE(blocks), out_len, AXP_IMAGE_SIZE(blocks));
    if (r.answer)
        return r;
    size_t l = AXP_TRACK_LENGTH(blocks);
    write_data(out, l, payload, blocks);
    carry(a, b, payload, blocks);
    write_checks(out, a, l, 0);
    write_checks(out, b, l, 1);
    return r;
}

static void read_data(uint8_t *restrict out, size_t l, const uint8_t *restrict image, size_t blocks)
{
    for (size_t c = 0; c < 2 * DATA; c++) {
        const uint8_t *track = image + data_number(c) * l;
        for (size_t b = 0; b < blocks; b++)
            out[2 * DATA * b + c] = pack(track + 8 * b);
    }
}

axp_result plain_read(uint32_t blocks, const uint8_t *restrict image, size_t image_len, uint8_t *restrict out, size_t out_len)
{
    uint8_t syn[ROOM];
    bool lost;
    axp_result r = check_image(blocks, image, image_len, out_len, AXP_PAYLOAD_SIZE(blocks), READINGS, &lost);
    if (r.answer)
        return r;
    if (lost)
        return answer(7, 0);
    size_t l = AXP_TRACK_LENGTH(blocks);
    syndromes(image, l, syn);
    if (!is_good(image, syn, l))
        return answer(7, 0);
    read_data(out, l, image, blocks);
    return r;
}

/* ---- packed form */

/* The number of the track at a place in head order. */
static inline size_t head_number(size_t p)
{
    return track_number(p % 2, p / 2);
}

/* Packs a track: so many full bytes, and the last seven cells with the padding bit. */
static void pack_track(uint8_t *restrict bytes, const uint8_t *restrict track, size_t full)
{
    uint8_t eight[8] = {0};
    for (size_t j = 0; j < full; j++)
        bytes[j] = pack(track + 8 * j);
    memcpy(eight, track + 8 * full, 7);
    bytes[full] = pack(eight);
}

/* Unpacks a track. */
static void unpack_track(uint8_t *restrict track, const uint8_t *restrict bytes, size_t full)
{
    uint8_t eight[8];
    for (size_t j = 0; j < full; j++)
        put(track + 8 * j, spread(bytes[j]));
    put(eight, spread(bytes[full]));
    memcpy(track + 8 * full, eight, 7);
}

axp_result plain_pack(uint32_t blocks, const uint8_t *restrict image, size_t image_len, uint8_t *restrict out, size_t out_len)
{
    bool lost;
    axp_result r = check_image(blocks, image, image_len, out_len, AXP_PACKED_SIZE(blocks), BITS, &lost);
    if (r.answer)
        return r;
    size_t l = AXP_TRACK_LENGTH(blocks), n = (size_t)blocks + 2;
    for (size_t p = 0; p < ALL; p++)
        pack_track(out + p * n, image + head_number(p) * l, n - 1);
    return r;
}

/* Is every padding bit 0? */
static bool padding_zero(const uint8_t *packed, size_t n)
{
    bool zero = true;
    for (size_t p = 0; p < ALL && (LATEST || zero); p++)
        if (packed[p * n + n - 1] % 2 == 1)
            zero = false;
    return zero;
}

axp_result plain_unpack(uint32_t blocks, const uint8_t *restrict packed, size_t packed_len, uint8_t *restrict out, size_t out_len)
{
    axp_result r = check_sizes(blocks, packed_len, AXP_PACKED_SIZE(blocks), out_len, AXP_IMAGE_SIZE(blocks));
    if (r.answer)
        return r;
    size_t l = AXP_TRACK_LENGTH(blocks), n = (size_t)blocks + 2;
    if (!padding_zero(packed, n))
        return answer(8, 0);
    for (size_t p = 0; p < ALL; p++)
        unpack_track(out + head_number(p) * l, packed + p * n, n - 1);
    return r;
}

/* ---- flags */

/* The code of a flagged tracks in set A and b in set B, a by row and b along it. */
static const uint8_t codes[10][10] = {
    {5, 4, 2, 1}, {4, 4, 1, 1}, {3, 1, 1}, {1, 1},
};

/* The marks of a flag word: one a track number. */
static void marks_of(uint32_t flags, uint8_t marks[ALL])
{
    for (size_t g = 0; g < ALL; g++) {
        marks[g] = flags & 1;
        flags >>= 1;
    }
}

/* Marks the tracks that have a lost cell. */
static void mark_lost(uint8_t marks[ALL], const uint8_t *image, size_t l)
{
    for (size_t g = 0; g < ALL; g++)
        if (highest(image + g * l, l) == AXP_LOST)
            marks[g] = 1;
}

static size_t count_marks(const uint8_t *marks, size_t n)
{
    size_t count = 0;
    for (size_t t = 0; t < n; t++)
        count += marks[t] == 1;
    return count;
}

static uint8_t code_of(const uint8_t marks[ALL])
{
    return codes[count_marks(marks, TRACKS)][count_marks(marks + TRACKS, TRACKS)];
}

/* ---- changed cells */

static size_t count_track(const uint8_t *image, const uint8_t *out, size_t l, size_t g)
{
    return count_differing(image + g * l, out + g * l, l);
}

#ifndef CLOSED_FORMS
/* Makes the marked tracks of a working copy anew, of which alone any are changed. */
static void restore(const uint8_t marks[ALL], const uint8_t *restrict image, uint8_t *restrict out, size_t l, bool lost)
{
    for (size_t g = 0; g < ALL; g++)
        if (marks[g] == 1)
            copy_known(out + g * l, image + g * l, l, lost);
}
#endif

/* The extra that is named: a track that was changed. */
static uint32_t named(const uint8_t *image, const uint8_t *out, size_t l, size_t first, size_t e)
{
    if (e == 0)
        return AXP_NO_EXTRA;
    size_t g = first + e - 1;
    return count_track(image, out, l, g) == 0 ? AXP_NO_EXTRA : (uint32_t)g;
}

/* The answer 0 with what was changed, where marked tracks alone were. The extras of a choice are named. */
static axp_result answer_of(const uint8_t marks[ALL], const uint8_t *image, const uint8_t *out, size_t l, size_t a, size_t b)
{
    axp_result r = answer(0, 0);
    for (size_t g = 0; g < ALL; g++) {
        size_t changed = marks[g] == 1 ? count_track(image, out, l, g) : 0;
        r.cells += (uint32_t)changed;
        if (changed)
            r.mask |= (uint32_t)1 << g;
    }
    r.extra_a = named(image, out, l, 0, a);
    r.extra_b = named(image, out, l, TRACKS, b);
    return r;
}

/* ---- repairer */

#ifndef CLOSED_FORMS

/* Makes the image of a working copy. */
static void put_back(const uint8_t *restrict image, uint8_t *restrict out, size_t len, bool lost)
{
    if (lost)
        memcpy(out, image, len);
}

/* Solves a working copy by the marked tracks. Where there is no good record the output is the working copy again. */
static bool work(const uint8_t marks[ALL], const uint8_t *restrict image, uint8_t *restrict out, uint8_t *restrict syn, size_t l,
                 bool lost)
{
    plan a = make_plan(marks, 0), b = make_plan(marks, 1);
    if (solve(out, syn, l, a, b))
        return true;
    restore(marks, image, out, l, lost);
    return false;
}

axp_result plain_repair(uint32_t blocks, uint32_t flags, const uint8_t *restrict image, size_t image_len, uint8_t *restrict out,
                        size_t out_len)
{
    uint8_t marks[ALL], syn[ROOM];
    bool lost;
    axp_result r = check(blocks, flags, image, image_len, out_len, &lost);
    if (r.answer)
        return r;
    size_t l = AXP_TRACK_LENGTH(blocks);
    marks_of(flags, marks);
    if (lost)
        mark_lost(marks, image, l);
    if (code_of(marks) == 0)
        return answer(6, 0);
    copy_known(out, image, image_len, lost);
    syndromes(out, l, syn);
    if (work(marks, image, out, syn, l, lost))
        return answer_of(marks, image, out, l, 0, 0);
    put_back(image, out, image_len, lost);
    return answer(7, 0);
}

#endif

/* ---- tracers */

/* The extras that a code allows in A, in B and in all. */
static const uint8_t most_a[6] = {0, 0, 1, 0, 1, 1};
static const uint8_t most_b[6] = {0, 0, 0, 1, 1, 1};
static const uint8_t most[6] = {0, 0, 1, 1, 1, 2};

/* The extras that a code and a ceiling both allow in A, in B and in all. */
struct reach {
    uint32_t a, b, all;
};

static inline uint32_t lower(uint32_t x, uint32_t y)
{
    return x < y ? x : y;
}

static struct reach reach_of(uint8_t code, uint32_t ceiling)
{
    return (struct reach){lower(most_a[code], ceiling), lower(most_b[code], ceiling), lower(most[code], ceiling)};
}

/* The marks with the extras of a choice: 0 for none, t + 1 for track t. */
static void widen(const uint8_t marks[ALL], size_t a, size_t b, uint8_t wide[ALL])
{
    memcpy(wide, marks, ALL);
    if (a)
        wide[a - 1] = 1;
    if (b)
        wide[TRACKS + b - 1] = 1;
}

/* Is an extra none, or a track without a mark? */
static inline bool is_free(const uint8_t *marks, size_t e)
{
    return e == 0 || marks[e - 1] != 1;
}

/* Does a reach allow a choice, and are its extras unflagged tracks? */
static bool allows(struct reach reach, const uint8_t marks[ALL], size_t a, size_t b)
{
    uint32_t in_a = a != 0, in_b = b != 0;
    if (reach.a < in_a || reach.b < in_b || reach.all < in_a + in_b)
        return false;
    return is_free(marks, a) && is_free(marks + TRACKS, b);
}

/* The last choice in A that a reach may allow, and the last in B beside a in A. */
static inline size_t last_a(struct reach reach)
{
    return reach.a == 0 ? 0 : TRACKS;
}

static inline size_t last_b(struct reach reach, size_t a)
{
    return reach.b == 0 || (a != 0 && reach.all < 2) ? 0 : TRACKS;
}

#ifdef CLOSED_FORMS
#include "closed.h"
#else

axp_result plain_trace_within(uint32_t blocks, uint32_t flags, uint32_t ceiling, const uint8_t *restrict image, size_t image_len,
                              uint8_t *restrict out, size_t out_len)
{
    uint8_t marks[ALL], wide[ALL], first[ROOM], syn[ROOM];
    bool lost;
    axp_result r = check(blocks, flags, image, image_len, out_len, &lost);
    if (r.answer)
        return r;
    if (ceiling > AXP_MAX_CEILING)
        return answer(12, 0);
    size_t l = AXP_TRACK_LENGTH(blocks);
    marks_of(flags, marks);
    if (lost)
        mark_lost(marks, image, l);
    uint8_t code = code_of(marks);
    if (code == 0)
        return answer(6, 0);
    struct reach reach = reach_of(code, ceiling);
    copy_known(out, image, image_len, lost);
    syndromes(out, l, first);
    for (size_t a = 0; a <= last_a(reach); a++)
        for (size_t b = 0; b <= last_b(reach, a); b++) {
            if (!allows(reach, marks, a, b))
                continue;
            widen(marks, a, b, wide);
            memcpy(syn, first, 4 * l);
            if (work(wide, image, out, syn, l, lost))
                return answer_of(wide, image, out, l, a, b);
        }
    put_back(image, out, image_len, lost);
    return answer(7, 0);
}

#endif

/* One extra in all. */
axp_result plain_trace(uint32_t blocks, uint32_t flags, const uint8_t *restrict image, size_t image_len, uint8_t *restrict out,
                       size_t out_len)
{
    return plain_trace_within(blocks, flags, 1, image, image_len, out, out_len);
}

/* ---- repairer with flags by stretch */

/* Number 9 aside: is a table in order, for an image of so many cells? */
static bool is_right(const axp_span *spans, size_t count, size_t cells)
{
    size_t end = 0;
    if (count > AXP_MAX_SPANS)
        return false;
    for (size_t k = 0; k < count; k++) {
        size_t from = spans[k].offset, size = spans[k].length;
        if (size == 0 || from < end)
            return false;
        end = from + size;
        if (cells < end)
            return false;
    }
    return true;
}

/* Flags the cells of a table in the words of the positions: bit g of word m for cell m of track number g. */
static void flag_pairs(const axp_span *spans, size_t count, size_t l, uint32_t *words)
{
    for (size_t k = 0; k < count; k++) {
        size_t at = spans[k].offset, to = at + spans[k].length;
        while (at < to) {
            size_t m = at % l, n = to - at < l - m ? to - at : l - m;
            uint32_t bit = (uint32_t)1 << at / l;
            for (size_t i = 0; i < n; i++)
                words[m + i] |= bit;
            at += n;
        }
    }
}

/* Flags the lost cells, not their tracks. */
static void flag_lost(const uint8_t *image, size_t l, uint32_t *words)
{
    for (size_t g = 0; g < ALL; g++)
        if (highest(image + g * l, l) == AXP_LOST)
            for (size_t m = 0; m < l; m++)
                words[m] |= image[g * l + m] == AXP_LOST ? (uint32_t)1 << g : 0;
}

/* The tracks with a flagged cell in the 16 positions from each on, and whether all have a code. */
static bool find_windows(const uint32_t *restrict words, uint32_t *restrict near, size_t l)
{
    uint32_t last = 0;
    memcpy(near, words, l * sizeof *near);
    for (size_t d = 1; d <= 8; d *= 2)
        for (size_t m = 0; m + d < l; m++)
            near[m] |= near[m + d];
    for (size_t m = 0; m < l; m++)
        if (near[m] != last) {
            uint8_t marks[ALL];
            marks_of(near[m], marks);
            if (code_of(marks) == 0)
                return false;
            last = near[m];
        }
    return true;
}

/* Where the run of positions with the same words ends. */
static size_t run_end(const uint32_t *words, const uint32_t *near, size_t from, size_t to)
{
    size_t m = from + 1;
    while (m < to && words[m] == words[from] && near[m] == near[from])
        m++;
    return m;
}

/* The one marked track of a set, or none. */
static size_t one_track(const uint8_t *marks, size_t s)
{
    plan q = make_plan(marks, s);
    return is_single(q) ? q.last : NONE;
}

/* Makes a track right by the verticals, at positions of the data or of the tail. */
static void by_verticals(uint8_t *restrict out, uint8_t *restrict syn, size_t l, size_t s, size_t t, size_t from, size_t to)
{
    if (from < l - LAG)
        verticals(out, syn, l, s, t, from, to);
    else
        for (size_t p = from; p < to; p++)
            by_vertical(out, syn, l, s, t, p);
}

/* The sets with one flagged cell at a position of the data or of the tail, run by run. */
static void ones_part(uint8_t *restrict out, uint8_t *restrict syn, size_t l, const uint32_t *words, const uint32_t *near, size_t from,
                      size_t to)
{
    for (size_t m = from, end; m < to; m = end) {
        uint8_t marks[ALL];
        end = run_end(words, near, m, to);
        if (words[m] == 0)
            continue;
        marks_of(words[m], marks);
        by_verticals(out, syn, l, 0, one_track(marks, 0), m, end);
        by_verticals(out, syn, l, 1, one_track(marks, 1), m, end);
    }
}

static size_t if_marked(const uint8_t *marks, size_t s, size_t t)
{
    return t < TRACKS && marks[track_number(s, t)] == 1 ? t : NONE;
}

/* The window's plan without the tracks that are not flagged at the position; of one flagged cell nothing is left to do. */
static plan plan_at(const uint8_t *marks, const uint8_t *near, size_t s)
{
    if (is_single(make_plan(marks, s)))
        return (plan){NONE, NONE, NONE};
    plan q = make_plan(near, s);
    return (plan){if_marked(marks, s, q.low), if_marked(marks, s, q.high), if_marked(marks, s, q.last)};
}

/* Has each set at most one flagged cell, by a word? */
static inline bool at_most_one(uint32_t word)
{
    uint32_t a = word & ((1 << TRACKS) - 1), b = word >> TRACKS;
    return (a & (a - 1)) == 0 && (b & (b - 1)) == 0;
}

static void set_run(uint8_t *restrict out, uint8_t *restrict syn, size_t l, size_t s, plan q, size_t from, size_t to)
{
    line low = find_line(out, syn, l, s, q.low), high = find_line(out, syn, l, s, q.high), last = find_line(out, syn, l, s, q.last);
    for (size_t m = from; m < to; m++) {
        low_at(low, q.low, m);
        high_at(high, q.high, m);
        last_at(last, q.last, m);
    }
}

static void both_run(uint8_t *restrict out, uint8_t *restrict syn, size_t l, plan a, plan b, size_t from, size_t to)
{
    line a_low = find_line(out, syn, l, 0, a.low), a_high = find_line(out, syn, l, 0, a.high), a_last = find_line(out, syn, l, 0, a.last);
    line b_low = find_line(out, syn, l, 1, b.low), b_high = find_line(out, syn, l, 1, b.high), b_last = find_line(out, syn, l, 1, b.last);
    for (size_t m = from; m < to; m++) {
        low_at(a_low, a.low, m);
        high_at(a_high, a.high, m);
        last_at(a_last, a.last, m);
        low_at(b_low, b.low, m);
        high_at(b_high, b.high, m);
        last_at(b_last, b.last, m);
    }
}

/* A plan of one track leaves nothing to do. */
static void data_run(uint8_t *restrict out, uint8_t *restrict syn, size_t l, plan a, plan b, size_t from, size_t to)
{
    if (is_single(a))
        set_run(out, syn, l, 1, b, from, to);
    else if (is_single(b))
        set_run(out, syn, l, 0, a, from, to);
    else
        both_run(out, syn, l, a, b, from, to);
}

/* The positions of the data or of the tail, run by run. */
static void solve_part(uint8_t *restrict out, uint8_t *restrict syn, size_t l, const uint32_t *words, const uint32_t *near, size_t from,
                       size_t to)
{
    for (size_t m = from, end; m < to; m = end) {
        uint8_t marks[ALL], wide[ALL];
        end = run_end(words, near, m, to);
        if (words[m] == 0 || (LATEST && at_most_one(words[m])))
            continue;
        marks_of(words[m], marks);
        marks_of(near[m], wide);
        plan a = plan_at(marks, wide, 0), b = plan_at(marks, wide, 1);
        if (is_single(a) && is_single(b))
            continue;
        if (m < l - LAG)
            data_run(out, syn, l, a, b, m, end);
        else
            for (size_t p = m; p < end; p++) {
                tail_step(out, syn, l, 0, a, p);
                tail_step(out, syn, l, 1, b, p);
            }
    }
}

axp_result plain_repair_spans(uint32_t blocks, const axp_span *spans, size_t spans_len, const uint8_t *restrict image, size_t image_len,
                              uint8_t *restrict out, size_t out_len)
{
    uint8_t marks[ALL], syn[ROOM];
    uint32_t words[TRACK] = {0}, near[TRACK], all = 0;
    bool lost;
    axp_result r = check_image(blocks, image, image_len, out_len, AXP_IMAGE_SIZE(blocks), READINGS, &lost);
    if (r.answer)
        return r;
    if (!is_right(spans, spans_len, image_len))
        return answer(9, 0);
    size_t l = AXP_TRACK_LENGTH(blocks);
    flag_pairs(spans, spans_len, l, words);
    if (lost)
        flag_lost(image, l, words);
    if (!find_windows(words, near, l))
        return answer(6, 0);
    copy_known(out, image, image_len, lost);
    syndromes(out, l, syn);
    ones_part(out, syn, l, words, near, 0, l - LAG);
    ones_part(out, syn, l, words, near, l - LAG, l);
    solve_part(out, syn, l, words, near, 0, l - LAG);
    solve_part(out, syn, l, words, near, l - LAG, l);
    if (is_good(out, syn, l)) {
        for (size_t m = 0; m < l; m++)
            all |= words[m];
        marks_of(all, marks);
        return answer_of(marks, image, out, l, 0, 0);
    }
    memcpy(out, image, image_len);
    return answer(7, 0);
}

/* ---- cartridge files */

static inline uint32_t two_bytes(const uint8_t *bytes) { return (uint32_t)bytes[0] << 8 | bytes[1]; }

static inline uint32_t four_bytes(const uint8_t *bytes) { return two_bytes(bytes) << 16 | two_bytes(bytes + 2); }

static inline bool is_entry(const uint8_t *bytes, size_t len)
{
    if (len < 6)
        return false;
    uint32_t n = two_bytes(bytes + 4);
    return n <= AXP_MAX_BLOCKS && len == AXP_ENTRY_SIZE(n);
}

/* Where entry i ends, and 0 where it breaks a rule. The directory and the entries before it end at `from`. */
static inline size_t entry_end(const uint8_t *file, size_t file_len, size_t from, size_t i)
{
    size_t offset = four_bytes(file + 2 + 8 * i), end = offset + four_bytes(file + 6 + 8 * i);
    return from <= offset && end <= file_len && is_entry(file + offset, end - offset) ? end : 0;
}

axp_counted plain_file_count(const uint8_t *file, size_t file_len)
{
    static const axp_counted damaged = {AXP_DAMAGED_FILE, 0};
    if (file_len > AXP_MAX_FILE_SIZE || file_len < 2)
        return damaged;
    uint32_t count = two_bytes(file);
    size_t end = AXP_DIRECTORY_SIZE(count);
    if (count > AXP_MAX_ENTRIES || file_len < end)
        return damaged;
    for (size_t i = 0; i < count; i++) {
        end = entry_end(file, file_len, end, i);
        if (end == 0)
            return damaged;
    }
    return (axp_counted){AXP_OK, count};
}

axp_stretch plain_file_entry(const uint8_t *file, size_t file_len, uint32_t index)
{
    axp_counted r = plain_file_count(file, file_len);
    if (r.answer || index >= r.entries)
        return (axp_stretch){r.answer, 0, 0};
    const uint8_t *place = file + 2 + 8 * (size_t)index;
    return (axp_stretch){AXP_OK, four_bytes(place), four_bytes(place + 4)};
}

static inline size_t entry_bytes(const uint8_t *entry) { return AXP_ENTRY_SIZE(two_bytes(entry + 4)); }

/* The number of the entry at the start of so many bytes, or 0. */
static inline uint32_t check_entry(const uint8_t *bytes, size_t left)
{
    if (left < 6)
        return AXP_INPUT_LENGTH;
    uint32_t n = two_bytes(bytes + 4);
    if (n > AXP_MAX_BLOCKS)
        return AXP_BLOCK_COUNT;
    if (left < AXP_ENTRY_SIZE(n))
        return AXP_INPUT_LENGTH;
    return padding_zero(bytes + 6, (size_t)n + 2) ? AXP_OK : AXP_PADDING;
}

static inline uint8_t *put_four(uint8_t *to, uint32_t x)
{
    to[0] = (uint8_t)(x >> 24);
    to[1] = (uint8_t)(x >> 16);
    to[2] = (uint8_t)(x >> 8);
    to[3] = (uint8_t)x;
    return to + 4;
}

axp_written plain_file_write(uint32_t entries, const uint8_t *restrict bytes, size_t bytes_len, uint8_t *restrict out, size_t out_len)
{
    size_t from = 0;
    for (uint32_t i = 0; i < entries; i++) {
        uint32_t number = check_entry(bytes + from, bytes_len - from);
        if (number)
            return (axp_written){number, 0};
        from += entry_bytes(bytes + from);
    }
    if (from != bytes_len)
        return (axp_written){AXP_INPUT_LENGTH, 0};
    size_t first = AXP_DIRECTORY_SIZE(entries);
    if (entries > AXP_MAX_ENTRIES || bytes_len > AXP_MAX_FILE_SIZE - first || out_len < first + bytes_len)
        return (axp_written){AXP_NO_ROOM, 0};
    uint8_t *place = out;
    *place++ = 0;
    *place++ = (uint8_t)entries;
    from = 0;
    for (uint32_t i = 0; i < entries; i++) {
        size_t size = entry_bytes(bytes + from);
        place = put_four(put_four(place, (uint32_t)(first + from)), (uint32_t)size);
        from += size;
    }
    memcpy(place, bytes, bytes_len);
    return (axp_written){AXP_OK, (uint32_t)(first + bytes_len)};
}
