/*
 * Repair and tracing by the closed forms in plain C, with the functions, loops and order of the library, but for closed tails alone
 * and with all diagonals tested. Part of plain.c: with CLOSED_FORMS these stand in place of those that mend position by position.
 */

/* Rows of words: the first word of a row is 0, and one more than the tracks need follows the last. */
enum { WORDS = (TRACK + 63) / 64 + 1, UPPER = 0, LOWER = 1, PIVOT = 2, PAIR = 4 };

typedef struct {
    uint64_t word[4 * WORDS + 1];
} sum_rows;

typedef struct {
    uint64_t word[5 * WORDS + 1];
} error_rows;

/* ---- cells in words */

static inline uint64_t window(const uint64_t *words, size_t at)
{
    size_t i = at / 64, k = at % 64;
    return (words[i] >> k) ^ (words[i + 1] << 1 << (63 - k));
}

static inline uint64_t first_cells(uint64_t w, size_t n)
{
    return n >= 64 ? w : n == 0 ? 0 : w << (64 - n) >> (64 - n);
}

static inline uint64_t quotient_word(uint64_t r, uint64_t prior, size_t d)
{
    if (d >= 64)
        return r;
    uint64_t w = r ^ prior >> (64 - d);
    for (size_t s = d; s < 64; s += s)
        w ^= w << s;
    return w;
}

static inline uint64_t swap_bits(uint64_t x, unsigned s, uint64_t mask)
{
    uint64_t t = (x ^ x >> s) & mask;
    return x ^ t ^ t << s;
}

static inline uint64_t transpose(uint64_t x)
{
    return swap_bits(swap_bits(swap_bits(x, 7, 0xaa00aa00aa00aa), 14, 0xcccc0000cccc), 28, 0xf0f0f0f0);
}

static inline uint64_t word_of(const uint8_t *cells)
{
    uint64_t w = 0;
    for (size_t k = 0; k < 8; k++) {
        uint64_t eight;
        memcpy(&eight, cells + 8 * k, 8);
        w ^= eight << k;
    }
    return transpose(w);
}

/* ---- flagged tracks */

/* The flagged tracks of a set, the highest first: 0 for none, t + 1 for track t. */
typedef struct {
    size_t high, middle, low;
} three;

static inline three insert(three x, size_t e)
{
    if (e == 0)
        return x;
    if (x.high < e)
        return (three){e, x.high, x.middle};
    if (x.middle < e)
        return (three){x.high, e, x.middle};
    return (three){x.high, x.middle, e};
}

static three find_three(const uint8_t *marks)
{
    three x = {0, 0, 0};
    for (size_t t = 0; t < TRACKS; t++)
        if (marks[t] == 1)
            x = insert(x, t + 1);
    return x;
}

typedef struct {
    size_t pivot[2], room[2], below, s, v, q, u;
} form;

static form form_of(size_t l, three x, three y)
{
    form p = {.below = 0};
    three both[2] = {x, y};
    for (size_t c = 0; c < 2; c++) {
        size_t e = both[c].high;
        p.pivot[c] = e == 0 ? DATA + 1 : e - 1;
        p.room[c] = e == 0 ? 0 : e == 1 || e == TRACKS ? l : l - LAG;
    }
    if (x.low != 0)
        p.below = 2, p.s = 0, p.v = x.low - 1, p.q = 0, p.u = x.middle - 1;
    else if (y.low != 0)
        p.below = 2, p.s = 1, p.v = y.low - 1, p.q = 1, p.u = y.middle - 1;
    else if (x.middle != 0 && y.middle != 0)
        p.below = 2, p.s = 0, p.v = x.middle - 1, p.q = 1, p.u = y.middle - 1;
    else if (x.middle != 0)
        p.below = 1, p.s = 0, p.v = x.middle - 1;
    else if (y.middle != 0)
        p.below = 1, p.s = 1, p.v = y.middle - 1;
    return p;
}

/* ---- errors, word by word */

static inline uint64_t row_at(const uint64_t *words, size_t row, size_t at) { return window(words, 64 * WORDS * row + at); }

static inline size_t delay(size_t d, size_t s, size_t t) { return t > DATA ? 64 : d == s ? t : LAG - t; }

static inline uint64_t charged(const uint64_t *words, size_t row, size_t d, size_t s, size_t t, size_t at)
{
    size_t k = delay(d, s, t);
    return k >= 64 ? 0 : row_at(words, row, at - k);
}

static inline uint64_t left_at(const sum_rows *sums, const form *p, size_t d, size_t at)
{
    return row_at(sums->word, d, at) ^ charged(sums->word, 2, d, 0, p->pivot[0], at) ^ charged(sums->word, 3, d, 1, p->pivot[1], at);
}

static inline uint64_t met_at(const error_rows *found, const form *p, size_t row, size_t d, size_t s, size_t t, size_t at)
{
    return row_at(found->word, row, at - delay(d, s, t)) ^ charged(found->word, row, d, s, p->pivot[s], at);
}

static inline size_t point_of(const form *p, size_t d, size_t s, size_t t)
{
    return s == d ? t : LAG - (p->pivot[s] > DATA ? t : p->pivot[s]);
}

static inline size_t gap_of(const form *p, size_t s, size_t t) { return p->pivot[s] > DATA ? 64 : p->pivot[s] - t; }

static inline size_t rest(size_t n, size_t i) { return n < 64 * i ? 0 : n - 64 * i; }

static inline uint64_t *word_at(error_rows *found, size_t row, size_t i) { return &found->word[WORDS * row + 1 + i]; }

static void extend(const sum_rows *sums, error_rows *found, size_t l, const form *p, size_t i)
{
    size_t at = 64 * i + 64;
    if (p->below == 2) {
        size_t o = 1 - p->s, ahead = point_of(p, o, p->q, p->u), across = point_of(p, o, p->s, p->v), along = point_of(p, p->s, p->q, p->u);
        uint64_t r = left_at(sums, p, o, at + ahead) ^ left_at(sums, p, p->s, at + ahead + p->v - across);
        uint64_t x = quotient_word(r, word_at(found, PAIR, i)[-1], across + along - (ahead + p->v));
        *word_at(found, PAIR, i) = x;
        x = quotient_word(x, word_at(found, UPPER, i)[-1], gap_of(p, p->q, p->u));
        *word_at(found, UPPER, i) = first_cells(x, rest(p->u == 0 ? l : l - LAG, i));
    }
    if (p->below >= 1) {
        uint64_t r = left_at(sums, p, p->s, at + p->v);
        if (p->below == 2)
            r ^= met_at(found, p, UPPER, p->s, p->q, p->u, at + p->v);
        r = quotient_word(r, word_at(found, LOWER, i)[-1], gap_of(p, p->s, p->v));
        *word_at(found, LOWER, i) = first_cells(r, rest(p->v == 0 ? l : l - LAG, i));
    }
}

static inline bool diagonal_zero(const sum_rows *sums, const error_rows *found, size_t l, const form *p, size_t d, size_t i)
{
    uint64_t r = left_at(sums, p, d, 64 * i + 64);
    if (p->below >= 1)
        r ^= met_at(found, p, LOWER, d, p->s, p->v, 64 * i + 64);
    if (p->below == 2)
        r ^= met_at(found, p, UPPER, d, p->q, p->u, 64 * i + 64);
    return first_cells(r, rest(l, i)) == 0;
}

static inline bool put_pivot(const sum_rows *sums, error_rows *found, size_t l, const form *p, size_t c, size_t i)
{
    uint64_t w = sums->word[WORDS * (2 + c) + 1 + i];
    if (p->below >= 1 && p->s == c)
        w ^= *word_at(found, LOWER, i);
    if (p->below == 2 && p->q == c)
        w ^= *word_at(found, UPPER, i);
    w = first_cells(w, rest(l, i));
    *word_at(found, PIVOT + c, i) = w;
    return first_cells(w, rest(p->room[c], i)) == w;
}

static bool find(const sum_rows *sums, error_rows *found, size_t l, const form *p, size_t start)
{
    size_t i = start;
    if (p->below == 0 && start != 0 && 64 * start < l) {
        *word_at(found, PIVOT, start) = 0;
        *word_at(found, PIVOT + 1, start) = 0;
        i++;
    }
    for (; 64 * i < l; i++) {
        extend(sums, found, l, p, i);
        if (!diagonal_zero(sums, found, l, p, 0, i) || !diagonal_zero(sums, found, l, p, 1, i) || !put_pivot(sums, found, l, p, 0, i) ||
            !put_pivot(sums, found, l, p, 1, i))
            return false;
    }
    return true;
}

/* ---- between bytes and words */

static size_t clear_tails(const uint8_t *marks, uint8_t *out, size_t l, size_t s)
{
    size_t need = 0;
    for (size_t t = 1; t <= DATA; t++) {
        uint8_t *tail = out + track_number(s, t) * l + l - LAG;
        if (all_zero(tail, LAG))
            continue;
        memset(tail, 0, LAG);
        if (marks[track_number(s, t)] != 1)
            need = need == 0 ? t + 1 : 16;
    }
    return need;
}

/* Loads the sums of an image, 64 positions at a time. */
static void load_sums(const uint8_t *restrict image, size_t l, sum_rows *sums)
{
    uint8_t padded[ALL * PADDED] = {0}, run[4 * RUN];
    pad(padded, image, l);
    for (size_t i = 0; 64 * i < l; i++) {
        size_t p = run_start(l, 64 * i);
        put_sums(run, RUN, 0, image, padded, l, p);
        for (size_t r = 0; r < 4; r++)
            sums->word[WORDS * r + 1 + i] = first_cells(word_of(run + RUN * r), l - p) >> (64 * i - p);
    }
}

static void prepare(const uint8_t *marks, const uint8_t *restrict image, size_t len, uint8_t *restrict out, size_t l, bool lost, sum_rows *sums,
                    size_t need[2])
{
    copy_known(out, image, len, lost);
    for (size_t s = 0; s < 2; s++)
        need[s] = clear_tails(marks, out, l, s);
    load_sums(out, l, sums);
}

static size_t find_start(const sum_rows *sums, size_t l)
{
    size_t i = 0;
    for (; 64 * i < l; i++)
        if (sums->word[1 + i] | sums->word[WORDS + 1 + i] | sums->word[2 * WORDS + 1 + i] | sums->word[3 * WORDS + 1 + i])
            return i == 0 ? 0 : i - 1;
    return i;
}

static void add_error(uint8_t *restrict out, size_t l, size_t g, const error_rows *found, size_t row)
{
    uint8_t cells[64 * (WORDS - 1)];
    for (size_t i = 0; 64 * i < l; i++) {
        uint64_t t = transpose(found->word[WORDS * row + 1 + i]);
        for (size_t k = 0; k < 8; k++) {
            uint64_t eight = t >> k & 0x0101010101010101;
            memcpy(cells + 64 * i + 8 * k, &eight, 8);
        }
    }
    add_track(out + g * l, cells, l, 0);
}

static void add_errors(uint8_t *out, size_t l, const form *p, const error_rows *found)
{
    for (size_t c = 0; c < 2; c++)
        if (p->room[c] != 0)
            add_error(out, l, track_number(c, p->pivot[c]), found, PIVOT + c);
    if (p->below >= 1)
        add_error(out, l, track_number(p->s, p->v), found, LOWER);
    if (p->below == 2)
        add_error(out, l, track_number(p->q, p->u), found, UPPER);
}

/* ---- the calls */

axp_result plain_repair(uint32_t blocks, uint32_t flags, const uint8_t *restrict image, size_t image_len, uint8_t *restrict out,
                        size_t out_len)
{
    uint8_t marks[ALL];
    bool lost;
    axp_result r = check(blocks, flags, image, image_len, out_len, &lost);
    if (r.answer)
        return r;
    size_t l = AXP_TRACK_LENGTH(blocks), need[2];
    marks_of(flags, marks);
    if (lost)
        mark_lost(marks, image, l);
    if (code_of(marks) == 0)
        return answer(6, 0);
    sum_rows sums = {{0}};
    error_rows found = {{0}};
    prepare(marks, image, image_len, out, l, lost, &sums, need);
    form p = form_of(l, find_three(marks), find_three(marks + TRACKS));
    if (need[0] == 0 && need[1] == 0 && find(&sums, &found, l, &p, find_start(&sums, l))) {
        add_errors(out, l, &p, &found);
        return answer_of(marks, image, out, l, 0, 0);
    }
    memcpy(out, image, image_len);
    return answer(7, 0);
}

axp_result plain_trace_within(uint32_t blocks, uint32_t flags, uint32_t ceiling, const uint8_t *restrict image, size_t image_len,
                              uint8_t *restrict out, size_t out_len)
{
    uint8_t marks[ALL], wide[ALL];
    bool lost;
    axp_result r = check(blocks, flags, image, image_len, out_len, &lost);
    if (r.answer)
        return r;
    if (ceiling > AXP_MAX_CEILING)
        return answer(12, 0);
    size_t l = AXP_TRACK_LENGTH(blocks), need[2];
    marks_of(flags, marks);
    if (lost)
        mark_lost(marks, image, l);
    uint8_t code = code_of(marks);
    if (code == 0)
        return answer(6, 0);
    struct reach reach = reach_of(code, ceiling);
    sum_rows sums = {{0}};
    error_rows found = {{0}};
    prepare(marks, image, image_len, out, l, lost, &sums, need);
    three x = find_three(marks), y = find_three(marks + TRACKS);
    size_t start = find_start(&sums, l);
    for (size_t a = 0; a <= last_a(reach); a++)
        for (size_t b = 0; b <= last_b(reach, a); b++) {
            if (!allows(reach, marks, a, b) || (need[0] != 0 && need[0] != a) || (need[1] != 0 && need[1] != b))
                continue;
            form p = form_of(l, insert(x, a), insert(y, b));
            if (find(&sums, &found, l, &p, start)) {
                add_errors(out, l, &p, &found);
                widen(marks, a, b, wide);
                return answer_of(wide, image, out, l, a, b);
            }
        }
    memcpy(out, image, image_len);
    return answer(7, 0);
}
