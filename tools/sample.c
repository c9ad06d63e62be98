/*
 * Makes the samples: the image of a text, with damage that a drive does.
 *
 *     sample TEXT GOOD DAMAGED LOST STRETCHES TABLE UNFLAGGED
 *
 * TEXT is encoded, padded with spaces to whole blocks. GOOD is its image. In DAMAGED two tracks of set A hold noise, a
 * track of set B has a burst and another reads 0 for a while. In LOST a burst of cells in a track of each set, and the last
 * cell of another of A, could not be read. In STRETCHES nine tracks were distrusted for a while and hold noise there, never
 * more at a time than can be repaired; TABLE has the stretches, an offset and a length a line. In UNFLAGGED a track of each set
 * holds noise, and nobody says which.
 */
#include <axp.h>

#include <stdio.h>
#include <stdlib.h>
#include <string.h>

static uint8_t payload[AXP_MAX_PAYLOAD_SIZE], image[AXP_MAX_IMAGE_SIZE], lost[AXP_MAX_IMAGE_SIZE], noisy[AXP_MAX_IMAGE_SIZE];

/* The stretches of 16 blocks or more: track number, first position, cells. That of A8 runs from its position 130 into B0. */
static const struct {
    unsigned track, from, cells;
} stretches[] = {{1, 0, 31}, {2, 64, 33}, {3, 10, 26}, {4, 62, 29}, {6, 70, 16}, {8, 130, 0}, {11, 5, 36}, {16, 60, 41}};

static uint32_t state = 7;

static uint8_t bit(void)
{
    state = state * 1664525u + 1013904223u;
    return state >> 31;
}

static int save(const char *path, const uint8_t *bytes, size_t size)
{
    FILE *f = fopen(path, "wb");
    return f && fwrite(bytes, 1, size, f) == size && fclose(f) == 0;
}

/* Noise in the stretches of a copy of the image, and their table. The cells of A8's reach six cells into B0. */
static int save_stretches(const char *path, const char *table, size_t l, size_t size)
{
    FILE *f = fopen(table, "w");
    size_t i, m;
    if (!f)
        return 0;
    memcpy(noisy, image, size);
    for (i = 0; i < sizeof stretches / sizeof *stretches; i++) {
        size_t at = stretches[i].track * l + stretches[i].from, n = stretches[i].cells > 0 ? stretches[i].cells : l - stretches[i].from + 6;
        for (m = 0; m < n; m++)
            noisy[at + m] ^= bit();
        if (fprintf(f, "%lu %lu\n", (unsigned long)at, (unsigned long)n) < 0)
            return 0;
    }
    return fclose(f) == 0 && save(path, noisy, size);
}

int main(int argc, char **argv)
{
    size_t length, l, m, size;
    uint32_t blocks;
    FILE *f;
    if (argc != 8 || !(f = fopen(argv[1], "rb"))) {
        fprintf(stderr, "usage: sample TEXT GOOD DAMAGED LOST STRETCHES TABLE UNFLAGGED\n");
        return 2;
    }
    memset(payload, ' ', sizeof payload);
    length = fread(payload, 1, sizeof payload, f);
    fclose(f);
    blocks = (uint32_t)((length + 13) / 14);
    l = AXP_TRACK_LENGTH(blocks);
    size = AXP_IMAGE_SIZE(blocks);
    if (axp_encode(blocks, payload, AXP_PAYLOAD_SIZE(blocks), image, sizeof image).answer != AXP_OK || !save(argv[2], image, size))
        return 1;
    memcpy(lost, image, size);
    memset(lost + 4 * l + l / 4, AXP_LOST, l / 3);
    memset(lost + (9 + 1) * l + l / 3, AXP_LOST, l / 5);
    lost[8 * l + l - 1] = AXP_LOST;
    if (!save(argv[4], lost, size))
        return 1;
    for (m = 0; m < l; m++) {
        image[2 * l + m] ^= bit();
        image[5 * l + m] ^= bit();
    }
    for (m = l / 3; m < l / 2; m++)
        image[(9 + 3) * l + m] ^= 1;
    for (m = l / 2; m < l; m++)
        image[(9 + 6) * l + m] = 0;
    if (!save(argv[3], image, size))
        return 1;
    axp_encode(blocks, payload, AXP_PAYLOAD_SIZE(blocks), image, sizeof image);
    if (blocks < 16 || !save_stretches(argv[5], argv[6], l, size))
        return 1;
    for (m = 0; m < l; m++) {
        image[6 * l + m] ^= bit();
        image[(9 + 2) * l + m] ^= bit();
    }
    if (!save(argv[7], image, size))
        return 1;
    printf("%lu blocks\n", (unsigned long)blocks);
    return 0;
}
