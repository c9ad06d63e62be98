/*
 * Repairs one image: the README's example.
 *
 *     repair BLOCKS FLAGS[,CEILING] IMAGE [OUT]
 *     repair BLOCKS @TABLE IMAGE [OUT]
 *
 * BLOCKS, FLAGS and CEILING are decimal numbers, IMAGE a file of one byte a cell. The program repairs by the flags, traces
 * where that finds no record, for as many wrong tracks that were not flagged as CEILING allows, or one, says what was
 * changed, prints the payload as text and, where OUT is named, writes the repaired image there. TABLE is a file of flagged
 * stretches, an offset and a length a line: then it repairs by these.
 */
#include <axp.h>

#include <stdio.h>
#include <stdlib.h>

static uint8_t image[AXP_MAX_IMAGE_SIZE + 1], out[AXP_MAX_IMAGE_SIZE], payload[AXP_MAX_PAYLOAD_SIZE];
static axp_span spans[AXP_MAX_SPANS + 1];

static void show(const char *call, axp_result r)
{
    unsigned g;
    printf("%s: %s", call, axp_strerror(r.answer));
    if (r.answer == AXP_CELL_VALUE)
        printf(" (cell %lu)", (unsigned long)r.detail);
    if (r.answer == AXP_OK && r.cells > 0) {
        printf(", %lu cells changed", (unsigned long)r.cells);
        for (g = 0; g < AXP_TRACKS; g++)
            if (r.mask >> g & 1)
                printf(" %c%u%s", g < 9 ? 'A' : 'B', g % 9, r.extra_a == g || r.extra_b == g ? " (not flagged)" : "");
    }
    printf("\n");
}

/* A decimal number and the text behind it, or NULL: strtoul has 0 for any other text, and 0 is a block count. */
static const char *number(const char *text, uint32_t *value)
{
    char *end;
    unsigned long n = strtoul(text, &end, 10);
    *value = (uint32_t)n;
    return *text >= '0' && *text <= '9' && n <= UINT32_MAX ? end : NULL;
}

/* A block count. */
static int is_count(const char *text, uint32_t *blocks)
{
    const char *rest = number(text, blocks);
    return rest && *rest == '\0';
}

/* Flags, and a ceiling behind a comma. */
static int are_flags(const char *text, uint32_t *flags, uint32_t *ceiling)
{
    const char *rest = number(text, flags);
    if (rest && *rest == ',')
        rest = number(rest + 1, ceiling);
    return rest && *rest == '\0';
}

/* The pairs of a file, or -1. Of more than a table may have, one more is read. */
static int table(const char *path)
{
    unsigned long offset, length;
    int count = 0, fields = 2;
    FILE *file = fopen(path, "r");
    if (!file) {
        perror(path);
        return -1;
    }
    while (count <= AXP_MAX_SPANS && (fields = fscanf(file, "%lu%lu", &offset, &length)) == 2 && offset <= UINT32_MAX && length <= UINT32_MAX) {
        spans[count].offset = (uint32_t)offset;
        spans[count++].length = (uint32_t)length;
    }
    fclose(file);
    if (count <= AXP_MAX_SPANS && fields != EOF) {
        fprintf(stderr, "%s: pair %d is not two numbers\n", path, count + 1);
        return -1;
    }
    return count;
}

int main(int argc, char **argv)
{
    uint32_t blocks, flags = 0, ceiling = 1;
    size_t length, i;
    int pairs = 0, by_table = argc > 2 && argv[2][0] == '@';
    axp_result r;
    FILE *file;

    if (argc < 4 || !is_count(argv[1], &blocks) || !(by_table || are_flags(argv[2], &flags, &ceiling))) {
        fprintf(stderr, "usage: repair BLOCKS FLAGS[,CEILING]|@TABLE IMAGE [OUT]\n");
        return 2;
    }
    if (by_table && (pairs = table(argv[2] + 1)) < 0)
        return 2;
    file = fopen(argv[3], "rb");
    if (!file) {
        perror(argv[3]);
        return 2;
    }
    length = fread(image, 1, sizeof image, file);
    fclose(file);

    if (by_table)
        r = axp_repair_spans(blocks, spans, (size_t)pairs, image, length, out, sizeof out);
    else
        r = axp_repair(blocks, flags, image, length, out, sizeof out);
    show("repair", r);
    if (r.answer == AXP_NO_RECORD && !by_table) {
        /* With ceiling 1 this is axp_trace. */
        r = axp_trace_within(blocks, flags, ceiling, image, length, out, sizeof out);
        show("trace", r);
    }
    if (r.answer != AXP_OK)
        return 1;

    r = axp_read(blocks, out, length, payload, sizeof payload);
    show("read", r);
    for (i = 0; i < AXP_PAYLOAD_SIZE(blocks); i++)
        putchar(payload[i] >= 32 && payload[i] < 127 ? payload[i] : payload[i] == '\n' ? '\n' : '.');
    printf("\n");

    if (argc > 4) {
        file = fopen(argv[4], "wb");
        if (!file || fwrite(out, 1, length, file) != length || fclose(file) != 0) {
            perror(argv[4]);
            return 2;
        }
    }
    return 0;
}
