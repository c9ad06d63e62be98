/*
 * Lists, fills and reads cartridge files. A program over the library, not proved; what the library's calls answer is.
 *
 *     axp-file list FILE                              its entries: index, key, blocks, offset, length, bytes of payload
 *     axp-file add FILE KEY=PAYLOAD...                encodes each payload file and adds its record behind the entries that are there
 *     axp-file extract [-c CEILING] FILE INDEX [OUT]  writes an entry's payload to OUT, or to standard output; a record with errors is
 *                                                     traced with this ceiling, or with 1
 *
 * man/axp-file.1 says more. Exit status: 0, 1 where the library refuses (its answer is told), 2 for the command line and for files that
 * cannot be read or written.
 */
#include <axp.h>

#include <errno.h>
#include <stdio.h>
#include <stdlib.h>
#include <string.h>

enum { REFUSED = 1, FAILED = 2 };

/* A file as it was read, the entries of a new one and that file. One byte more than the most is read, so that it is noticed. */
static uint8_t file[AXP_MAX_FILE_SIZE + 1], entries[AXP_MAX_FILE_SIZE + AXP_MAX_ENTRY_SIZE], written[AXP_MAX_FILE_SIZE];
static uint8_t payload[AXP_MAX_PAYLOAD_SIZE + 1], image[AXP_MAX_IMAGE_SIZE], mended[AXP_MAX_IMAGE_SIZE];

static int usage(void)
{
    fprintf(stderr, "usage: axp-file list FILE\n"
                    "       axp-file add FILE KEY=PAYLOAD...\n"
                    "       axp-file extract [-c CEILING] FILE INDEX [OUT]\n");
    return FAILED;
}

static int failed(const char *path)
{
    fprintf(stderr, "axp-file: %s: %s\n", path, strerror(errno));
    return FAILED;
}

static int refused(const char *path, uint32_t answer)
{
    fprintf(stderr, "axp-file: %s: %s (answer %lu)\n", path, axp_strerror(answer), (unsigned long)answer);
    return REFUSED;
}

/* Reads the first bytes of a file. Where it cannot be read errno tells why, and the length is past `most`. */
static size_t load(const char *path, uint8_t *bytes, size_t most)
{
    FILE *f = fopen(path, "rb");
    size_t length;
    int bad;
    if (!f)
        return most + 1;
    length = fread(bytes, 1, most, f);
    bad = ferror(f);
    fclose(f);
    return bad ? most + 1 : length;
}

static int save(const char *path, const uint8_t *bytes, size_t length)
{
    FILE *f = fopen(path, "wb");
    int ok = f && fwrite(bytes, 1, length, f) == length;
    return f && fclose(f) == 0 && ok;
}

/* Writes a file anew: all of it, or it stays as it was. */
static int replace(const char *path, const uint8_t *bytes, size_t length)
{
    char *next = malloc(strlen(path) + sizeof ".new");
    int ok;
    if (!next)
        return 0;
    sprintf(next, "%s.new", path);
    ok = save(next, bytes, length) && rename(next, path) == 0;
    if (!ok) {
        int why = errno;
        remove(next);
        errno = why;
    }
    free(next);
    return ok;
}

/* A number up to 2^32 - 1, decimal or with 0x hexadecimal, that ends with this character. Its text goes on there, or it is none: NULL. */
static const char *number(const char *text, char end, uint32_t *value)
{
    char *rest;
    unsigned long n;
    if (*text < '0' || *text > '9')
        return NULL;
    errno = 0;
    n = strtoul(text, &rest, strncmp(text, "0x", 2) == 0 ? 16 : 10);
    *value = (uint32_t)n;
    return errno == 0 && n <= UINT32_MAX && *rest == end ? rest : NULL;
}

static int list(const char *path)
{
    size_t length = load(path, file, sizeof file);
    axp_counted c;
    uint32_t i;
    if (length > sizeof file)
        return failed(path);
    c = axp_file_count(file, length);
    if (c.answer != AXP_OK)
        return refused(path, c.answer);
    printf("%s: %lu %s, %lu bytes\n", path, (unsigned long)c.entries, c.entries == 1 ? "entry" : "entries", (unsigned long)length);
    if (c.entries > 0)
        printf("index        key  blocks  offset  length  payload\n");
    for (i = 0; i < c.entries; i++) {
        axp_stretch s = axp_file_entry(file, length, i);
        uint32_t blocks = axp_entry_blocks(file + s.offset);
        printf("%5lu %10lu %7lu %7lu %7lu %8lu\n", (unsigned long)i, (unsigned long)axp_entry_key(file + s.offset), (unsigned long)blocks,
               (unsigned long)s.offset, (unsigned long)s.length, (unsigned long)AXP_PAYLOAD_SIZE(blocks));
    }
    return 0;
}

/* Makes an entry of a payload file: KEY=PAYLOAD. Its length, or 0 and what went wrong. */
static size_t make_entry(const char *text, uint8_t *entry, int *status)
{
    uint32_t key, blocks;
    const char *rest = number(text, '=', &key);
    size_t length, i;
    axp_result r;
    if (!rest) {
        fprintf(stderr, "axp-file: %s: not KEY=PAYLOAD, the key a number up to 4294967295\n", text);
        *status = FAILED;
        return 0;
    }
    length = load(rest + 1, payload, sizeof payload);
    if (length > sizeof payload) {
        *status = failed(rest + 1);
        return 0;
    }
    if (length > AXP_MAX_PAYLOAD_SIZE || length % 14 != 0) {
        fprintf(stderr, "axp-file: %s: a payload has 14 bytes a block, for 0 to 256 blocks\n", rest + 1);
        *status = REFUSED;
        return 0;
    }
    blocks = (uint32_t)(length / 14);
    for (i = 0; i < 4; i++)
        entry[i] = (uint8_t)(key >> (24 - 8 * i));
    entry[4] = (uint8_t)(blocks >> 8);
    entry[5] = (uint8_t)blocks;
    r = axp_encode(blocks, payload, length, image, sizeof image);
    if (r.answer == AXP_OK)
        r = axp_pack(blocks, image, AXP_IMAGE_SIZE(blocks), entry + 6, AXP_MAX_PACKED_SIZE);
    if (r.answer != AXP_OK) {
        *status = refused(rest + 1, r.answer);
        return 0;
    }
    return AXP_ENTRY_SIZE(blocks);
}

static int add(const char *path, int count, char **texts)
{
    size_t length, used = 0;
    axp_counted c = {AXP_OK, 0};
    axp_written w;
    uint32_t i;
    int k, status;
    errno = 0;
    length = load(path, file, sizeof file);
    if (length > sizeof file && errno != ENOENT)
        return failed(path);
    if (length <= sizeof file)
        c = axp_file_count(file, length);
    if (c.answer != AXP_OK)
        return refused(path, c.answer);
    for (i = 0; i < c.entries; i++) {
        axp_stretch s = axp_file_entry(file, length, i);
        memcpy(entries + used, file + s.offset, s.length);
        used += s.length;
    }
    for (k = 0; k < count; k++) {
        size_t size;
        if (used > AXP_MAX_FILE_SIZE)
            return refused(path, AXP_NO_ROOM);
        size = make_entry(texts[k], entries + used, &status);
        if (size == 0)
            return status;
        used += size;
    }
    w = axp_file_write(c.entries + (uint32_t)count, entries, used, written, sizeof written);
    if (w.answer != AXP_OK)
        return refused(path, w.answer);
    return replace(path, written, w.length) ? 0 : failed(path);
}

static int extract(uint32_t ceiling, const char *path, const char *index, const char *out)
{
    size_t length = load(path, file, sizeof file), size;
    uint32_t i, blocks;
    axp_stretch s;
    axp_result r;
    unsigned g;
    if (!number(index, '\0', &i))
        return usage();
    if (length > sizeof file)
        return failed(path);
    s = axp_file_entry(file, length, i);
    if (s.answer != AXP_OK)
        return refused(path, s.answer);
    if (s.length == 0) {
        fprintf(stderr, "axp-file: %s: no entry %s\n", path, index);
        return REFUSED;
    }
    blocks = axp_entry_blocks(file + s.offset);
    size = AXP_PAYLOAD_SIZE(blocks);
    r = axp_unpack(blocks, file + s.offset + 6, s.length - 6, image, sizeof image);
    if (r.answer == AXP_OK)
        r = axp_trace_within(blocks, 0, ceiling, image, AXP_IMAGE_SIZE(blocks), mended, sizeof mended);
    if (r.answer != AXP_OK)
        return refused(path, r.answer);
    if (r.cells > 0) {
        fprintf(stderr, "axp-file: %s: entry %s: %lu cells changed", path, index, (unsigned long)r.cells);
        for (g = 0; g < AXP_TRACKS; g++)
            if (r.mask >> g & 1)
                fprintf(stderr, " %c%u", g < 9 ? 'A' : 'B', g % 9);
        fprintf(stderr, "\n");
    }
    r = axp_read(blocks, mended, AXP_IMAGE_SIZE(blocks), payload, sizeof payload);
    if (r.answer != AXP_OK)
        return refused(path, r.answer);
    if (out)
        return save(out, payload, size) ? 0 : failed(out);
    return fwrite(payload, 1, size, stdout) == size && fflush(stdout) == 0 ? 0 : failed("standard output");
}

int main(int argc, char **argv)
{
    uint32_t ceiling = 1;
    if (argc == 3 && strcmp(argv[1], "list") == 0)
        return list(argv[2]);
    if (argc > 3 && strcmp(argv[1], "add") == 0)
        return add(argv[2], argc - 3, argv + 3);
    if (argc > 2 && strcmp(argv[1], "extract") == 0) {
        if (strcmp(argv[2], "-c") == 0) {
            if (argc < 4 || !number(argv[3], '\0', &ceiling))
                return usage();
            argc -= 2;
            argv += 2;
        }
        if (argc == 4 || argc == 5)
            return extract(ceiling, argv[2], argv[3], argv[4]);
    }
    return usage();
}
