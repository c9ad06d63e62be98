/*
 * axp.h - repair of 18-track cartridge records in the adaptive cross-parity code
 *
 * Eleven calls on numbers and slices: an encoder, a reader of good records, a repairer for flagged
 * tracks, two tracers for unflagged ones, a repairer for flagged stretches of cells, two calls that turn
 * an image to its packed form and back, and three that write a cartridge file, count its entries and
 * find one of them. Each call always returns, allocates nothing, keeps no state between calls and reads
 * and writes nothing but the slices that it is given, so it may be called from any number of threads at
 * once.
 *
 * What a call answers and every byte that it leaves in the output are fixed by the project's
 * documents 01 and 02 and proved of the code behind axp_encode, axp_read, axp_repair, axp_trace,
 * axp_trace_within, axp_repair_spans, axp_pack, axp_unpack, axp_file_write, axp_file_count and
 * axp_file_entry. The static inline functions of this header are conveniences and no proved code.
 *
 * A record has n blocks, n from 0 to 256, and 18 tracks of L = 8n + 15 cells: tracks 0 to 8 of set A,
 * then tracks 0 to 8 of set B. Its image is 18 * L bytes, one cell a byte, value 0 or 1; track number
 * g (t for track t of A, 9 + t for track t of B) begins at byte g * L. Its payload is 14 bytes a
 * block.
 *
 * A record of no blocks (n = 0) is its tail alone: 15 cells a track, 270 in all, an empty payload and
 * 36 bytes packed. Its only good record is all zero. Every call takes it as it takes the others.
 *
 * A cell that a drive could not read is marked with 2 (AXP_LOST). axp_repair, axp_trace and
 * axp_trace_within take the track of a lost cell as flagged, as if its bit of the flag word were set, and
 * fill the cell; axp_repair_spans takes the lost cell alone as flagged, not its track; the reader takes
 * an image with a lost cell as not good; a lost cell cannot be packed.
 *
 * An image's packed form is 18 * (n + 2) bytes, its tracks in head order, A0, B0, A1, B1, to A8, B8:
 * track t of A begins at byte 2t * (n + 2), track t of B at byte (2t + 1) * (n + 2). A track takes
 * n + 2 bytes, eight cells a byte, the first cell most significant: cell m is the bit of value
 * 128 >> m % 8 in its byte m / 8. L + 1 is 8(n + 2), so the last bit of a track is padding; it is 0.
 *
 * A cartridge file has up to 64 packed records in at most 65,536 bytes. Its numbers have the most
 * significant byte first:
 *
 *     byte 0        2 bytes  the number of entries, at most 64
 *     byte 2 + 8i   4 bytes  the offset of entry i, its first byte in the file
 *     byte 6 + 8i   4 bytes  the length of entry i, in bytes
 *
 * and an entry is AXP_ENTRY_SIZE(n) bytes, n from 0 to 256:
 *
 *     byte 0        4 bytes  the key, any number
 *     byte 4        2 bytes  the block count n
 *     byte 6                 the packed form of its image, AXP_PACKED_SIZE(n) bytes
 *
 * Each entry begins where the directory, AXP_DIRECTORY_SIZE(entries) bytes, or the entry before it
 * ended, or later, and ends within the file. What stands in between and behind the last means
 * nothing. Whether a packed record's padding bits are 0 the file's rules leave open: the writer takes no
 * other, and axp_unpack says it of each.
 *
 * C89 to C23 and C++, with <stdint.h> and <stddef.h>. The inline helpers at the end of this header
 * (axp_flag_a, axp_flag_b, axp_entry_key, axp_entry_blocks, axp_strerror) are there from C99 on and in
 * C++; C89 has no inline functions, so a C89 program has the calls, the types and the constants alone.
 */
#ifndef AXP_H
#define AXP_H

#include <stddef.h>
#include <stdint.h>

#ifdef __cplusplus
extern "C" {
#endif

/* The version of this header and of the library that it was made for. */
#define AXP_VERSION_MAJOR 0
#define AXP_VERSION_MINOR 7
#define AXP_VERSION_PATCH 4

/* The most blocks of a record. */
#define AXP_MAX_BLOCKS 256

/* The tracks of a record. */
#define AXP_TRACKS 18

/* The cells of a track, L, and the bytes of an image, of a payload and of a packed form, for n blocks. */
#define AXP_TRACK_LENGTH(n) (8 * (size_t)(n) + 15)
#define AXP_IMAGE_SIZE(n) (AXP_TRACKS * AXP_TRACK_LENGTH(n))
#define AXP_PAYLOAD_SIZE(n) (14 * (size_t)(n))
#define AXP_PACKED_SIZE(n) (AXP_TRACKS * ((size_t)(n) + 2))

/* The bytes of an entry of n blocks, of the directory of k entries, and the most of a file. */
#define AXP_ENTRY_SIZE(n) (6 + AXP_PACKED_SIZE(n))
#define AXP_DIRECTORY_SIZE(k) (2 + 8 * (size_t)(k))
#define AXP_MAX_FILE_SIZE 65536
#define AXP_MAX_ENTRIES 64

/* The sizes for 256 blocks: buffers of these sizes serve every record. */
#define AXP_MAX_IMAGE_SIZE 37134
#define AXP_MAX_PAYLOAD_SIZE 3584
#define AXP_MAX_PACKED_SIZE 4644
#define AXP_MAX_ENTRY_SIZE 4650

/* A cell that the drive could not read. */
#define AXP_LOST 2

/* The most pairs of a table of spans. */
#define AXP_MAX_SPANS 64

/* The highest ceiling of axp_trace_within. */
#define AXP_MAX_CEILING 2

/* `extra_a` or `extra_b` where no extra track is named. */
#define AXP_NO_EXTRA 4294967295u

/*
 * The answers, in checking order: the first whose condition holds is given, and AXP_OK where none
 * does; axp_repair_spans checks 9 in place of 5, after 4 and before 6, and axp_trace_within checks 12
 * after 5 and before 6. The encoder gives AXP_OK and 1 to 3, the reader AXP_OK, 1 to 4 and 7, axp_repair
 * and axp_trace AXP_OK and 1 to 7, axp_trace_within AXP_OK, 1 to 5, 12, 6 and 7, axp_repair_spans AXP_OK,
 * 1 to 4, 9, 6 and 7, packing AXP_OK and 1 to 4, unpacking AXP_OK, 1 to 3 and 8. axp_file_write goes
 * entry by entry, and gives AXP_OK, 1, 2, 8 and, last, 11; axp_file_count and axp_file_entry give AXP_OK
 * and 10.
 */
enum axp_answer {
    AXP_OK = 0,          /* the result fills the first bytes of the output; later bytes stay */
    AXP_BLOCK_COUNT = 1, /* the block count is above 256 */
    AXP_INPUT_LENGTH = 2,/* the input's length is not that of a payload (encoder), a packed form
                            (unpacking) or an image (the others) of that block count, or not that of so
                            many entries (axp_file_write) */
    AXP_OUTPUT_SHORT = 3,/* the output is shorter than a payload (reader), a packed form (packing) or an
                            image (the others) of that block count */
    AXP_CELL_VALUE = 4,  /* the image has a cell above 2 (reader, repairers, tracers) or above 1
                            (packing), flagged or not; `detail` is the index of the first one */
    AXP_FLAG_BIT = 5,    /* the flag word has a bit from 18 up */
    AXP_TOO_MANY = 6,    /* more flagged tracks, with those that have a lost cell, than the code can
                            repair: more than three in a set, or more than four in all; for
                            axp_repair_spans: so many tracks with a flagged cell within 16 positions */
    AXP_NO_RECORD = 7,   /* no good record is in reach; for the reader: the image is not good */
    AXP_PADDING = 8,     /* a padding bit of the packed form is 1 */
    AXP_SPANS = 9,       /* the table of spans has more than 64 pairs, a length 0, a pair beyond the
                            image, or an offset before the previous pair's end */
    AXP_DAMAGED_FILE = 10,/* the file, its directory or an entry's length or count breaks the rules of a
                            cartridge file */
    AXP_NO_ROOM = 11,    /* more than 64 entries, or they do not fit a file of 65,536 bytes or the output */
    AXP_CEILING = 12     /* the ceiling is above 2 */
};

/*
 * What a call returns; those on cartridge files return the structs further down.
 *
 * answer   0 or a number of enum axp_answer.
 * detail   with AXP_CELL_VALUE the index of the first bad cell in the image, else 0.
 * mask     from repairers and tracers with answer 0: bit g is set exactly if some cell of track number
 *          g differs between output and image. Else 0.
 * cells    from repairers and tracers with answer 0: the number of cells that differ. Else 0. A lost
 *          cell is 2 in the image and 0 or 1 in the output: it differs, whichever it becomes.
 * extra_a, from axp_trace and axp_trace_within with answer 0: the track number (0 to 8 in A, 9 to 17 in
 * extra_b  B) of the changed track of the set that was not flagged and has no lost cell, or AXP_NO_EXTRA
 *          where there is none. Else AXP_NO_EXTRA.
 */
typedef struct axp_result {
    uint32_t answer;
    uint32_t detail;
    uint32_t mask;
    uint32_t cells;
    uint32_t extra_a;
    uint32_t extra_b;
} axp_result;

/*
 * A pair of a table: `length` cells of the image, one after the other, from cell `offset` on. Cell m of
 * track number g is cell g * L + m, so a pair may run from the end of one track into the next.
 */
typedef struct axp_span {
    uint32_t offset;
    uint32_t length;
} axp_span;

/*
 * What axp_file_write returns: 0 or a number of enum axp_answer, and with 0 the bytes of the file, else
 * 0. No number of the file calls has a detail.
 */
typedef struct axp_written {
    uint32_t answer;
    uint32_t length;
} axp_written;

/* What axp_file_count returns: AXP_OK and the number of the file's entries, or AXP_DAMAGED_FILE and 0. */
typedef struct axp_counted {
    uint32_t answer;
    uint32_t entries;
} axp_counted;

/*
 * What axp_file_entry returns: AXP_OK and `length` bytes of the file from byte `offset` on, or
 * AXP_DAMAGED_FILE. An empty stretch, with AXP_DAMAGED_FILE or past the last entry, has offset and
 * length 0; every entry has a length of 42 at least.
 */
typedef struct axp_stretch {
    uint32_t answer;
    uint32_t offset;
    uint32_t length;
} axp_stretch;

/*
 * All calls
 *
 * The caller sees to it that each pointer is valid for its length (a null pointer may stand with
 * length 0), that input and output do not overlap, and that no other thread writes to either during
 * the call. Nothing else is presumed: every block count, length, cell value, flag word, ceiling, table,
 * number of entries, file and index has an answer.
 *
 * Answers 1 to 6, 8, 9, 11 and 12 leave the output as it came. Bytes of the output past the result stay
 * as they came with every answer.
 */

/*
 * Encodes a payload.
 *
 * payload  AXP_PAYLOAD_SIZE(blocks) bytes. Byte c of a block goes along track c + 1 of A for c from 0
 *          to 6 and along track c - 6 of B for c from 7 to 13, its most significant bit first. Of no
 *          blocks it is empty, and may be a null pointer.
 * out      with answer 0 its first AXP_IMAGE_SIZE(blocks) bytes are the image of the one good record
 *          that carries the payload.
 *
 * Answers: AXP_OK, AXP_BLOCK_COUNT, AXP_INPUT_LENGTH, AXP_OUTPUT_SHORT.
 */
axp_result axp_encode(uint32_t blocks, const uint8_t *payload, size_t payload_len, uint8_t *out, size_t out_len);

/*
 * Reads the payload of a good record.
 *
 * image    AXP_IMAGE_SIZE(blocks) bytes, each 0, 1 or AXP_LOST.
 * out      with answer 0 its first AXP_PAYLOAD_SIZE(blocks) bytes are the payload; of no blocks these
 *          are none, and it may be a null pointer of length 0. With AXP_NO_RECORD, given exactly if the
 *          image is not a good record (one with a lost cell is not), it stays as it came.
 *
 * Answers: AXP_OK, AXP_BLOCK_COUNT, AXP_INPUT_LENGTH, AXP_OUTPUT_SHORT, AXP_CELL_VALUE, AXP_NO_RECORD.
 */
axp_result axp_read(uint32_t blocks, const uint8_t *image, size_t image_len, uint8_t *out, size_t out_len);

/*
 * Repairs the flagged tracks of an image.
 *
 * flags    bit g flags track number g: its cells are not trusted. A track with a lost cell is flagged
 *          too, bit or no bit; AXP_TOO_MANY goes by both.
 * image    AXP_IMAGE_SIZE(blocks) bytes, each 0, 1 or AXP_LOST, in flagged tracks too.
 * out      with answer 0 its first AXP_IMAGE_SIZE(blocks) bytes are the one good record that equals
 *          the image on every track that is not flagged; there is no other. With AXP_NO_RECORD, given
 *          exactly if there is no such record, they are a copy of the image, its lost cells among them.
 *
 * Answers: AXP_OK and 1 to 7.
 */
axp_result axp_repair(uint32_t blocks, uint32_t flags, const uint8_t *image, size_t image_len, uint8_t *out, size_t out_len);

/*
 * Repairs the flagged tracks of an image, and up to one extra track that was not flagged.
 *
 * The flags allow so many extra tracks (flagged tracks in A, in B, those with a lost cell among them:
 * extras):
 *     0,0 and 1,0 and 0,1 and 1,1: one in all; 2,0: one in B; 0,2: one in A;
 *     any other pair that is repaired: none.
 * Without flags and lost cells, a wrong track in each set is out of reach of this call; axp_trace_within
 * with ceiling 2 reaches it.
 *
 * flags, image   as in axp_repair.
 * out      with answer 0 its first AXP_IMAGE_SIZE(blocks) bytes are the one good record that differs
 *          from the image only in flagged tracks and in an extra track so allowed; there is no other.
 *          With AXP_NO_RECORD, given exactly if there is no such record, they are a copy of the image,
 *          its lost cells among them.
 *
 * The call answers and writes what axp_trace_within does with ceiling 1.
 *
 * Answers: AXP_OK and 1 to 7.
 */
axp_result axp_trace(uint32_t blocks, uint32_t flags, const uint8_t *image, size_t image_len, uint8_t *out, size_t out_len);

/*
 * Repairs the flagged tracks of an image, and extra tracks that were not flagged, as many as both the
 * flags and a ceiling allow.
 *
 * The flags allow so many extra tracks (flagged tracks in A, in B, those with a lost cell among them:
 * extras):
 *     0,0: one in each set; 1,0 and 0,1 and 1,1: one in all; 2,0: one in B; 0,2: one in A;
 *     any other pair that is repaired: none.
 *
 * ceiling  0: no extra track, whatever the flags; the call answers and writes what axp_repair does.
 *          1: one in all, where the flags allow it; the call answers and writes what axp_trace does.
 *          2 (AXP_MAX_CEILING): as the flags allow; the call answers and writes what axp_trace did before
 *          version 0.7.
 *          Any other is AXP_CEILING, given where none of 1 to 5 is; the output stays as it came.
 * flags, image   as in axp_repair.
 * out      with answer 0 its first AXP_IMAGE_SIZE(blocks) bytes are the one good record that differs
 *          from the image only in flagged tracks and in extra tracks so allowed; there is no other.
 *          With AXP_NO_RECORD, given exactly if there is no such record, they are a copy of the image,
 *          its lost cells among them.
 *
 * Where a ceiling has answer 0, each higher one up to 2 has it too, with every field of the result and
 * every byte of the output the same.
 *
 * Answers: AXP_OK, AXP_BLOCK_COUNT, AXP_INPUT_LENGTH, AXP_OUTPUT_SHORT, AXP_CELL_VALUE, AXP_FLAG_BIT,
 * AXP_CEILING, AXP_TOO_MANY, AXP_NO_RECORD, the numbers checked in this order.
 */
axp_result axp_trace_within(uint32_t blocks, uint32_t flags, uint32_t ceiling, const uint8_t *image, size_t image_len, uint8_t *out, size_t out_len);

/*
 * Repairs the flagged cells of an image, where a drive distrusted tracks for a while only.
 *
 * The flagged cells are those in a pair of the table, and the lost cells, each of these by itself: here
 * a lost cell does not flag its track. A table is in order: at most AXP_MAX_SPANS pairs, none of length
 * 0, none beyond the image's AXP_IMAGE_SIZE(blocks) cells, each beginning where the one before it ended
 * or later. Offsets and lengths up to 4294967295 are added without overflow. At every position m from 0
 * to L - 1, the tracks with a flagged cell in positions m to m + 15, or to L - 1 where that is sooner,
 * are to be at most three in a set and four in all.
 *
 * spans    spans_len pairs, not bytes; of an empty table it may be a null pointer. Of more than
 *          AXP_MAX_SPANS pairs the first 65 at the most are read.
 * image    AXP_IMAGE_SIZE(blocks) bytes, each 0, 1 or AXP_LOST, flagged or not.
 * out      with answer 0 its first AXP_IMAGE_SIZE(blocks) bytes are the one good record that equals
 *          the image on every cell that is not flagged; there is no other. With AXP_NO_RECORD, given
 *          exactly if there is no such record, they are a copy of the image, its lost cells among them.
 *
 * Where the flagged cells are those of whole tracks, the call answers and writes what axp_repair does
 * for the flags of these tracks. No extra is named.
 *
 * Answers: AXP_OK, AXP_BLOCK_COUNT, AXP_INPUT_LENGTH, AXP_OUTPUT_SHORT, AXP_CELL_VALUE, AXP_SPANS,
 * AXP_TOO_MANY, AXP_NO_RECORD, the numbers checked in this order.
 */
axp_result axp_repair_spans(uint32_t blocks, const axp_span *spans, size_t spans_len, const uint8_t *image, size_t image_len, uint8_t *out, size_t out_len);

/*
 * Packs an image, good record or not.
 *
 * image    AXP_IMAGE_SIZE(blocks) bytes, each 0 or 1: AXP_LOST has no packed form and is AXP_CELL_VALUE.
 * out      with answer 0 its first AXP_PACKED_SIZE(blocks) bytes are the image's packed form, the
 *          padding bits 0. axp_unpack accepts them and gives the image back.
 *
 * Answers: AXP_OK, AXP_BLOCK_COUNT, AXP_INPUT_LENGTH, AXP_OUTPUT_SHORT, AXP_CELL_VALUE.
 */
axp_result axp_pack(uint32_t blocks, const uint8_t *image, size_t image_len, uint8_t *out, size_t out_len);

/*
 * Unpacks a packed form to its image.
 *
 * packed   AXP_PACKED_SIZE(blocks) bytes, every padding bit 0: the last bit of the last byte of each
 *          track, that of value 1 in byte p * (blocks + 2) + blocks + 1 for p from 0 to 17.
 * out      with answer 0 its first AXP_IMAGE_SIZE(blocks) bytes are the image, each 0 or 1. axp_pack
 *          accepts them and gives the packed form back.
 *
 * Answers: AXP_OK, AXP_BLOCK_COUNT, AXP_INPUT_LENGTH, AXP_OUTPUT_SHORT, AXP_PADDING.
 */
axp_result axp_unpack(uint32_t blocks, const uint8_t *packed, size_t packed_len, uint8_t *out, size_t out_len);

/*
 * Writes a cartridge file.
 *
 * entries  how many entries there are; where their bytes are fewer, the call ends with the bytes.
 * bytes    their bytes, one entry after another, each AXP_ENTRY_SIZE(n) bytes for its block count n. They
 *          are looked at one by one: fewer than six bytes left give AXP_INPUT_LENGTH, a count above 256
 *          AXP_BLOCK_COUNT, fewer bytes left than the count asks for AXP_INPUT_LENGTH, a padding bit that
 *          is 1 AXP_PADDING. Bytes left over behind the last give AXP_INPUT_LENGTH. Then AXP_NO_ROOM.
 *          That a packed record is a good one is not looked at; keys may be anything, and twice.
 * out      with answer 0 its first `length` bytes, AXP_DIRECTORY_SIZE(entries) + bytes_len, are the file:
 *          the directory, and the entries behind it in that order, without gaps. axp_file_count counts
 *          `entries` of it, and axp_file_entry finds the i-th of them as entry i.
 *
 * Answers: AXP_OK, AXP_BLOCK_COUNT, AXP_INPUT_LENGTH, AXP_PADDING, AXP_NO_ROOM.
 */
axp_written axp_file_write(uint32_t entries, const uint8_t *bytes, size_t bytes_len, uint8_t *out, size_t out_len);

/*
 * The number of entries of a cartridge file. All rules of a file are looked at.
 *
 * Answers: AXP_OK, AXP_DAMAGED_FILE.
 */
axp_counted axp_file_count(const uint8_t *file, size_t file_len);

/*
 * Finds an entry of a cartridge file. All rules of the file are looked at, of whichever entry, before
 * it is handed out.
 *
 * index    from 0 on, in the directory's order. Past the last entry the stretch is empty, with AXP_OK.
 *
 * With AXP_OK and a length above 0, file + offset is an entry within the file and behind its directory:
 * axp_entry_key, axp_entry_blocks, and from offset + 6 on a packed form of that block count, which
 * axp_unpack takes or refuses with AXP_PADDING.
 *
 * Answers: AXP_OK, AXP_DAMAGED_FILE.
 */
axp_stretch axp_file_entry(const uint8_t *file, size_t file_len, uint32_t index);

#if defined(__cplusplus) || (defined(__STDC_VERSION__) && __STDC_VERSION__ >= 199901L)

/*
 * The bit of track t of set A, or of set B, in a flag word or a mask: bit t, or bit 9 + t, for t from 0
 * to 8. Any other t gives bit 31, which is no track's: axp_repair, axp_trace and axp_trace_within refuse
 * a flag word that has it with AXP_FLAG_BIT. Not proved code.
 */
static inline uint32_t axp_flag_a(unsigned t) { return (uint32_t)1 << (t < 9 ? t : 31); }
static inline uint32_t axp_flag_b(unsigned t) { return (uint32_t)1 << (t < 9 ? 9 + t : 31); }

/* The key and the block count of an entry, which has at least six bytes. Not proved code. */
static inline uint32_t axp_entry_key(const uint8_t *entry)
{
    return (uint32_t)entry[0] << 24 | (uint32_t)entry[1] << 16 | (uint32_t)entry[2] << 8 | entry[3];
}

static inline uint32_t axp_entry_blocks(const uint8_t *entry) { return (uint32_t)entry[4] << 8 | entry[5]; }

/* A short text for an answer. Not proved code. */
static inline const char *axp_strerror(uint32_t answer)
{
    switch (answer) {
    case AXP_OK: return "ok";
    case AXP_BLOCK_COUNT: return "the block count is above 256";
    case AXP_INPUT_LENGTH: return "the input has the wrong length";
    case AXP_OUTPUT_SHORT: return "the output is too short";
    case AXP_CELL_VALUE: return "a cell has a value that the call does not take";
    case AXP_FLAG_BIT: return "the flag word has a bit past the last track";
    case AXP_TOO_MANY: return "too many flagged tracks";
    case AXP_NO_RECORD: return "no good record is in reach";
    case AXP_PADDING: return "a padding bit is 1";
    case AXP_SPANS: return "the table of spans is out of order";
    case AXP_DAMAGED_FILE: return "the file is no cartridge file";
    case AXP_NO_ROOM: return "the entries do not fit the file or the output";
    case AXP_CEILING: return "the ceiling is above 2";
    default: return "unknown answer";
    }
}

#endif

#ifdef __cplusplus
}
#endif

#endif
