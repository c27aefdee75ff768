/* Sumbilak: the proved metadata layer of compressed volumes, for firmware in C.
 *
 * Build the archive with `rt staticlib sumbilak` and link target/staticlib/libsumbilak.a. It needs memcpy and memset and nothing else: no heap, no
 * locks, no global state, no input or output. Each call works on the bytes that it is lent and ends.
 *
 * An image is the metadata of one volume: C logical entries, M chunk maps, and a trailer. A unit is 4,096 bytes. There are two editions. Every call but
 * convert takes either:
 *    edition 1   maps of P words, the units; a 32-byte trailer; at most 38,944 bytes
 *    edition 2   maps of P + 1 words, the compressed size and then the units; a 40-byte trailer; at most 41,256 bytes; the first R of its N backing units
 *                may be reserved, for instance for a boot loader: no call counts one free, gives one to a chunk or accepts a plan that writes to one (with an
 *                index: one that is current)
 * The last 32 bytes are tried as edition 1's trailer first, then the last 40 as edition 2's.
 *
 * Slices. A slice is a pointer and a number of elements. (NULL, 0) is an empty slice; otherwise the pointer leads to that many elements, aligned to
 * their type. A slice that is written overlaps no other argument. These are the only things a caller has to see to: any bytes and any numbers get an
 * answer, and nobody has to check first.
 *
 * Answers. number 0 is an answer, with value and extent as each call says, 0 where it names none. Any other number is a refusal:
 *
 *    no.  name        when                                                          place
 *     1   SHORT       image under 32 bytes                                          0
 *     2   FOREIGN     neither trailer's tag and version are there                   0
 *     3   GEOMETRY    a limit broken, or a distance or length that disagrees, or    0
 *                     edition 2's last number not 0
 *     4   BAD LINK    entry neither absent nor below M                              lowest such chunk
 *     5   BAD MAP     a named map of the wrong form; in edition 2 also a reserved   lowest such chunk
 *                     unit, or a size that does not take just the units named
 *     6   SHARED      a map or unit claimed twice                                   the two chunks: place and second
 *     7   RANGE       chunk not below C; byte range empty, off the 4,096 grain,     0
 *                     past the volume's end or (access) across chunks; step count
 *                     above the plan's whole steps
 *     8   SIZE        compressed size 0 or above P * 4,096                          0
 *     9   NO ROOM     fewer units free than the write needs                         free units
 *    10   SMALL       lent output too short (convert: not just long enough)         bytes needed
 *    11   BAD PLAN    a plan rule broken                                            lowest rule broken, 1 to 5
 *    12   BAD ALARM   fraction not a number, below 0 or above 1                     0
 *
 * Every call but the two formats, repair and those with an index (below) first applies 1 to 6 to its image; repair applies 1 to 3. The lowest number
 * wins, but for the calls with an index. A refusal leaves every lent byte as it was, and value, extent and all that a report or a shape has are 0. An answer writes
 * what its comment says and no other byte.
 *
 * The two chunks of 6. The second is the lowest chunk that claims a map or unit of a lower one, or
 * one unit twice. The first, place, is the lowest chunk that it clashes with, or itself if none is
 * lower.
 *
 * On the disk. Unit u is the bytes from 4,096 * u on of the backing disk. The image lies outside
 * the N units, or inside the R reserved ones, and begins at a multiple of 8 bytes on the disk, so
 * that a word can land whole.
 *
 * A fresh image where an old one may be: written in this order, it may be cut at any point.
 *    1. Write FF to the last 32 bytes of the old image, and flush. Zeros will not do: in edition 2
 *       a zero in the last word would say R = 0.
 *    2. Write all of the fresh image but its trailer, and flush. A disk that writes sectors keeps
 *       FF in the trailer's place.
 *    3. Write the trailer, and flush.
 * A start-up finds the old image as it was, or one that is refused, or the fresh one. An image at
 * the end of its region has its last 32 bytes there, however long it is. Elsewhere an old image of
 * another length has them in another place: that one is overwritten.
 */
#ifndef SUMBILAK_H
#define SUMBILAK_H

#include <stdbool.h>
#include <stddef.h>
#include <stdint.h>

/* The version of the calls: 10,000 * the first number + 100 * the second + the third. The second
 * is the last request of the change list that is in, 7 (the held index). The first rises when a
 * call, struct or constant of this header changes, the third with any other change. What a call
 * accepts may change without the first: request 6 narrowed rule 2 so. An image has its edition,
 * which is another number. */
#define SUMBILAK_VERSION 10700
#define SUMBILAK_VERSION_TEXT "1.7.0"

#ifdef __cplusplus
extern "C" {
#endif

/* Sizes that a caller may want for its buffers. */
enum {
    SUMBILAK_UNIT_BYTES = 4096,        /* a backing unit */
    SUMBILAK_MAX_IMAGE_BYTES = 38944,  /* the largest image of edition 1: P = 16, C = 256, M = 288 */
    SUMBILAK_MAX_IMAGE2_BYTES = 41256, /* of edition 2: an image of either edition fits */
    SUMBILAK_LOAD_WORDS = 81,          /* what sumbilak_load writes */
    SUMBILAK_STEP_BYTES = 16,          /* a step of a plan */
    SUMBILAK_MAX_PLAN_STEPS = 64,      /* the longest plan that the checker accepts */
    SUMBILAK_MAX_WRITE_STEPS = 35,     /* the longest that the planner writes in edition 1: P = 16, stored raw */
    SUMBILAK_MAX_WRITE2_STEPS = 36,    /* in edition 2 */
    SUMBILAK_PIECE_BYTES = 12          /* a piece of a split */
};

/* Buffers that are long enough on every volume: for a plan of the planner, in either edition; for
 * the pieces of a split; and for the list of a repair. */
enum {
    SUMBILAK_PLAN_BYTES = 576,       /* 36 steps */
    SUMBILAK_MAX_SPLIT_BYTES = 3072, /* 256 pieces */
    SUMBILAK_MAX_LIST_BYTES = 1024   /* 256 chunks */
};

/* The editions, and the limits of either. Edition 2 reserves R of the N units, 0 to N - P. */
enum {
    SUMBILAK_FIRST_EDITION = 1,
    SUMBILAK_LAST_EDITION = 2,
    SUMBILAK_MIN_CHUNK_UNITS = 2, /* P */
    SUMBILAK_MAX_CHUNK_UNITS = 16,
    SUMBILAK_MIN_CHUNKS = 1, /* C */
    SUMBILAK_MAX_CHUNKS = 256,
    SUMBILAK_MIN_SPARE_MAPS = 1, /* M - C */
    SUMBILAK_MAX_SPARE_MAPS = 32,
    SUMBILAK_MIN_MAPS = 2, /* M: of the fewest chunks, and of the most */
    SUMBILAK_MAX_MAPS = 288,
    SUMBILAK_MIN_UNITS = 2, /* N: P to P * M, here of the smallest P, and of the largest P and M */
    SUMBILAK_MAX_UNITS = 4608
};

/* The words of a set with a bit for each unit, and for each map; and where what sumbilak_load
 * writes stands among its words. */
enum {
    SUMBILAK_UNIT_SET_WORDS = 72,
    SUMBILAK_MAP_SET_WORDS = 5,
    SUMBILAK_LOAD_P = 0,
    SUMBILAK_LOAD_C = 1,
    SUMBILAK_LOAD_M = 2,
    SUMBILAK_LOAD_N = 3,
    SUMBILAK_LOAD_UNIT_SET = 4,
    SUMBILAK_LOAD_MAP_SET = 76
};

/* Parts of an image: a word, and the trailer of edition 1 and of edition 2. */
enum { SUMBILAK_WORD_BYTES = 8, SUMBILAK_TRAILER_BYTES = 32, SUMBILAK_TRAILER2_BYTES = 40 };

/* The kinds of step, "absent" in a step's value, and what sumbilak_access answers. */
enum { SUMBILAK_DATA = 1, SUMBILAK_MAP = 2, SUMBILAK_LINK = 3, SUMBILAK_FENCE = 4 };

#define SUMBILAK_ABSENT UINT32_C(4294967295)

enum { SUMBILAK_READS_NOTHING = 0, SUMBILAK_READS_ZEROS = 1, SUMBILAK_READS_CHUNK = 2 };

/* The bytes of an image with p units in a chunk, c chunks and m chunk maps, in edition 1 and in edition 2. */
#define SUMBILAK_IMAGE_BYTES(p, c, m) (8 * (c) + 8 * (m) * (p) + 32)
#define SUMBILAK_IMAGE2_BYTES(p, c, m) (8 * (c) + 8 * (m) * ((p) + 1) + 40)

enum {
    SUMBILAK_ANSWERED = 0,
    SUMBILAK_SHORT = 1,
    SUMBILAK_FOREIGN = 2,
    SUMBILAK_GEOMETRY = 3,
    SUMBILAK_BAD_LINK = 4,
    SUMBILAK_BAD_MAP = 5,
    SUMBILAK_SHARED = 6,
    SUMBILAK_RANGE = 7,
    SUMBILAK_SIZE = 8,
    SUMBILAK_NO_ROOM = 9,
    SUMBILAK_SMALL = 10,
    SUMBILAK_BAD_PLAN = 11,
    SUMBILAK_BAD_ALARM = 12
};

typedef struct {
    uint64_t number; /* 0, or the refusal's number */
    uint64_t place;  /* the refusal's place */
    uint64_t second; /* of refusal 6 the second chunk */
    uint64_t value;
    uint64_t extent;
} sumbilak_answer;

typedef struct {
    uint64_t number, place, second;
    uint64_t mapped;    /* mapped chunks */
    uint64_t held;      /* units that named maps hold */
    uint64_t free;      /* all other units but the R reserved ones: held + free = N - R */
    uint64_t saved;     /* mapped * P less held: what the mapped chunks would take more, stored raw */
    double held_ratio;  /* held / N */
    double saved_ratio; /* saved / (mapped * P); 0.0 when nothing is mapped */
} sumbilak_report_answer;

typedef struct {
    uint64_t number, place, second;
    uint64_t edition; /* 1 or 2 */
    uint64_t p;       /* units in a chunk */
    uint64_t c;       /* chunks */
    uint64_t m;       /* chunk maps */
    uint64_t n;       /* backing units */
    uint64_t r;       /* reserved units, 0 in edition 1 */
} sumbilak_shape_answer;

/* Writes the image of a fresh volume of edition 1: p units in a chunk (2 to 16), c chunks (1 to 256), m chunk maps (c+1 to c+32), n backing units (p to p*m). Any
 * length but SUMBILAK_IMAGE_BYTES(p, c, m) is refused too. With n at least (c+1)*p a write never finds too little room. Refuses with 3 only. */
sumbilak_answer sumbilak_format(uint8_t *image, size_t len, uint64_t p, uint64_t c, uint64_t m, uint64_t n);

/* The same in edition 2, with the length SUMBILAK_IMAGE2_BYTES(p, c, m), and the first r of the n units reserved (0 to n-p). With n-r at least (c+1)*p a write
 * never finds too little room. Refuses with 3 only.
 *
 * How to choose m and n, in either edition: m = c+1 is enough for every write. To promise room take
 * n = r + (c+1)*p, and m at least n/p, rounded up. As m is at most c+32, r is at most 31*p then. */
sumbilak_answer sumbilak_format2(uint8_t *image, size_t len, uint64_t p, uint64_t c, uint64_t m, uint64_t n, uint64_t r);

/* Judges an image and answers its edition and geometry. Refuses with 1 to 6. */
sumbilak_shape_answer sumbilak_shape(const uint8_t *image, size_t len);

/* Judges an image and rebuilds its free sets. value: the reserved units R, 0 in edition 1. Writes P, C, M, N, then 72 words with a bit for each free unit (a
 * reserved one is never free), then 5 words with a bit for each free map (number u is bit u % 64 of word u / 64). Refuses with 1 to 6, and 10 for fewer than
 * 81 words (place 648). */
sumbilak_answer sumbilak_load(const uint8_t *image, size_t len, uint64_t *out, size_t out_len);

/* Splits `length` bytes of the volume from `offset` at chunk boundaries. value: pieces. Writes for each piece, rising, three little-endian u32: chunk,
 * offset within it, length. Refuses with 1 to 7, and 10. */
sumbilak_answer sumbilak_split(const uint8_t *image, size_t len, uint64_t offset, uint64_t length, uint8_t *out, size_t out_len);

/* What a piece within one chunk reads first. value: 0 nothing (a write that covers its chunk), 1 zeros (the chunk is unmapped), 2 the chunk's units in map
 * order. Refuses with 1 to 7. */
sumbilak_answer sumbilak_access(const uint8_t *image, size_t len, bool write, uint64_t offset, uint64_t length);

/* Where the held words of a chunk's map stand in the image: one little-endian u64 for each unit, in order. value: first byte, extent: bytes; both 0 for an
 * unmapped chunk. Refuses with 1 to 7. */
sumbilak_answer sumbilak_held(const uint8_t *image, size_t len, uint64_t chunk);

/* How many bytes a chunk's compressed data has. value: in edition 2 the size that its map keeps, in edition 1 4,096 for each of its units; 0 for an
 * unmapped chunk. Refuses with 1 to 7. */
sumbilak_answer sumbilak_stored_size(const uint8_t *image, size_t len, uint64_t chunk);

/* ---- writing a chunk: what the caller does
 *
 * Raw chunks, a rule. What shrank to more than P - 1 units, or did not shrink, is handed over raw:
 * the chunk's own P * 4,096 bytes, with that size (sumbilak_is_raw says when). A reader takes a
 * chunk on all P units for raw and decompresses every other. In edition 1 it cannot tell otherwise.
 * In edition 2 a stored size below P * 4,096 on P units shows that the rule was broken. No call
 * refuses for this rule.
 *
 * Pieces. Piece j of the payload is its bytes from 4,096 * j on, at most 4,096. What follows the
 * payload's last byte in its unit is the caller's to choose.
 *
 * Two carries. A plan, the planner's or from any hand, a write or a discard, is carried out so:
 *    1. Carry it with n = sumbilak_steps_before_link(plan, plan_len), before anything of it is
 *       written. Every carry checks the whole plan first, so this is the check too. Where it
 *       refuses, nothing was touched, and image and index stand. Otherwise the image in memory has
 *       the MAP words now, and not LINK's.
 *    2. Perform the steps in order, up to the last:
 *          DATA   write that piece of the payload to that unit
 *          MAP    write the words of that map through, one range of the image (sumbilak_map_at,
 *                 sumbilak_map_bytes): all of them at the first MAP step, nothing at the others
 *          FENCE  flush: all that was written is durable before anything later is written
 *          LINK   carry again, with n one larger than before, and write the chunk's entry through
 *                 (sumbilak_entry_at, SUMBILAK_WORD_BYTES)
 * No other byte of the image changes. A disk that writes sectors may take them from memory whole:
 * memory never holds a word that must not yet reach the disk. In an accepted write a FENCE stands
 * right before LINK. It must be flushed, and so must the last; the DATA and MAP steps may be
 * performed in any order, and FENCEs before the last of them be left out, for the plan in that
 * order keeps the rules as well.
 *
 * One plan at a time. From a plan's first carry until its last FENCE has passed no other plan is
 * carried, not even in memory: its MAP words would take the place of this one's, and no call would
 * refuse. Nothing of another plan is written either: what the chunk held before counts as free from
 * LINK's carry on. Planning, checking and carrying 0 steps are harmless.
 *
 * Reads. A read that began before a plan's LINK must have ended before the next plan's first DATA
 * goes out, which may overwrite the units that it reads.
 *
 * Given up half-way. Where the disk fails, or the second carry is refused, do as after a power
 * failure: see to it that nothing of the plan is on its way to the disk any more, read the image
 * back as the disk has it, open it anew (or go on without an index), and plan anew. The chunk holds
 * what it held, or all of the new where LINK's word got there: a refused carry stores nothing. The
 * second is refused only where something is not as the first left it:
 *    1 to 3    the trailer of the image in memory; with an index also its struct (3)
 *    4 to 6    the entries or maps of the image in memory; with an index only 4, its own chunk's
 *    7, 8      the chunk, the plan's length or n; the size
 *    10        with an index: fewer than SUMBILAK_INDEX_WORDS words
 *    11        the plan's bytes; or what is free, for another plan was carried out in between, or
 *              this one's LINK already
 * The second carry does not see every change. A changed word of the plan's own map it stores anew
 * in memory, and the disk keeps what was written through. By an index it sees no other chunk's
 * entry or map either. */

/* Plans a write of `size` compressed bytes to a chunk, on the lowest free units and the lowest free
 * map: size / 4,096, rounded up, units. The size of a raw chunk is P * 4,096. Edition 1 keeps the
 * number of units and not the size: a payload that needs its length carries it. Edition 2 keeps the
 * size, as word 0 of the map, before the units. value: steps, 16 bytes each:
 *    1 DATA  unit, piece, 0     the caller writes that piece of the payload to that unit
 *    2 MAP   map, word, value   a word of the chunk map (4294967295: absent)
 *    3 LINK  chunk, 0, value    the chunk's entry (4294967295: absent)
 *    4 FENCE 0, 0, 0            everything earlier is durable before anything later starts
 * Refuses with 1 to 10. */
sumbilak_answer sumbilak_plan_write(const uint8_t *image, size_t len, uint64_t chunk, uint64_t size, uint8_t *out, size_t out_len);

/* Plans a discard: no step for an unmapped chunk. value: steps. Refuses with 1 to 7, and 10. */
sumbilak_answer sumbilak_plan_discard(const uint8_t *image, size_t len, uint64_t chunk, uint8_t *out, size_t out_len);

/* Checks a plan from any hand against the image and the request, before any of it is carried out:
 * number 0 exactly when the image is sound, the request good and the five rules kept. What is
 * proved of power failures is proved of plans that pass here, or in a carry, which checks first.
 * The five rules, with k units for a write's size:
 *    1. Whole steps, at most 64, of the four kinds, their fields within these limits:
 *          DATA   unit below N, piece below P, last field 0
 *          MAP    map below M; word below P, in edition 2 below P + 1; value below N or absent,
 *                 of word 0 of edition 2 from 1 to P * 4,096
 *          LINK   chunk below C, then 0, value below M or absent
 *          FENCE  0, 0, 0
 *    2. A write has pieces 0 to k - 1 once each and no other, piece j on the j-th lowest free unit,
 *       counted from 0 (earlier versions took any free units). With too few free units no plan
 *       keeps it. A discard has no DATA.
 *    3. All MAP steps of a write are on one free map, any one, and each word is there once: the
 *       units of pieces 0 to k - 1, then absent; in edition 2 word 0 is the write's size, and these
 *       follow. A discard has no MAP.
 *    4. A write has one LINK, of this chunk to that map. The discard of a mapped chunk has one, of
 *       this chunk to absent. The discard of an unmapped chunk has none.
 *    5. Every DATA and MAP of a write comes before LINK, with a FENCE after the last of them and
 *       before LINK; the last step is a FENCE. The last step of a mapped chunk's discard is a FENCE
 *       (LINK, FENCE will do). An unmapped chunk's discard has no step at all.
 * The order of DATA and MAP steps, and more FENCEs, are the maker's to choose. Refuses with 1 to 8
 * (8 for a write), and 11. */
sumbilak_answer sumbilak_check_write(const uint8_t *image, size_t len, uint64_t chunk, uint64_t size, const uint8_t *plan, size_t plan_len);
sumbilak_answer sumbilak_check_discard(const uint8_t *image, size_t len, uint64_t chunk, const uint8_t *plan, size_t plan_len);

/* Checks the whole plan, then stores the MAP and LINK words of its first n steps in the image and
 * no other byte. DATA steps and the order of FENCEs on the disk are the caller's. Call it with n
 * up to LINK, exclusive, before anything is written, and with LINK when the FENCE before it has
 * passed, as said above; calls with any n up to LINK do no harm. Once LINK is stored the
 * plan is no plan for this image any more (11), and only FENCEs are left. Refuses as the check
 * does, and with 7 for n above the plan's whole steps. */
sumbilak_answer sumbilak_carry_write(uint8_t *image, size_t len, uint64_t chunk, uint64_t size, const uint8_t *plan, size_t plan_len, uint64_t n);
sumbilak_answer sumbilak_carry_discard(uint8_t *image, size_t len, uint64_t chunk, const uint8_t *plan, size_t plan_len, uint64_t n);

/* Repairs an image that is refused with 4, 5 or 6: unlinks every chunk with a bad link or a bad map, and then, among the others, every chunk that shares a
 * map or unit with another, or names a unit twice; both sides of a clash go. Only the entries of those chunks change, to absent. What they held stays in
 * the chunk maps until new plans use them again. value: unlinked chunks. Writes their numbers, rising, a little-endian u32 each: 4 * C bytes are always
 * enough. The result is sound; a sound image is not changed. What is proved of power failures holds again once the image is back on the disk, whole and
 * flushed. Refuses with 1 to 3, and 10. */
sumbilak_answer sumbilak_repair(uint8_t *image, size_t len, uint8_t *out, size_t out_len);

/* Writes an image of edition 1 as one of edition 2 into a second buffer of just SUMBILAK_IMAGE2_BYTES(p, c, m) bytes. Every chunk keeps its map's number and
 * its units, in order; the size of a map that is named is 4,096 for each of its units; a map that no chunk names is absent throughout; no unit is reserved.
 * value: bytes written.
 * Refuses with 1; with 2 whatever is not read as edition 1, an image of edition 2 too; with 3 to 6; and with 10 for a buffer of any other length. */
sumbilak_answer sumbilak_convert(const uint8_t *image, size_t len, uint8_t *out, size_t out_len);

/* Counts of the volume and two ratios, each one rounded division; N counts the reserved units too. Refuses with 1 to 6. */
sumbilak_report_answer sumbilak_report(const uint8_t *image, size_t len);

/* Whether fewer units are free than a level. value: 1 sounds, 0 silent. The level is a count of units, or a fraction of N from 0 to 1, whose product with
 * N is rounded once. The reserved units are counted in N, and never as free: where that product is above N - R, the alarm always sounds. Refuses with 1
 * to 6, and a fraction with 12. */
sumbilak_answer sumbilak_alarm_count(const uint8_t *image, size_t len, uint64_t units);
sumbilak_answer sumbilak_alarm_fraction(const uint8_t *image, size_t len, double fraction);

/* ---- the held index
 *
 * Every call above goes over the whole image before it answers. A caller that works on one image for long opens it once, keeps what is free, and hands that to the
 * calls below: none of them goes over the image again.
 *
 * An index is the image's edition and geometry, in this struct, and SUMBILAK_INDEX_WORDS words that the caller lends to each call and keeps in between: which
 * units and which maps are free. The words are the library's, and never to be written by a caller.
 * Copy them if you like; for plans of your own read them by sumbilak_free_unit and
 * sumbilak_free_map.
 *
 * One opens an image, and from then on only calls of this part store to it, each with the struct and the words as the last one left them. Then every answer and
 * every byte is that of the call of the same name above, on the image as it is then; none refuses with 1 to 6, and a call depends on no chunk's entry or map but
 * its own chunk's.
 * Open again after a crash, a plan given up half-way, a format, a repair, a new N, or any other
 * store to the image.
 *
 * With a stale or made-up index, or an image altered otherwise, a call still ends inside its slices and a refusal still alters nothing lent. It refuses in this
 * order:
 *    1 to 3      as the image's trailer gives them; 3 also where the trailer does not say what the struct says
 *    4           for a call on a chunk below C whose entry is neither absent nor below M, with that chunk (access, on a range, looks only whether it is absent)
 *    10          fewer than SUMBILAK_INDEX_WORDS words, with their bytes, 616
 *    7 to 12     as the call above gives them, by the words that it was lent; 9 with 0 also where these have no free map
 * and no other promise holds then: it may answer by what is free no longer. The calls above never trust an index.
 *
 * The struct never changes. Of the words only the two carries below change any: exactly where they answer and LINK is among the n steps, what the chunk held
 * becomes free and what it holds now does not. Words past SUMBILAK_INDEX_WORDS are never read or written. */
enum { SUMBILAK_INDEX_WORDS = 77 };

typedef struct {
    uint64_t edition, p, c, m, n, r; /* as sumbilak_shape answers them */
} sumbilak_index;

typedef struct {
    sumbilak_answer answer;
    sumbilak_index index; /* all 0 beside a refusal */
} sumbilak_opened;

/* Judges an image, as sumbilak_load does, and writes SUMBILAK_INDEX_WORDS words. Refuses with 1 to 6, and 10 for fewer words (place 616). */
sumbilak_opened sumbilak_open(const uint8_t *image, size_t len, uint64_t *sets, size_t sets_len);

/* Each of these answers as the call of the same name above. */
sumbilak_answer sumbilak_index_plan_write(sumbilak_index index, const uint64_t *sets, size_t sets_len, const uint8_t *image, size_t len, uint64_t chunk,
                                          uint64_t size, uint8_t *out, size_t out_len);
sumbilak_answer sumbilak_index_plan_discard(sumbilak_index index, const uint64_t *sets, size_t sets_len, const uint8_t *image, size_t len, uint64_t chunk,
                                            uint8_t *out, size_t out_len);
sumbilak_answer sumbilak_index_check_write(sumbilak_index index, const uint64_t *sets, size_t sets_len, const uint8_t *image, size_t len, uint64_t chunk,
                                           uint64_t size, const uint8_t *plan, size_t plan_len);
sumbilak_answer sumbilak_index_check_discard(sumbilak_index index, const uint64_t *sets, size_t sets_len, const uint8_t *image, size_t len, uint64_t chunk,
                                             const uint8_t *plan, size_t plan_len);

/* As above; where LINK is among the n steps, the words say afterwards what is free in the image as it is left. */
sumbilak_answer sumbilak_index_carry_write(sumbilak_index index, uint64_t *sets, size_t sets_len, uint8_t *image, size_t len, uint64_t chunk, uint64_t size,
                                           const uint8_t *plan, size_t plan_len, uint64_t n);
sumbilak_answer sumbilak_index_carry_discard(sumbilak_index index, uint64_t *sets, size_t sets_len, uint8_t *image, size_t len, uint64_t chunk,
                                             const uint8_t *plan, size_t plan_len, uint64_t n);

sumbilak_answer sumbilak_index_access(sumbilak_index index, const uint64_t *sets, size_t sets_len, const uint8_t *image, size_t len, bool write,
                                      uint64_t offset, uint64_t length);
sumbilak_answer sumbilak_index_held(sumbilak_index index, const uint64_t *sets, size_t sets_len, const uint8_t *image, size_t len, uint64_t chunk);
sumbilak_answer sumbilak_index_stored_size(sumbilak_index index, const uint64_t *sets, size_t sets_len, const uint8_t *image, size_t len, uint64_t chunk);
sumbilak_report_answer sumbilak_index_report(sumbilak_index index, const uint64_t *sets, size_t sets_len, const uint8_t *image, size_t len);
sumbilak_answer sumbilak_index_alarm_count(sumbilak_index index, const uint64_t *sets, size_t sets_len, const uint8_t *image, size_t len, uint64_t units);
sumbilak_answer sumbilak_index_alarm_fraction(sumbilak_index index, const uint64_t *sets, size_t sets_len, const uint8_t *image, size_t len, double fraction);

/* ---- what a caller would otherwise compute by hand
 *
 * These are C, in this header, and not proved: tests/interface.c holds them to the library. They
 * read and write bytes one by one, so that neither the host's byte order nor alignment matters.
 * sumbilak_image_length, sumbilak_steps_before_link, sumbilak_refusal_name and those that take only
 * numbers take any; the others ask that the bytes are there. An index is one that sumbilak_open or
 * sumbilak_geometry gave beside number 0: the one beside a refusal, all 0, is for none of them. */

/* The name of a refusal, "answered" for 0, and "unknown" for a number that no call gives. */
static inline const char *sumbilak_refusal_name(uint64_t number)
{
    static const char *const names[] = {"answered", "SHORT",    "FOREIGN",  "GEOMETRY", "BAD LINK",
                                        "BAD MAP",  "SHARED",   "RANGE",    "SIZE",     "NO ROOM",
                                        "SMALL",    "BAD PLAN", "BAD ALARM"};
    return number < sizeof names / sizeof names[0] ? names[number] : "unknown";
}

/* The number at a byte: little-endian u32 and u64. */
static inline uint32_t sumbilak_get_u32(const uint8_t *bytes, size_t at)
{
    const uint8_t *b = bytes + at;
    return (uint32_t)b[0] | (uint32_t)b[1] << 8 | (uint32_t)b[2] << 16 | (uint32_t)b[3] << 24;
}

static inline uint64_t sumbilak_get_u64(const uint8_t *bytes, size_t at)
{
    return sumbilak_get_u32(bytes, at) | (uint64_t)sumbilak_get_u32(bytes, at + 4) << 32;
}

static inline void sumbilak_put_u32(uint8_t *bytes, size_t at, uint32_t number)
{
    for (size_t i = 0; i < 4; i++)
        bytes[at + i] = (uint8_t)(number >> 8 * i);
}

/* The edition and geometry that sumbilak_shape answered, as the functions below and sumbilak_open
 * have them. */
static inline sumbilak_index sumbilak_geometry(sumbilak_shape_answer shape)
{
    sumbilak_index g = {shape.edition, shape.p, shape.c, shape.m, shape.n, shape.r};
    return g;
}

/* Where a word lies in the image, as a byte: the entry of a chunk below C, which LINK stores; the
 * first word of a map below M; and one of its words, which MAP stores. */
static inline size_t sumbilak_entry_at(uint64_t chunk)
{
    return (size_t)(8 * chunk);
}

static inline uint64_t sumbilak_map_words(sumbilak_index g)
{
    return g.p + (g.edition - SUMBILAK_FIRST_EDITION);
}

static inline size_t sumbilak_map_bytes(sumbilak_index g)
{
    return (size_t)(8 * sumbilak_map_words(g));
}

static inline size_t sumbilak_map_at(sumbilak_index g, uint64_t map)
{
    return (size_t)(8 * (g.c + map * sumbilak_map_words(g)));
}

static inline size_t sumbilak_map_word_at(sumbilak_index g, uint64_t map, uint64_t word)
{
    return sumbilak_map_at(g, map) + (size_t)(8 * word);
}

/* The bytes of the whole image. */
static inline size_t sumbilak_image_bytes(sumbilak_index g)
{
    bool first = g.edition == SUMBILAK_FIRST_EDITION;
    size_t trailer = first ? SUMBILAK_TRAILER_BYTES : SUMBILAK_TRAILER2_BYTES;
    return sumbilak_map_at(g, g.m) + trailer;
}

/* Whether a trailer of this edition begins here, by tag and version. */
static inline bool sumbilak_tagged(const uint8_t *trailer, uint8_t edition)
{
    static const uint8_t tag[4] = {0x52, 0x4D, 0x41, 0x50};
    for (size_t i = 0; i < 4; i++)
        if (trailer[i] != tag[i])
            return false;
    return trailer[4] == edition && trailer[5] == 0;
}

/* How long the image is that ends with these bytes: the last ones of the region that has it, 40 of
 * them or more (of fewer only edition 1 is told). 0 where they end in no trailer whose limits,
 * distances and length fit; otherwise at most SUMBILAK_MAX_IMAGE2_BYTES, and it may be more than
 * the region or your buffer has: compare before you read. At this length, and no other,
 * sumbilak_shape does not refuse with 1 to 3. The rest of the image is sumbilak_open's to judge. */
static inline size_t sumbilak_image_length(const uint8_t *last, size_t last_len)
{
    const uint32_t size1 = SUMBILAK_TRAILER_BYTES, size2 = SUMBILAK_TRAILER2_BYTES;
    bool first = last_len >= size1 && sumbilak_tagged(last + (last_len - size1), 1);
    if (!first && !(last_len >= size2 && sumbilak_tagged(last + (last_len - size2), 2)))
        return 0;
    uint32_t edition = first ? 1 : 2, size = first ? size1 : size2;
    const uint8_t *t = last + (last_len - size);
    uint32_t p = (uint32_t)t[6] | (uint32_t)t[7] << 8, c = sumbilak_get_u32(t, 8);
    uint32_t m = sumbilak_get_u32(t, 12), n = sumbilak_get_u32(t, 16);
    if (p < SUMBILAK_MIN_CHUNK_UNITS || p > SUMBILAK_MAX_CHUNK_UNITS)
        return 0;
    if (c < SUMBILAK_MIN_CHUNKS || c > SUMBILAK_MAX_CHUNKS)
        return 0;
    if (m < c + SUMBILAK_MIN_SPARE_MAPS || m > c + SUMBILAK_MAX_SPARE_MAPS)
        return 0;
    if (n < p || n > p * m)
        return 0;
    if (!first && (sumbilak_get_u32(t, 32) > n - p || sumbilak_get_u32(t, 36) != 0))
        return 0;
    uint32_t maps = 8 * m * (p + edition - 1), all = 8 * c + maps + size;
    if (sumbilak_get_u32(t, 20) != all - size || sumbilak_get_u32(t, 24) != maps)
        return 0;
    return sumbilak_get_u32(t, 28) == all ? all : 0;
}

/* A step of a plan. */
typedef struct {
    uint32_t kind;   /* SUMBILAK_DATA, SUMBILAK_MAP, SUMBILAK_LINK or SUMBILAK_FENCE */
    uint32_t target; /* the unit, the map or the chunk */
    uint32_t part;   /* the piece or the word */
    uint32_t value;  /* of MAP and LINK: a number or SUMBILAK_ABSENT */
} sumbilak_step;

/* Step i of a plan that has more than i. */
static inline sumbilak_step sumbilak_step_at(const uint8_t *plan, size_t i)
{
    const uint8_t *b = plan + i * SUMBILAK_STEP_BYTES;
    sumbilak_step step = {sumbilak_get_u32(b, 0), sumbilak_get_u32(b, 4), sumbilak_get_u32(b, 8),
                          sumbilak_get_u32(b, 12)};
    return step;
}

/* Writes step i of a plan: a maker's own. Fields that a kind does not use are 0. */
static inline void sumbilak_put_step(uint8_t *plan, size_t i, uint32_t kind, uint32_t target,
                                     uint32_t part, uint32_t value)
{
    uint8_t *b = plan + i * SUMBILAK_STEP_BYTES;
    sumbilak_put_u32(b, 0, kind);
    sumbilak_put_u32(b, 4, target);
    sumbilak_put_u32(b, 8, part);
    sumbilak_put_u32(b, 12, value);
}

/* How many steps of a plan, of any bytes, come before its first LINK: all whole steps where it has
 * none. */
static inline size_t sumbilak_steps_before_link(const uint8_t *plan, size_t plan_len)
{
    size_t i = 0;
    while (i < plan_len / SUMBILAK_STEP_BYTES && sumbilak_step_at(plan, i).kind != SUMBILAK_LINK)
        i++;
    return i;
}

/* How many units a compressed size takes: size / 4,096, rounded up. */
static inline uint64_t sumbilak_units_of(uint64_t size)
{
    return size / SUMBILAK_UNIT_BYTES + (size % SUMBILAK_UNIT_BYTES != 0);
}

/* Whether a chunk of this many bytes is a raw one: it takes all of its units. A writer asks it of
 * the size that compression gave, and hands the chunk's own P * 4,096 bytes over where it is so; a
 * reader asks it of the stored size, and does not decompress where it is so. */
static inline bool sumbilak_is_raw(sumbilak_index g, uint64_t size)
{
    return sumbilak_units_of(size) >= g.p;
}

/* A piece of a split. */
typedef struct {
    uint32_t chunk;
    uint32_t offset; /* within the chunk */
    uint32_t length;
} sumbilak_piece;

/* Piece i of what sumbilak_split wrote, with i below its value. */
static inline sumbilak_piece sumbilak_piece_at(const uint8_t *pieces, size_t i)
{
    const uint8_t *b = pieces + i * SUMBILAK_PIECE_BYTES;
    sumbilak_piece piece = {sumbilak_get_u32(b, 0), sumbilak_get_u32(b, 4),
                            sumbilak_get_u32(b, 8)};
    return piece;
}

/* The bytes of a chunk. */
static inline uint64_t sumbilak_chunk_bytes(sumbilak_index index)
{
    return index.p * SUMBILAK_UNIT_BYTES;
}

/* The first piece of a byte range: up to the end of its chunk, or of the range. The next one is
 * that of the range without it. These are sumbilak_split's pieces where it answers. This function
 * judges nothing: a range that is refused with 7 gives some piece too. */
static inline sumbilak_piece sumbilak_first_piece(sumbilak_index index, uint64_t offset,
                                                  uint64_t length)
{
    uint64_t bytes = sumbilak_chunk_bytes(index), within = offset % bytes, room = bytes - within;
    sumbilak_piece piece = {(uint32_t)(offset / bytes), (uint32_t)within,
                            (uint32_t)(length < room ? length : room)};
    return piece;
}

/* How many units a chunk holds, by what sumbilak_held answered; and the j-th of them, from 0, in
 * the image that was asked. */
static inline uint64_t sumbilak_held_count(sumbilak_answer held)
{
    return held.extent / SUMBILAK_WORD_BYTES;
}

static inline uint64_t sumbilak_held_unit(const uint8_t *image, sumbilak_answer held, uint64_t j)
{
    return sumbilak_get_u64(image, (size_t)(held.value + 8 * j));
}

/* Chunk i of the list that sumbilak_repair wrote, with i below its value. */
static inline uint32_t sumbilak_listed_chunk(const uint8_t *list, size_t i)
{
    return sumbilak_get_u32(list, 4 * i);
}

/* Whether a unit or map is in a set of those that sumbilak_load writes: a unit below 4,608, a map
 * below 320. */
static inline bool sumbilak_in_set(const uint64_t *set, uint64_t number)
{
    return set[number / 64] >> number % 64 & 1;
}

/* Whether a unit or map is free, by the SUMBILAK_INDEX_WORDS words of a current index, as
 * sumbilak_load would say: false for any number from N, or M, on. */
static inline bool sumbilak_free_unit(sumbilak_index index, const uint64_t *sets, uint64_t unit)
{
    return unit < index.n && unit < SUMBILAK_MAX_UNITS && sumbilak_in_set(sets, unit);
}

static inline bool sumbilak_free_map(sumbilak_index index, const uint64_t *sets, uint64_t map)
{
    return map < index.m && map < SUMBILAK_MAX_MAPS &&
           sumbilak_in_set(sets + SUMBILAK_UNIT_SET_WORDS, map);
}

#ifdef __cplusplus
}
#endif

#endif
