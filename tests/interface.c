/* The worked cases of document 01, with document 02's figure of what is saved, through the C interface, and the edges of C: empty slices, struct
 * sizes; the same volume by a held index; and the header's own functions on volumes of every kind.
 * Says only what is wrong, and how many are right. */
#include <math.h>
#include <stdio.h>
#include <stdlib.h>
#include <string.h>

#include "sumbilak.h"

_Static_assert(sizeof(sumbilak_answer) == 40, "five u64");
_Static_assert(sizeof(sumbilak_report_answer) == 72, "seven u64 and two doubles");
_Static_assert(sizeof(sumbilak_shape_answer) == 72, "nine u64");
_Static_assert(sizeof(sumbilak_index) == 48, "six u64");
_Static_assert(sizeof(sumbilak_opened) == 88, "an answer and an index");
_Static_assert(SUMBILAK_IMAGE_BYTES(16, 256, 288) == SUMBILAK_MAX_IMAGE_BYTES, "the largest image of edition 1");
_Static_assert(SUMBILAK_IMAGE2_BYTES(16, 256, 288) == SUMBILAK_MAX_IMAGE2_BYTES, "and of edition 2");

_Static_assert(SUMBILAK_VERSION == 10700, "request 7 is the last that is in");
_Static_assert(SUMBILAK_MAX_MAPS == SUMBILAK_MAX_CHUNKS + SUMBILAK_MAX_SPARE_MAPS, "M");
_Static_assert(SUMBILAK_MAX_UNITS == SUMBILAK_MAX_CHUNK_UNITS * SUMBILAK_MAX_MAPS, "N");
_Static_assert(SUMBILAK_UNIT_SET_WORDS == (SUMBILAK_MAX_UNITS + 63) / 64, "a bit for each unit");
_Static_assert(SUMBILAK_MAP_SET_WORDS == (SUMBILAK_MAX_MAPS + 63) / 64, "a bit for each map");
_Static_assert(SUMBILAK_INDEX_WORDS == SUMBILAK_UNIT_SET_WORDS + SUMBILAK_MAP_SET_WORDS, "both");
_Static_assert(SUMBILAK_LOAD_MAP_SET == SUMBILAK_LOAD_UNIT_SET + SUMBILAK_UNIT_SET_WORDS, "next");
_Static_assert(SUMBILAK_LOAD_WORDS == SUMBILAK_LOAD_MAP_SET + SUMBILAK_MAP_SET_WORDS, "to the end");

_Static_assert(SUMBILAK_PLAN_BYTES == SUMBILAK_MAX_WRITE2_STEPS * SUMBILAK_STEP_BYTES, "a plan");
_Static_assert(SUMBILAK_MAX_SPLIT_BYTES == SUMBILAK_MAX_CHUNKS * SUMBILAK_PIECE_BYTES, "a split");
_Static_assert(SUMBILAK_MAX_LIST_BYTES == SUMBILAK_MAX_CHUNKS * 4, "a list");

enum { P = 4, C = 4, M = 5, N = 20, IMAGE = SUMBILAK_IMAGE_BYTES(P, C, M), IMAGE2 = SUMBILAK_IMAGE2_BYTES(P, C, M) };
enum { WORDS = SUMBILAK_INDEX_WORDS, LENT = WORDS + 3, PLAN = SUMBILAK_MAX_WRITE2_STEPS * SUMBILAK_STEP_BYTES };

static int asked, failed;

static void is(const char *what, uint64_t found, uint64_t wanted)
{
    asked++;
    if (found == wanted)
        return;
    failed++;
    printf("%s: %llu, not %llu\n", what, (unsigned long long)found, (unsigned long long)wanted);
}

/* Plans a write on an image of `bytes` bytes and carries the first `left` steps fewer than all of it out. */
static uint64_t write_in(uint8_t *image, size_t bytes, uint64_t chunk, uint64_t size, uint64_t left)
{
    uint8_t plan[SUMBILAK_MAX_WRITE2_STEPS * SUMBILAK_STEP_BYTES];
    sumbilak_answer made = sumbilak_plan_write(image, bytes, chunk, size, plan, sizeof plan);
    is("planned", made.number, 0);
    is("own plan passes", sumbilak_check_write(image, bytes, chunk, size, plan, made.value * 16).number, 0);
    is("carried", sumbilak_carry_write(image, bytes, chunk, size, plan, made.value * 16, made.value - left).number, 0);
    return made.value;
}

static uint64_t write_chunk(uint8_t *image, uint64_t chunk, uint64_t size, uint64_t left)
{
    return write_in(image, IMAGE, chunk, size, left);
}

/* The unit words of a chunk, as bytes of a number: units 3, 4 are 0x0304. */
static uint64_t units_in(const uint8_t *image, size_t bytes, uint64_t chunk)
{
    sumbilak_answer held = sumbilak_held(image, bytes, chunk);
    uint64_t all = 0;
    for (uint64_t i = 0; i < held.extent; i += 8)
        all = all << 8 | image[held.value + i];
    return all;
}

static uint64_t units(const uint8_t *image, uint64_t chunk)
{
    return units_in(image, IMAGE, chunk);
}

static uint64_t pieces(const uint8_t *image, uint64_t offset, uint64_t length)
{
    uint8_t out[C * SUMBILAK_PIECE_BYTES];
    sumbilak_answer a = sumbilak_split(image, IMAGE, offset, length, out, sizeof out);
    return a.number ? 1000 + a.number : a.value;
}

static void worked_cases(void)
{
    uint8_t image[IMAGE], other[IMAGE], plan[16] = {4};
    uint64_t loaded[SUMBILAK_LOAD_WORDS];
    static const uint8_t trailer[32] = {0x52, 0x4D, 0x41, 0x50, 1, 0, 4, 0, 4, 0, 0, 0, 5, 0, 0, 0, 0x14, 0, 0, 0, 0xC0, 0, 0, 0, 0xA0, 0, 0, 0, 0xE0, 0, 0, 0};

    is("format", sumbilak_format(image, IMAGE, P, C, M, N).number, 0);
    is("trailer", (uint64_t)memcmp(image + 192, trailer, 32), 0);
    is("load", sumbilak_load(image, IMAGE, loaded, SUMBILAK_LOAD_WORDS).number, 0);
    is("P", loaded[0], P);
    is("C", loaded[1], C);
    is("M", loaded[2], M);
    is("N", loaded[3], N);
    is("free units 0 to 19", loaded[4], 0xFFFFF);
    is("free maps 0 to 4", loaded[76], 0x1F);
    is("80 words", sumbilak_load(image, IMAGE, loaded, 80).place, 648);
    sumbilak_report_answer r = sumbilak_report(image, IMAGE);
    is("the report on a fresh volume", r.number, 0);
    is("all of it is free", r.free, N);
    is("it saves nothing", r.saved, 0);
    is("at 0.0", r.saved_ratio == 0.0 && !signbit(r.saved_ratio), 1);

    is("nine steps", write_chunk(image, 2, 6144, 0), 9);
    is("chunk 2 on units 0, 1", units(image, 2), 0x0001);
    write_chunk(image, 0, 3072, 0);
    is("chunk 0 on unit 2", units(image, 0), 0x02);
    memcpy(other, image, IMAGE);
    write_chunk(other, 0, 5120, 2);
    is("cut before LINK", units(other, 0), 0x02);
    write_chunk(image, 0, 5120, 0);
    is("chunk 0 on units 3, 4", units(image, 0), 0x0304);
    is("load", sumbilak_load(image, IMAGE, loaded, SUMBILAK_LOAD_WORDS).number, 0);
    is("unit 2 is free", loaded[4], 0xFFFE4);
    is("map 1 is free", loaded[76], 0x1A);

    is("0.75 is silent", sumbilak_alarm_fraction(image, IMAGE, 0.75).value, 0);
    is("0.875 sounds", sumbilak_alarm_fraction(image, IMAGE, 0.875).value, 1);
    is("not a number", sumbilak_alarm_fraction(image, IMAGE, NAN).number, 12);
    r = sumbilak_report(image, IMAGE);
    is("mapped", r.mapped, 2);
    is("held", r.held, 4);
    is("free", r.free, 16);
    is("saved", r.saved, 4);
    is("held / N", r.held_ratio == 4.0 / 20.0, 1);
    is("saved / (mapped * P)", r.saved_ratio == 4.0 / 8.0, 1);

    static const uint64_t sizes[][2] = {{1, 1}, {4096, 1}, {4097, 2}, {16384, 4}, {0, 8}, {16385, 8}};
    for (size_t i = 0; i < 6; i++) {
        uint8_t steps[35 * 16];
        sumbilak_answer a = sumbilak_plan_write(image, IMAGE, 1, sizes[i][0], steps, sizeof steps);
        is("units of a size", a.number ? a.number : a.value - P - 3, sizes[i][1]);
    }

    is("20,480 bytes at 4,096", pieces(image, 4096, 20480), 2);
    is("the whole volume", pieces(image, 0, 65536), 4);
    is("past the end", pieces(image, 65536, 4096), 1007);
    is("nothing", pieces(image, 0, 0), 1007);
    is("chunk 3", sumbilak_held(image, IMAGE, 3).number, 0);
    is("chunk 4", sumbilak_held(image, IMAGE, 4).number, 7);
    is("access to an unmapped chunk", sumbilak_access(image, IMAGE, false, 16384, 4096).value, 1);
    is("access to a mapped chunk", sumbilak_access(image, IMAGE, true, 0, 4096).value, 2);
    is("a covering write", sumbilak_access(image, IMAGE, true, 0, 16384).value, 0);

    is("discard of an unmapped chunk", sumbilak_plan_discard(image, IMAGE, 1, NULL, 0).value, 0);
    is("a lone FENCE", sumbilak_check_discard(image, IMAGE, 1, plan, 16).number, 11);
    is("breaks rule 5", sumbilak_check_discard(image, IMAGE, 1, plan, 16).place, 5);
    memcpy(other, image, IMAGE);
    memcpy(other + 24, other + 16, 8); /* chunk 3 names chunk 2's map */
    sumbilak_answer shared = sumbilak_held(other, IMAGE, 0);
    is("shared", shared.number, 6);
    is("by chunk 2", shared.place, 2);
    is("and chunk 3", shared.second, 3);
}

/* A write of two pieces to chunk 0, which holds unit 2, chunk 2 holding units 0, 1: of all pairs of units only the lowest free ones pass, in order, and of the
 * maps every free one. Until request 6 every pair of different free units did. */
static void lowest_units(void)
{
    uint8_t image[IMAGE], before[IMAGE], plan[9 * 16], other[9 * 16];
    sumbilak_format(image, IMAGE, P, C, M, N);
    write_chunk(image, 2, 6144, 0);
    write_chunk(image, 0, 3072, 0);
    memcpy(before, image, IMAGE);
    is("plan", sumbilak_plan_write(image, IMAGE, 0, 5120, plan, sizeof plan).value, 9);

    memcpy(other, plan, sizeof plan);
    for (uint8_t u = 0; u < N; u++)
        for (uint8_t v = 0; v < N; v++) {
            other[4] = other[2 * 16 + 12] = u;
            other[16 + 4] = other[3 * 16 + 12] = v;
            sumbilak_answer a = sumbilak_check_write(image, IMAGE, 0, 5120, other, sizeof other);
            is("a pair of units", a.number * 10 + a.place, u == 3 && v == 4 ? 0 : 112);
        }

    memcpy(other, plan, sizeof plan);
    for (uint8_t m = 0; m < M; m++) {
        for (size_t i = 0; i < P; i++)
            other[(2 + i) * 16 + 4] = m;
        other[7 * 16 + 12] = m;
        sumbilak_answer a = sumbilak_check_write(image, IMAGE, 0, 5120, other, sizeof other);
        is("a map", a.number * 10 + a.place, m < 2 ? 113 : 0);
    }

    memcpy(other, plan + 16, 16); /* piece 1 first */
    memcpy(other + 16, plan, 16);
    memcpy(other + 32, plan + 32, sizeof plan - 32);
    is("another order of DATA steps", sumbilak_check_write(image, IMAGE, 0, 5120, other, sizeof other).number, 0);

    memcpy(other, plan, sizeof plan);
    other[16 + 4] = other[3 * 16 + 12] = 5;
    is("is not carried out", sumbilak_carry_write(image, IMAGE, 0, 5120, other, sizeof other, 9).number, 11);
    is("the image stays", (uint64_t)memcmp(image, before, IMAGE), 0);
}

/* Chunk 0 on units 3, 4 and chunk 2 on units 0, 1, then damaged: chunk 3 names chunk 2's map, and chunk 1 a map that begins with X. */
static void repairs(void)
{
    uint8_t image[IMAGE], sound[IMAGE], damaged[IMAGE], list[16], paint[16];
    sumbilak_format(image, IMAGE, P, C, M, N);
    write_chunk(image, 2, 6144, 0);
    write_chunk(image, 0, 3072, 0);
    write_chunk(image, 0, 5120, 0);
    memcpy(sound, image, IMAGE);
    is("a sound image has nothing to list", sumbilak_repair(image, IMAGE, NULL, 0).number, 0);
    is("and is not changed", (uint64_t)memcmp(image, sound, IMAGE), 0);

    memcpy(image + 24, image + 16, 8);
    memset(image + 8, 0, 8);
    image[8] = 4;
    memcpy(damaged, image, IMAGE);
    memset(list, 0xA5, sizeof list);
    memset(paint, 0xA5, sizeof paint);
    sumbilak_answer a = sumbilak_repair(image, IMAGE, list, 11);
    is("11 bytes are too few", a.number, 10);
    is("12 are needed", a.place, 12);
    is("value 0", a.value, 0);
    is("the image stays", (uint64_t)memcmp(image, damaged, IMAGE), 0);
    is("the list stays", (uint64_t)memcmp(list, paint, sizeof list), 0);

    a = sumbilak_repair(image, IMAGE, list, 12);
    is("repaired", a.number, 0);
    is("three chunks", a.value, 3);
    is("no extent", a.extent, 0);
    static const uint8_t unlinked[12] = {1, 0, 0, 0, 2, 0, 0, 0, 3, 0, 0, 0};
    is("chunks 1, 2, 3", (uint64_t)memcmp(list, unlinked, 12), 0);
    is("nothing past the list", (uint64_t)memcmp(list + 12, paint, 4), 0);
    is("chunk 0 keeps units 3, 4", units(image, 0), 0x0304);
    is("chunk 2 has none", sumbilak_held(image, IMAGE, 2).extent, 0);
    is("no byte moved past the entries", (uint64_t)memcmp(image + 32, damaged + 32, IMAGE - 32), 0);
    is("again", sumbilak_repair(image, IMAGE, NULL, 0).value, 0);
    is("it takes the next write", write_chunk(image, 1, 4096, 0), 8);

    image[IMAGE - 1] = 1;
    is("a foreign length", sumbilak_repair(image, IMAGE, list, 16).number, 3);
    image[IMAGE - 32] = 0;
    is("a foreign tag", sumbilak_repair(image, IMAGE, list, 16).number, 2);
}

/* The same volume in edition 2, where a map begins with the size: written, damaged, and converted from edition 1. */
static void edition_2(void)
{
    uint8_t image[IMAGE2], other[IMAGE2], old[IMAGE], paint[IMAGE2];
    static const uint8_t trailer[40] = {0x52, 0x4D, 0x41, 0x50, 2, 0, 4, 0, 4, 0, 0, 0, 5, 0, 0, 0, 0x14, 0, 0, 0,
                                        0xE8, 0,    0,    0,    0xC8, 0, 0, 0, 0x10, 1, 0, 0, 0, 0, 0, 0, 0,    0, 0, 0};
    is("272 bytes", IMAGE2, 272);
    is("format", sumbilak_format2(image, IMAGE2, P, C, M, N, 0).number, 0);
    is("trailer", (uint64_t)memcmp(image + 232, trailer, 40), 0);
    memcpy(other, image, IMAGE2);
    is("21 units", sumbilak_format2(image, IMAGE2, P, C, M, 21, 0).number, 3);
    is("edition 1's length", sumbilak_format2(image, IMAGE, P, C, M, N, 0).number, 3);
    is("a refusal changes nothing", (uint64_t)memcmp(image, other, IMAGE2), 0);
    sumbilak_shape_answer g = sumbilak_shape(image, IMAGE2);
    is("number 0", g.number, 0);
    is("edition 2", g.edition, 2);
    is("P", g.p, P);
    is("C", g.c, C);
    is("M", g.m, M);
    is("N", g.n, N);
    is("R", g.r, 0);

    is("ten steps", write_in(image, IMAGE2, 2, 6144, 0), 10);
    is("chunk 2 on units 0, 1", units_in(image, IMAGE2, 2), 0x0001);
    is("its size", sumbilak_stored_size(image, IMAGE2, 2).value, 6144);
    is("no extent", sumbilak_stored_size(image, IMAGE2, 2).extent, 0);
    is("chunk 1 is unmapped", sumbilak_stored_size(image, IMAGE2, 1).value, 0);
    is("chunk 4 is none", sumbilak_stored_size(image, IMAGE2, 4).number, 7);
    write_in(image, IMAGE2, 0, 3072, 0);
    write_in(image, IMAGE2, 0, 5120, 2);
    is("a cut before LINK keeps the size", sumbilak_stored_size(image, IMAGE2, 0).value, 3072);
    write_in(image, IMAGE2, 0, 5120, 0);
    is("the new size", sumbilak_stored_size(image, IMAGE2, 0).value, 5120);

    memcpy(other, image, IMAGE2);
    memset(other + 32, 0, 8); /* word 0 of map 0, which chunk 2 names */
    is("a size of no unit", sumbilak_report(other, IMAGE2).number, 5);
    is("of chunk 2", sumbilak_report(other, IMAGE2).place, 2);
    uint8_t list[16];
    is("is unlinked", sumbilak_repair(other, IMAGE2, list, sizeof list).value, 1);
    is("and was chunk 2's", list[0], 2);
    memcpy(other, image, IMAGE2);
    other[IMAGE2 - 1] = 1;
    is("the last number is 0", sumbilak_shape(other, IMAGE2).number, 3);
    is("and no shape is answered", sumbilak_shape(other, IMAGE2).edition, 0);

    sumbilak_format(old, IMAGE, P, C, M, N);
    write_chunk(old, 2, 6144, 0);
    write_chunk(old, 0, 3072, 0);
    write_chunk(old, 0, 5120, 0);
    is("edition 1", sumbilak_shape(old, IMAGE).edition, 1);
    is("k units", sumbilak_stored_size(old, IMAGE, 2).value, 8192);
    memset(other, 0xA5, sizeof other);
    memset(paint, 0xA5, sizeof paint);
    is("one byte too few", sumbilak_convert(old, IMAGE, other, IMAGE2 - 1).number, 10);
    is("272 are needed", sumbilak_convert(old, IMAGE, other, IMAGE2 - 1).place, 272);
    is("edition 2 is not converted", sumbilak_convert(image, IMAGE2, other, IMAGE2).number, 2);
    is("the buffer stays", (uint64_t)memcmp(other, paint, IMAGE2), 0);
    is("converted", sumbilak_convert(old, IMAGE, other, IMAGE2).value, 272);
    is("to edition 2", sumbilak_shape(other, IMAGE2).edition, 2);
    is("chunk 0 on units 3, 4", units_in(other, IMAGE2, 0), 0x0304);
    is("with all their bytes", sumbilak_stored_size(other, IMAGE2, 0).value, 8192);
    memset(paint, 0xFF, sizeof paint);
    is("the dead map is X throughout", (uint64_t)memcmp(other + 32 + 40, paint, 40), 0);
    is("it takes the next write", write_in(other, IMAGE2, 1, 4095, 0), 9);
    is("with its size", sumbilak_stored_size(other, IMAGE2, 1).value, 4095);
}

/* The same volume with its first R units reserved: no call counts one free, gives one to a chunk or accepts a plan that writes to one. */
static void reserved_units(void)
{
    enum { R = 3 };
    uint8_t image[IMAGE2], other[IMAGE2], old[IMAGE], list[16], plan[SUMBILAK_MAX_WRITE2_STEPS * SUMBILAK_STEP_BYTES];
    uint64_t loaded[SUMBILAK_LOAD_WORDS];
    static const uint8_t trailer[40] = {0x52, 0x4D, 0x41, 0x50, 2, 0, 4, 0, 4, 0, 0, 0, 5, 0, 0, 0, 0x14, 0, 0, 0,
                                        0xE8, 0,    0,    0,    0xC8, 0, 0, 0, 0x10, 1, 0, 0, 3, 0, 0, 0, 0,    0, 0, 0};

    is("all but P units reserved", sumbilak_format2(image, IMAGE2, P, C, M, N, 16).number, 0);
    is("a raw write takes the rest", write_in(image, IMAGE2, 1, 16384, 0), 12);
    is("units 16 to 19", units_in(image, IMAGE2, 1), 0x10111213);
    is("and leaves none", sumbilak_plan_write(image, IMAGE2, 0, 1, plan, sizeof plan).number, 9);
    is("free 0", sumbilak_plan_write(image, IMAGE2, 0, 1, plan, sizeof plan).place, 0);
    /* the rounded product decides: 0.8 is a little above 16/20, and 0.8 * 20 rounds to 16, as many as are free */
    is("four reserved", sumbilak_format2(image, IMAGE2, P, C, M, N, 4).number, 0);
    is("0.8 of N is silent", sumbilak_alarm_fraction(image, IMAGE2, 0.8).value, 0);
    is("0.8125 of N sounds", sumbilak_alarm_fraction(image, IMAGE2, 0.8125).value, 1);
    is("none reserved", sumbilak_format2(image, IMAGE2, P, C, M, N, 0).number, 0);
    is("R 0", sumbilak_load(image, IMAGE2, loaded, SUMBILAK_LOAD_WORDS).value, 0);
    is("format", sumbilak_format2(image, IMAGE2, P, C, M, N, R).number, 0);
    is("trailer", (uint64_t)memcmp(image + 232, trailer, 40), 0);
    memcpy(other, image, IMAGE2);
    static const uint64_t above[] = {17, 20, UINT32_MAX, UINT64_C(1) << 32, (UINT64_C(1) << 32) + 3, UINT64_MAX};
    for (size_t i = 0; i < sizeof above / sizeof above[0]; i++)
        is("R above N-P", sumbilak_format2(image, IMAGE2, P, C, M, N, above[i]).number, 3);
    static const uint64_t any[] = {0, 1, UINT32_MAX, UINT64_C(1) << 32, UINT64_MAX};
    for (size_t i = 0; i < sizeof any / sizeof any[0]; i++) {
        is("N below P", sumbilak_format2(image, IMAGE2, P, C, M, 3, any[i]).number, 3);
        is("no unit at all", sumbilak_format2(image, IMAGE2, P, C, M, 0, any[i]).number, 3);
    }
    is("21 units, R 17", sumbilak_format2(image, IMAGE2, P, C, M, 21, 17).number, 3);
    is("a refusal changes nothing", (uint64_t)memcmp(image, other, IMAGE2), 0);

    is("R of the shape", sumbilak_shape(image, IMAGE2).r, R);
    is("N of the shape", sumbilak_shape(image, IMAGE2).n, N);
    sumbilak_answer a = sumbilak_load(image, IMAGE2, loaded, SUMBILAK_LOAD_WORDS);
    is("load", a.number, 0);
    is("R of the load", a.value, R);
    is("no extent", a.extent, 0);
    is("N", loaded[3], N);
    is("free units 3 to 19", loaded[4], 0xFFFF8);
    uint64_t past = 0;
    for (size_t i = 5; i < 76; i++)
        past |= loaded[i];
    is("no unit past 63", past, 0);
    is("free maps 0 to 4", loaded[76], 0x1F);
    a = sumbilak_load(image, IMAGE2, loaded, 80);
    is("80 words", a.number, 10);
    is("and no R", a.value, 0);
    sumbilak_report_answer r = sumbilak_report(image, IMAGE2);
    is("held", r.held, 0);
    is("free", r.free, N - R);
    is("17 units are silent", sumbilak_alarm_count(image, IMAGE2, 17).value, 0);
    is("18 units sound", sumbilak_alarm_count(image, IMAGE2, 18).value, 1);
    is("0.75 of N is silent", sumbilak_alarm_fraction(image, IMAGE2, 0.75).value, 0);
    is("0.875 of N sounds", sumbilak_alarm_fraction(image, IMAGE2, 0.875).value, 1);

    is("ten steps", write_in(image, IMAGE2, 2, 6144, 0), 10);
    is("chunk 2 on units 3, 4", units_in(image, IMAGE2, 2), 0x0304);
    is("its size", sumbilak_stored_size(image, IMAGE2, 2).value, 6144);
    is("R stays", sumbilak_load(image, IMAGE2, loaded, SUMBILAK_LOAD_WORDS).value, R);
    is("free units 5 to 19", loaded[4], 0xFFFE0);
    is("the trailer stays", (uint64_t)memcmp(image + 232, trailer, 40), 0);
    r = sumbilak_report(image, IMAGE2);
    is("mapped", r.mapped, 1);
    is("held", r.held, 2);
    is("held and free are N-R", r.held + r.free, N - R);
    is("saved", r.saved, 2);
    is("held / N", r.held_ratio == 2.0 / 20.0, 1);
    is("saved / (mapped * P)", r.saved_ratio == 2.0 / 4.0, 1);
    is("15 units are silent", sumbilak_alarm_count(image, IMAGE2, 15).value, 0);
    is("16 units sound", sumbilak_alarm_count(image, IMAGE2, 16).value, 1);

    /* a MAP word or a DATA step on unit 2 */
    is("plan", sumbilak_plan_write(image, IMAGE2, 0, 5120, plan, sizeof plan).value, 10);
    is("on unit 5", plan[4], 5);
    is("in word 1 of map 1", plan[3 * 16 + 12], 5);
    memcpy(other, image, IMAGE2);
    plan[3 * 16 + 12] = R - 1;
    a = sumbilak_check_write(image, IMAGE2, 0, 5120, plan, 160);
    is("a MAP word with a reserved unit", a.number, 11);
    is("breaks rule 3", a.place, 3);
    plan[4] = R - 1;
    a = sumbilak_check_write(image, IMAGE2, 0, 5120, plan, 160);
    is("DATA on a reserved unit", a.number, 11);
    is("breaks rule 2", a.place, 2);
    is("is not carried out", sumbilak_carry_write(image, IMAGE2, 0, 5120, plan, 160, 10).number, 11);
    is("the image stays", (uint64_t)memcmp(image, other, IMAGE2), 0);
    plan[3 * 16 + 12] = plan[4] = 19;
    a = sumbilak_check_write(image, IMAGE2, 0, 5120, plan, 160);
    is("the last unit, which is free", a.number, 11);
    is("is not the lowest", a.place, 2);
    plan[3 * 16 + 12] = plan[4] = 5;
    is("unit 5 is", sumbilak_check_write(image, IMAGE2, 0, 5120, plan, 160).number, 0);

    /* a named map with unit 2: map 0, which chunk 2 names, has its first unit at byte 40 */
    other[40] = R - 1;
    a = sumbilak_load(other, IMAGE2, loaded, SUMBILAK_LOAD_WORDS);
    is("a map with a reserved unit", a.number, 5);
    is("of chunk 2", a.place, 2);
    is("and no R", a.value, 0);
    is("nor a shape's", sumbilak_shape(other, IMAGE2).r, 0);
    memset(other, 0, 8); /* chunk 0 names map 0 too */
    a = sumbilak_load(other, IMAGE2, loaded, SUMBILAK_LOAD_WORDS);
    is("5 before 6", a.number, 5);
    is("of chunk 0", a.place, 0);
    a = sumbilak_repair(other, IMAGE2, list, sizeof list);
    is("repair", a.number, 0);
    is("unlinks both", a.value, 2);
    is("chunk 0", list[0], 0);
    is("and chunk 2", list[4], 2);
    is("a dead map may hold unit 2", sumbilak_report(other, IMAGE2).free, N - R);
    is("R stays", sumbilak_shape(other, IMAGE2).r, R);

    /* chunk 2 holds units 3 and 4; 15 are left */
    write_in(image, IMAGE2, 0, 16384, 0);
    write_in(image, IMAGE2, 1, 16384, 0);
    write_in(image, IMAGE2, 3, 16384, 0);
    is("chunk 3 on units 13 to 16", units_in(image, IMAGE2, 3), 0x0D0E0F10);
    a = sumbilak_plan_write(image, IMAGE2, 2, 16384, plan, sizeof plan);
    is("four units of three", a.number, 9);
    is("three are free", a.place, 3);
    is("three units of three", write_in(image, IMAGE2, 2, 12288, 0), 11);
    is("units 17 to 19", units_in(image, IMAGE2, 2), 0x111213);
    is("units 3 and 4 are free", sumbilak_load(image, IMAGE2, loaded, SUMBILAK_LOAD_WORDS).number == 0 ? loaded[4] : 0, 0x18);

    /* 10 units for 3 chunks of 2: with R = 2, N-R is (C+1)*P, and there is always room for a write; with R = 3 it is one less */
    for (uint64_t reserved = 2; reserved <= 3; reserved++) {
        uint8_t three[SUMBILAK_IMAGE2_BYTES(2, 3, 5)];
        is("format", sumbilak_format2(three, sizeof three, 2, 3, 5, 10, reserved).number, 0);
        for (uint64_t chunk = 0; chunk < 3; chunk++)
            write_in(three, sizeof three, chunk, 8192, 0);
        a = sumbilak_plan_write(three, sizeof three, 1, 8192, plan, sizeof plan);
        is("room by N-R", a.number, reserved == 2 ? 0 : 9);
        is("the last free unit", a.place, reserved == 2 ? 0 : 1);
    }

    memset(image + 264, 0xFF, 4);
    is("R 4294967295", sumbilak_shape(image, IMAGE2).number, 3);
    memset(image + 264, 0, 8);
    image[264] = 17;
    is("R 17", sumbilak_shape(image, IMAGE2).number, 3);
    is("and no repair", sumbilak_repair(image, IMAGE2, list, sizeof list).number, 3);
    image[264] = 5;
    is("R 5, and chunk 2 on 17 to 19", sumbilak_held(image, IMAGE2, 2).number, 0);
    image[264] = 6;
    is("R 6, and chunk 0 on 5", sumbilak_held(image, IMAGE2, 2).number, 5);

    sumbilak_format(old, IMAGE, P, C, M, N);
    write_chunk(old, 2, 6144, 0);
    is("edition 1 reserves none", sumbilak_load(old, IMAGE, loaded, SUMBILAK_LOAD_WORDS).value, 0);
    is("nor does its shape", sumbilak_shape(old, IMAGE).r, 0);
    sumbilak_plan_discard(old, IMAGE, 2, plan, sizeof plan);
    is("discard", sumbilak_carry_discard(old, IMAGE, 2, plan, 32, 2).number, 0);
    is("all units are free", sumbilak_report(old, IMAGE).free, N);
    is("converted", sumbilak_convert(old, IMAGE, other, IMAGE2).number, 0);
    is("none reserved", sumbilak_shape(other, IMAGE2).r, 0);
    is("all units free", sumbilak_report(other, IMAGE2).free, N);
}

/* What a caller keeps of an image that it opened, and three words past those that are the library's. */
typedef struct {
    sumbilak_index index;
    uint64_t sets[LENT];
} kept;

#define BY(v) (v).index, (v).sets, LENT

static void same(const char *what, sumbilak_answer found, sumbilak_answer wanted)
{
    is(what, (uint64_t)memcmp(&found, &wanted, sizeof found), 0);
}

static void gives(const char *what, sumbilak_answer found, uint64_t number, uint64_t place)
{
    same(what, found, (sumbilak_answer){number, place, 0, 0, 0});
}

static kept open_in(const uint8_t *image, size_t bytes)
{
    kept v;
    memset(&v, 0xA5, sizeof v);
    sumbilak_opened o = sumbilak_open(image, bytes, v.sets, LENT);
    gives("opened", o.answer, 0, 0);
    v.index = o.index;
    return v;
}

/* An index says what a new one would, and the words past the library's are as they were. */
static void newest(const kept *v, const uint8_t *image, size_t bytes)
{
    kept again = open_in(image, bytes);
    is("what a new index says", (uint64_t)memcmp(v, &again, sizeof again), 0);
}

/* Plans a write by the index and carries all of it but `left` steps out, and does the same by the calls that scan: answers, plan and image are equal. */
static uint64_t write_by(kept *v, uint8_t *image, size_t bytes, uint64_t chunk, uint64_t size, uint64_t left)
{
    static uint8_t scanned[SUMBILAK_MAX_IMAGE2_BYTES];
    uint8_t plan[PLAN], other[PLAN];
    memcpy(scanned, image, bytes);
    memset(plan, 0xA5, PLAN);
    memset(other, 0xA5, PLAN);
    sumbilak_answer made = sumbilak_index_plan_write(BY(*v), image, bytes, chunk, size, plan, PLAN);
    same("planned", made, sumbilak_plan_write(image, bytes, chunk, size, other, PLAN));
    is("step for step", (uint64_t)memcmp(plan, other, PLAN), 0);
    gives("own plan passes", sumbilak_index_check_write(BY(*v), image, bytes, chunk, size, plan, made.value * 16), 0, 0);
    gives("carried", sumbilak_index_carry_write(BY(*v), image, bytes, chunk, size, plan, made.value * 16, made.value - left), 0, 0);
    sumbilak_carry_write(scanned, bytes, chunk, size, plan, made.value * 16, made.value - left);
    is("byte for byte", (uint64_t)memcmp(image, scanned, bytes), 0);
    newest(v, image, bytes);
    return made.value;
}

/* Every call that only reads answers by the index as it does by the image alone. */
static void read_by(const kept *v, const uint8_t *image, size_t bytes)
{
    for (uint64_t chunk = 0; chunk <= C; chunk++) {
        same("held words", sumbilak_index_held(BY(*v), image, bytes, chunk), sumbilak_held(image, bytes, chunk));
        same("stored size", sumbilak_index_stored_size(BY(*v), image, bytes, chunk), sumbilak_stored_size(image, bytes, chunk));
    }
    uint64_t others = 0;
    for (uint64_t from = 0; from <= C * P * 2; from++) /* in half units: every second one is off the grain */
        for (uint64_t span = 0; span <= P * 2 + 2; span++)
            for (int write = 0; write < 2; write++) {
                sumbilak_answer a = sumbilak_index_access(BY(*v), image, bytes, write, from * 2048, span * 2048);
                sumbilak_answer b = sumbilak_access(image, bytes, write, from * 2048, span * 2048);
                others += memcmp(&a, &b, sizeof a) != 0;
            }
    is("other answers to access", others, 0);
    sumbilak_report_answer found = sumbilak_index_report(BY(*v), image, bytes), wanted = sumbilak_report(image, bytes);
    is("report", (uint64_t)memcmp(&found, &wanted, sizeof found), 0);
    for (uint64_t level = 0; level <= N + 1; level++)
        same("alarm at a count", sumbilak_index_alarm_count(BY(*v), image, bytes, level), sumbilak_alarm_count(image, bytes, level));
    static const double levels[] = {0.0, 0.1, 0.5, 0.75, 0.8, 0.8125, 0.875, 1.0, 1.5, -0.5, NAN};
    for (size_t i = 0; i < sizeof levels / sizeof levels[0]; i++)
        same("alarm at a fraction", sumbilak_index_alarm_fraction(BY(*v), image, bytes, levels[i]), sumbilak_alarm_fraction(image, bytes, levels[i]));
}

/* An image that does not open gives the number and the chunks that sumbilak_shape gives, an index that is all 0, and no word; so it does with words too few. */
static void does_not_open(const uint8_t *image, size_t bytes, uint64_t number, uint64_t place, uint64_t second)
{
    static const sumbilak_index none;
    kept v, paint;
    memset(&v, 0xA5, sizeof v);
    memset(&paint, 0xA5, sizeof paint);
    for (size_t words = WORDS - 1; words <= LENT; words++) {
        sumbilak_opened o = sumbilak_open(image, bytes, v.sets, words);
        same("does not open", o.answer, (sumbilak_answer){number, place, second, 0, 0});
        is("no index", (uint64_t)memcmp(&o.index, &none, sizeof none), 0);
    }
    is("no word", (uint64_t)memcmp(v.sets, paint.sets, sizeof v.sets), 0);
}

static void opening(void)
{
    static const sumbilak_index none;
    uint8_t image[IMAGE], other[IMAGE];
    uint64_t loaded[SUMBILAK_LOAD_WORDS], few[WORDS], paint[WORDS], rest = 0;
    sumbilak_format(image, IMAGE, P, C, M, N);
    kept v = open_in(image, IMAGE);
    is("edition 1", v.index.edition, 1);
    is("P", v.index.p, P);
    is("C", v.index.c, C);
    is("M", v.index.m, M);
    is("N", v.index.n, N);
    is("R", v.index.r, 0);
    is("free units 0 to 19", v.sets[0], 0xFFFFF);
    is("free maps 0 to 4", v.sets[72], 0x1F);
    for (size_t i = 0; i < WORDS; i++)
        rest |= i == 0 || i == 72 ? 0 : v.sets[i];
    is("and no more", rest, 0);
    for (size_t i = WORDS; i < LENT; i++)
        is("a word past the 77th", v.sets[i], UINT64_C(0xA5A5A5A5A5A5A5A5));
    sumbilak_load(image, IMAGE, loaded, SUMBILAK_LOAD_WORDS);
    is("as load has them", (uint64_t)memcmp(v.sets, loaded + 4, 8 * WORDS), 0);

    memset(few, 0xA5, sizeof few);
    memset(paint, 0xA5, sizeof paint);
    sumbilak_opened o = sumbilak_open(image, IMAGE, few, WORDS - 1);
    gives("76 words", o.answer, 10, 616);
    is("and no index", (uint64_t)memcmp(&o.index, &none, sizeof none), 0);
    gives("no word", sumbilak_open(image, IMAGE, NULL, 0).answer, 10, 616);
    is("nothing is written", (uint64_t)memcmp(few, paint, sizeof few), 0);
    gives("77 words", sumbilak_open(image, IMAGE, few, WORDS).answer, 0, 0);
    is("and all of them", (uint64_t)memcmp(few, v.sets, sizeof few), 0);

    write_chunk(image, 2, 6144, 0);
    does_not_open(image, 31, 1, 0, 0);
    memcpy(other, image, IMAGE);
    other[IMAGE - 32] = 0;
    does_not_open(other, IMAGE, 2, 0, 0);
    memcpy(other, image, IMAGE);
    other[IMAGE - 1] = 1;
    does_not_open(other, IMAGE, 3, 0, 0);
    memcpy(other, image, IMAGE);
    memset(other + 8, 0, 8);
    other[8] = M;
    does_not_open(other, IMAGE, 4, 1, 0);
    other[8] = 4; /* map 4 is X throughout */
    does_not_open(other, IMAGE, 5, 1, 0);
    memcpy(other, image, IMAGE);
    memcpy(other + 24, other + 16, 8); /* chunk 3 names chunk 2's map */
    does_not_open(other, IMAGE, 6, 2, 3);
}

/* Document 01's three writes by an index, and discards. */
static void held_index(void)
{
    uint8_t image[IMAGE], before[IMAGE], other[IMAGE], plan[PLAN], fence[16] = {4};
    sumbilak_format(image, IMAGE, P, C, M, N);
    kept v = open_in(image, IMAGE), w;
    read_by(&v, image, IMAGE);
    is("nine steps", write_by(&v, image, IMAGE, 2, 6144, 0), 9);
    is("free units 2 to 19", v.sets[0], 0xFFFFC);
    is("free maps 1 to 4", v.sets[72], 0x1E);
    is("chunk 2 on units 0, 1", units(image, 2), 0x0001);
    read_by(&v, image, IMAGE);
    is("eight steps", write_by(&v, image, IMAGE, 0, 3072, 0), 8);
    is("free units 3 to 19", v.sets[0], 0xFFFF8);
    is("free maps 2 to 4", v.sets[72], 0x1C);

    /* cut before LINK: the index is the one before, and says what is free in the image found */
    memcpy(other, image, IMAGE);
    w = v;
    write_by(&w, other, IMAGE, 0, 5120, 2);
    is("cut before LINK, the index stays", (uint64_t)memcmp(&w, &v, sizeof v), 0);
    sumbilak_answer held = sumbilak_index_held(BY(w), other, IMAGE, 0);
    is("one unit", held.extent, 8);
    is("chunk 0 on unit 2", other[held.value], 2);
    read_by(&w, other, IMAGE);

    /* each count of steps: two DATA, four MAP, FENCE, LINK, FENCE */
    sumbilak_answer made = sumbilak_index_plan_write(BY(v), image, IMAGE, 0, 5120, plan, PLAN);
    is("nine steps", made.value, 9);
    for (uint64_t n = 0; n <= 9; n++) {
        memcpy(other, image, IMAGE);
        memcpy(before, image, IMAGE);
        w = v;
        gives("n steps", sumbilak_index_carry_write(BY(w), other, IMAGE, 0, 5120, plan, 9 * 16, n), 0, 0);
        sumbilak_carry_write(before, IMAGE, 0, 5120, plan, 9 * 16, n);
        is("byte for byte", (uint64_t)memcmp(other, before, IMAGE), 0);
        is("the index moves with LINK", memcmp(&w, &v, sizeof v) != 0, n >= 8);
        newest(&w, other, IMAGE);
    }
    memcpy(other, image, IMAGE);
    w = v;
    for (uint64_t n = 0; n <= 8; n++)
        gives("step by step", sumbilak_index_carry_write(BY(w), other, IMAGE, 0, 5120, plan, 9 * 16, n), 0, 0);
    newest(&w, other, IMAGE);
    gives("and no more after LINK", sumbilak_index_carry_write(BY(w), other, IMAGE, 0, 5120, plan, 9 * 16, 9), 11, 2);
    newest(&w, other, IMAGE);

    is("nine steps", write_by(&v, image, IMAGE, 0, 5120, 0), 9);
    is("chunk 0 on units 3, 4", units(image, 0), 0x0304);
    is("unit 2 is free", v.sets[0], 0xFFFE4);
    is("map 1 is free", v.sets[72], 0x1A);
    is("the index is that of the steps", (uint64_t)memcmp(&v, &w, sizeof v), 0);
    read_by(&v, image, IMAGE);

    /* a discard gives the chunk's units and its map back; one of an unmapped chunk has no LINK */
    memcpy(before, image, IMAGE);
    w = v;
    gives("discard of an unmapped chunk", sumbilak_index_plan_discard(BY(v), image, IMAGE, 1, NULL, 0), 0, 0);
    gives("no step", sumbilak_index_check_discard(BY(v), image, IMAGE, 1, NULL, 0), 0, 0);
    gives("carried", sumbilak_index_carry_discard(BY(v), image, IMAGE, 1, NULL, 0, 0), 0, 0);
    gives("a lone FENCE", sumbilak_index_check_discard(BY(v), image, IMAGE, 1, fence, 16), 11, 5);
    gives("is not carried out", sumbilak_index_carry_discard(BY(v), image, IMAGE, 1, fence, 16, 1), 11, 5);
    made = sumbilak_index_plan_discard(BY(v), image, IMAGE, 2, plan, PLAN);
    is("two steps", made.value, 2);
    gives("discard", sumbilak_index_check_discard(BY(v), image, IMAGE, 2, plan, 32), 0, 0);
    gives("of no step", sumbilak_index_carry_discard(BY(v), image, IMAGE, 2, plan, 32, 0), 0, 0);
    is("the image stays", (uint64_t)memcmp(image, before, IMAGE), 0);
    is("the index stays", (uint64_t)memcmp(&v, &w, sizeof v), 0);
    gives("up to LINK", sumbilak_index_carry_discard(BY(v), image, IMAGE, 2, plan, 32, 1), 0, 0);
    sumbilak_carry_discard(before, IMAGE, 2, plan, 32, 1);
    is("byte for byte", (uint64_t)memcmp(image, before, IMAGE), 0);
    is("units 0, 1 are free", v.sets[0], 0xFFFE7);
    is("map 0 is free", v.sets[72], 0x1B);
    newest(&v, image, IMAGE);
    read_by(&v, image, IMAGE);
    is("units 0, 1 are used again", write_by(&v, image, IMAGE, 3, 16384, 0), 11);
    is("and 2, 5", units(image, 3), 0x00010205);
}

/* The same volume in edition 2, with three units reserved, until it is full. */
static void held_index_2(void)
{
    enum { R = 3 };
    uint8_t image[IMAGE2], before[IMAGE2], plan[PLAN], paint[PLAN];
    sumbilak_format2(image, IMAGE2, P, C, M, N, R);
    kept v = open_in(image, IMAGE2), w;
    is("edition 2", v.index.edition, 2);
    is("R", v.index.r, R);
    is("free units 3 to 19", v.sets[0], 0xFFFF8);
    is("ten steps", write_by(&v, image, IMAGE2, 2, 6144, 0), 10);
    is("its size", sumbilak_index_stored_size(BY(v), image, IMAGE2, 2).value, 6144);
    write_by(&v, image, IMAGE2, 0, 3072, 0);
    write_by(&v, image, IMAGE2, 0, 5120, 2);
    is("a cut before LINK keeps the size", sumbilak_index_stored_size(BY(v), image, IMAGE2, 0).value, 3072);
    write_by(&v, image, IMAGE2, 0, 5120, 0);
    is("chunk 0 on units 6, 7", units_in(image, IMAGE2, 0), 0x0607);
    is("unit 5 is free", v.sets[0], 0xFFF20);
    is("map 1 is free", v.sets[72], 0x1A);
    read_by(&v, image, IMAGE2);
    write_by(&v, image, IMAGE2, 1, 16384, 0);
    write_by(&v, image, IMAGE2, 3, 16384, 0);
    write_by(&v, image, IMAGE2, 0, 16384, 0);
    is("units 6, 7, 19 are free", v.sets[0], 0x800C0);
    read_by(&v, image, IMAGE2);

    memcpy(before, image, IMAGE2);
    w = v;
    memset(plan, 0xA5, PLAN);
    memset(paint, 0xA5, PLAN);
    gives("four units of three", sumbilak_index_plan_write(BY(v), image, IMAGE2, 2, 16384, plan, PLAN), 9, 3);
    is("no plan", (uint64_t)memcmp(plan, paint, PLAN), 0);
    is("the image stays", (uint64_t)memcmp(image, before, IMAGE2), 0);
    is("the index stays", (uint64_t)memcmp(&v, &w, sizeof v), 0);
    is("three units of three", write_by(&v, image, IMAGE2, 2, 12288, 0), 11);
    is("units 3, 4 are free", v.sets[0], 0x18);
    gives("three units of two", sumbilak_index_plan_write(BY(v), image, IMAGE2, 2, 12288, plan, PLAN), 9, 2);
}

/* What a refused call by an index leaves: the words, the image and the output, byte for byte; and it refuses as the call that scans does. */
static void refused_calls(void)
{
    uint8_t image[IMAGE], left[IMAGE], out[PLAN], paint[PLAN], plan[PLAN], bad[PLAN];
    sumbilak_format(image, IMAGE, P, C, M, N);
    kept v = open_in(image, IMAGE), w;
    write_by(&v, image, IMAGE, 2, 6144, 0);
    write_by(&v, image, IMAGE, 0, 3072, 0);
    is("plan", sumbilak_index_plan_write(BY(v), image, IMAGE, 0, 5120, plan, PLAN).value, 9);
    memcpy(bad, plan, PLAN);
    bad[16 + 4] = bad[3 * 16 + 12] = 5; /* piece 1 on unit 5, which is free and not the lowest */
    memset(out, 0xA5, PLAN);
    memset(paint, 0xA5, PLAN);
    memcpy(left, image, IMAGE);
    w = v;

    gives("plan for chunk 4", sumbilak_index_plan_write(BY(w), left, IMAGE, 4, 5120, out, PLAN), 7, 0);
    gives("plan for chunk 2^64-1", sumbilak_index_plan_write(BY(w), left, IMAGE, UINT64_MAX, 5120, out, PLAN), 7, 0);
    gives("plan of 0 bytes", sumbilak_index_plan_write(BY(w), left, IMAGE, 0, 0, out, PLAN), 8, 0);
    gives("plan of 16,385 bytes", sumbilak_index_plan_write(BY(w), left, IMAGE, 0, 16385, out, PLAN), 8, 0);
    gives("plan in 143 bytes", sumbilak_index_plan_write(BY(w), left, IMAGE, 0, 5120, out, 143), 10, 144);
    gives("plan in none", sumbilak_index_plan_write(BY(w), left, IMAGE, 0, 5120, NULL, 0), 10, 144);
    gives("discard of chunk 4", sumbilak_index_plan_discard(BY(w), left, IMAGE, 4, out, PLAN), 7, 0);
    gives("discard in 31 bytes", sumbilak_index_plan_discard(BY(w), left, IMAGE, 0, out, 31), 10, 32);
    gives("check for chunk 4", sumbilak_index_check_write(BY(w), left, IMAGE, 4, 5120, plan, 144), 7, 0);
    gives("check of 0 bytes", sumbilak_index_check_write(BY(w), left, IMAGE, 0, 0, plan, 144), 8, 0);
    gives("check of a discard of chunk 4", sumbilak_index_check_discard(BY(w), left, IMAGE, 4, plan, 144), 7, 0);
    gives("rule 1", sumbilak_index_carry_write(BY(w), left, IMAGE, 0, 5120, plan, 143, 8), 11, 1);
    gives("rule 2", sumbilak_index_carry_write(BY(w), left, IMAGE, 0, 5120, bad, 144, 9), 11, 2);
    bad[16 + 4] = 4;
    gives("rule 3", sumbilak_index_carry_write(BY(w), left, IMAGE, 0, 5120, bad, 144, 9), 11, 3);
    gives("rule 4", sumbilak_index_carry_write(BY(w), left, IMAGE, 1, 5120, plan, 144, 9), 11, 4);
    gives("rule 5", sumbilak_index_carry_write(BY(w), left, IMAGE, 0, 5120, plan, 128, 8), 11, 5);
    gives("a discard's rule 2", sumbilak_index_carry_discard(BY(w), left, IMAGE, 0, plan, 144, 9), 11, 2);
    gives("ten of nine steps", sumbilak_index_carry_write(BY(w), left, IMAGE, 0, 5120, plan, 144, 10), 7, 0);
    gives("2^64-1 of nine", sumbilak_index_carry_write(BY(w), left, IMAGE, 0, 5120, plan, 144, UINT64_MAX), 7, 0);
    gives("carry for chunk 4", sumbilak_index_carry_write(BY(w), left, IMAGE, 4, 5120, plan, 144, 9), 7, 0);
    gives("carry of 16,385 bytes", sumbilak_index_carry_write(BY(w), left, IMAGE, 0, 16385, plan, 144, 9), 8, 0);
    gives("discard of chunk 4", sumbilak_index_carry_discard(BY(w), left, IMAGE, 4, plan, 144, 9), 7, 0);
    gives("nothing", sumbilak_index_access(BY(w), left, IMAGE, false, 0, 0), 7, 0);
    gives("past the end", sumbilak_index_access(BY(w), left, IMAGE, true, 65536, 4096), 7, 0);
    gives("held by chunk 4", sumbilak_index_held(BY(w), left, IMAGE, 4), 7, 0);
    gives("size of chunk 4", sumbilak_index_stored_size(BY(w), left, IMAGE, 4), 7, 0);
    gives("not a number", sumbilak_index_alarm_fraction(BY(w), left, IMAGE, NAN), 12, 0);
    is("the output stays", (uint64_t)memcmp(out, paint, PLAN), 0);
    is("the image stays", (uint64_t)memcmp(left, image, IMAGE), 0);
    is("the index stays", (uint64_t)memcmp(&w, &v, sizeof v), 0);
    newest(&w, left, IMAGE);

    /* the lowest number wins, as without an index */
    sumbilak_answer a = sumbilak_carry_write(left, IMAGE, 0, 0, bad, 144, 10);
    same("7 before 8 and 11", sumbilak_index_carry_write(BY(w), left, IMAGE, 0, 0, bad, 144, 10), a);
    same("8 before 11", sumbilak_index_check_write(BY(w), left, IMAGE, 0, 0, bad, 144), sumbilak_check_write(left, IMAGE, 0, 0, bad, 144));
    same("7 before 8 and 10", sumbilak_index_plan_write(BY(w), left, IMAGE, 4, 0, NULL, 0), sumbilak_plan_write(left, IMAGE, 4, 0, NULL, 0));

    /* of all pairs of units and all maps the same pass as without an index */
    memcpy(bad, plan, PLAN);
    for (uint8_t first = 0; first < N; first++)
        for (uint8_t second = 0; second < N; second++) {
            bad[4] = bad[2 * 16 + 12] = first;
            bad[16 + 4] = bad[3 * 16 + 12] = second;
            gives("a pair of units", sumbilak_index_check_write(BY(w), left, IMAGE, 0, 5120, bad, 144), first == 3 && second == 4 ? 0 : 11,
                    first == 3 && second == 4 ? 0 : 2);
        }
    memcpy(bad, plan, PLAN);
    for (uint8_t m = 0; m < M; m++) {
        for (size_t i = 0; i < P; i++)
            bad[(2 + i) * 16 + 4] = m;
        bad[7 * 16 + 12] = m;
        gives("a map", sumbilak_index_check_write(BY(w), left, IMAGE, 0, 5120, bad, 144), m < 2 ? 11 : 0, m < 2 ? 3 : 0);
    }
    gives("the last map, carried out", sumbilak_index_carry_write(BY(w), left, IMAGE, 0, 5120, bad, 144, 9), 0, 0);
    is("is not free, and map 1 is", w.sets[72], 0x0E);
    newest(&w, left, IMAGE);
}

enum { ON_A_CHUNK = 8, ALL = 12 };

/* The first `calls` of the calls by an index refuse, each with this number and place, and alter nothing; the others do not, unless words are too few. Eight
 * are on a chunk, with a lone FENCE for a plan, and the last four are not. */
static void each_refuses(const char *what, const kept *v, size_t words, const uint8_t *image, size_t bytes, uint64_t chunk, size_t calls, uint64_t number,
                         uint64_t place)
{
    kept w = *v;
    sumbilak_index x = w.index;
    uint8_t left[IMAGE2], out[PLAN], paint[PLAN], plan[16] = {4};
    memcpy(left, image, bytes);
    memset(out, 0xA5, PLAN);
    memset(paint, 0xA5, PLAN);
    sumbilak_report_answer r = sumbilak_index_report(x, w.sets, words, left, bytes);
    sumbilak_answer a[ALL] = {
        sumbilak_index_plan_write(x, w.sets, words, left, bytes, chunk, 6144, out, PLAN),
        sumbilak_index_plan_discard(x, w.sets, words, left, bytes, chunk, out, PLAN),
        sumbilak_index_check_write(x, w.sets, words, left, bytes, chunk, 6144, plan, 16),
        sumbilak_index_check_discard(x, w.sets, words, left, bytes, chunk, plan, 16),
        sumbilak_index_carry_write(x, w.sets, words, left, bytes, chunk, 6144, plan, 16, 1),
        sumbilak_index_carry_discard(x, w.sets, words, left, bytes, chunk, plan, 16, 1),
        sumbilak_index_held(x, w.sets, words, left, bytes, chunk),
        sumbilak_index_stored_size(x, w.sets, words, left, bytes, chunk),
        sumbilak_index_access(x, w.sets, words, left, bytes, false, 0, 4096),
        {r.number, r.place, r.second, r.mapped + r.held + r.free + r.saved, r.held_ratio != 0.0 || r.saved_ratio != 0.0},
        sumbilak_index_alarm_count(x, w.sets, words, left, bytes, 1),
        sumbilak_index_alarm_fraction(x, w.sets, words, left, bytes, 0.5),
    };
    for (size_t i = 0; i < calls; i++)
        gives(what, a[i], number, place);
    for (size_t i = calls; i < ALL; i++)
        is("the others", a[i].number, words < WORDS ? 10 : 0);
    is("no plan", (uint64_t)memcmp(out, paint, PLAN), 0);
    is("the image stays", (uint64_t)memcmp(left, image, bytes), 0);
    is("the index stays", (uint64_t)memcmp(&w, v, sizeof w), 0);
}

/* Indexes that are made up, too short, or of another image, and images that were altered: what is refused, in which order. */
static void made_up(void)
{
    uint8_t image[IMAGE], other[IMAGE2], plan[PLAN], scanned[PLAN];
    sumbilak_format(image, IMAGE, P, C, M, N);
    write_chunk(image, 2, 6144, 0);
    write_chunk(image, 0, 3072, 0);
    const kept v = open_in(image, IMAGE);

    /* each number of the struct, off by what a narrower number would not show */
    static const uint64_t off[] = {1, UINT64_MAX, 256, 65536, UINT64_C(1) << 32, UINT64_C(1) << 63};
    for (size_t i = 0; i < 6; i++)
        for (size_t j = 0; j < sizeof off / sizeof off[0]; j++) {
            kept w = v;
            uint64_t *numbers[] = {&w.index.edition, &w.index.p, &w.index.c, &w.index.m, &w.index.n, &w.index.r};
            *numbers[i] += off[j];
            each_refuses("a wrong number", &w, LENT, image, IMAGE, 0, ALL, 3, 0);
            each_refuses("before few words", &w, 0, image, IMAGE, 0, ALL, 3, 0);
        }
    kept none;
    memset(&none, 0, sizeof none);
    each_refuses("all 0", &none, LENT, image, IMAGE, 0, ALL, 3, 0);

    /* images that this index does not go with */
    each_refuses("31 bytes", &v, LENT, image, 31, 0, ALL, 1, 0);
    each_refuses("the first 223 bytes", &v, LENT, image, IMAGE - 1, 0, ALL, 2, 0);
    memcpy(other, image, IMAGE);
    other[IMAGE - 32] = 0;
    each_refuses("a foreign tag", &v, LENT, other, IMAGE, 0, ALL, 2, 0);
    memcpy(other, image, IMAGE);
    other[IMAGE - 1] = 1;
    each_refuses("a foreign length", &v, LENT, other, IMAGE, 0, ALL, 3, 0);
    sumbilak_format(other, IMAGE, P, C, M, N - 1);
    each_refuses("another N", &v, LENT, other, IMAGE, 0, ALL, 3, 0);
    sumbilak_convert(image, IMAGE, other, IMAGE2);
    each_refuses("another edition", &v, LENT, other, IMAGE2, 0, ALL, 3, 0);
    const kept v2 = open_in(other, IMAGE2);
    sumbilak_format2(other, IMAGE2, P, C, M, N, 1);
    each_refuses("another R", &v2, LENT, other, IMAGE2, 0, ALL, 3, 0);

    /* an entry that leads outside: M, X as a step writes it, and the last number but X */
    static const uint64_t entries[] = {M, UINT32_MAX, UINT64_C(1) << 32, UINT64_MAX - 1};
    for (size_t i = 0; i < sizeof entries / sizeof entries[0]; i++) {
        memcpy(other, image, IMAGE);
        for (size_t j = 0; j < 8; j++)
            other[24 + j] = (uint8_t)(entries[i] >> 8 * j);
        each_refuses("an entry that leads outside", &v, LENT, other, IMAGE, 3, ON_A_CHUNK, 4, 3);
        each_refuses("before few words", &v, 0, other, IMAGE, 3, ON_A_CHUNK, 4, 3);
        is("access reads the chunk", sumbilak_index_access(BY(v), other, IMAGE, false, 49152, 4096).value, SUMBILAK_READS_CHUNK);
        each_refuses("chunk 4 has no entry", &v, LENT, other, IMAGE, 4, ON_A_CHUNK, 7, 0);
    }

    /* words too few come before 7 to 12 */
    for (size_t words = 0; words < WORDS; words++)
        each_refuses("too few words", &v, words, image, IMAGE, 0, ALL, 10, 616);
    each_refuses("before 7", &v, WORDS - 1, image, IMAGE, 4, ALL, 10, 616);
    gives("before 8", sumbilak_index_plan_write(v.index, v.sets, 76, image, IMAGE, 0, 0, plan, PLAN), 10, 616);
    gives("before a plan's 10", sumbilak_index_plan_write(v.index, v.sets, 76, image, IMAGE, 0, 5120, NULL, 0), 10, 616);
    gives("before a range's 7", sumbilak_index_access(v.index, v.sets, 76, image, IMAGE, true, 1, 0), 10, 616);
    gives("before 12", sumbilak_index_alarm_fraction(v.index, v.sets, 76, image, IMAGE, NAN), 10, 616);
    gives("no words at all", sumbilak_index_held(v.index, NULL, 0, image, IMAGE, 0), 10, 616);
    gives("77 words", sumbilak_index_alarm_count(v.index, v.sets, WORDS, image, IMAGE, 17), 0, 0);

    /* no other chunk's entry or map is looked at: chunk 3's leads outside, and chunk 2's map has a unit past the last */
    memcpy(other, image, IMAGE);
    memset(other + 24, 0x77, 8);
    other[32] = 0x77;
    gives("the scanning call", sumbilak_plan_write(other, IMAGE, 0, 5120, plan, PLAN), 4, 3);
    memset(plan, 0xA5, PLAN);
    memset(scanned, 0xA5, PLAN);
    same("plan", sumbilak_index_plan_write(BY(v), other, IMAGE, 0, 5120, plan, PLAN), sumbilak_plan_write(image, IMAGE, 0, 5120, scanned, PLAN));
    is("step for step", (uint64_t)memcmp(plan, scanned, PLAN), 0);
    kept w = v, whole = v;
    uint8_t left[IMAGE];
    memcpy(left, image, IMAGE);
    gives("check", sumbilak_index_check_write(BY(v), other, IMAGE, 0, 5120, plan, 144), 0, 0);
    gives("carried", sumbilak_index_carry_write(BY(w), other, IMAGE, 0, 5120, plan, 144, 9), 0, 0);
    gives("carried on the whole image", sumbilak_index_carry_write(BY(whole), left, IMAGE, 0, 5120, plan, 144, 9), 0, 0);
    is("the next index is the same", (uint64_t)memcmp(&w, &whole, sizeof w), 0);
    memset(left + 24, 0x77, 8);
    left[32] = 0x77;
    is("and so is what was stored", (uint64_t)memcmp(other, left, IMAGE), 0);

    /* a stale index takes its own plan on a unit that is held since; no call that scans does */
    memcpy(other, image, IMAGE);
    write_chunk(other, 1, 4096, 0);
    is("plan", sumbilak_index_plan_write(BY(v), other, IMAGE, 3, 4096, plan, PLAN).value, 8);
    is("on unit 3", plan[4], 3);
    is("which chunk 1 holds", units(other, 1), 3);
    gives("the stale index takes it", sumbilak_index_check_write(BY(v), other, IMAGE, 3, 4096, plan, 128), 0, 0);
    gives("the check that scans does not", sumbilak_check_write(other, IMAGE, 3, 4096, plan, 128), 11, 2);
    w = open_in(other, IMAGE);
    gives("nor does a new index", sumbilak_index_check_write(BY(w), other, IMAGE, 3, 4096, plan, 128), 11, 2);

    /* words that were made up: the units below N and the maps below M count */
    w = v;
    memset(w.sets, 0, sizeof w.sets);
    gives("nothing free", sumbilak_index_plan_write(BY(w), image, IMAGE, 0, 4096, plan, PLAN), 9, 0);
    w.sets[0] = 2;
    gives("a unit and no map", sumbilak_index_plan_write(BY(w), image, IMAGE, 0, 4096, plan, PLAN), 9, 0);
    gives("two units of one", sumbilak_index_plan_write(BY(w), image, IMAGE, 0, 4097, plan, PLAN), 9, 1);
    memset(w.sets, 0xFF, sizeof w.sets);
    sumbilak_report_answer r = sumbilak_index_report(BY(w), image, IMAGE);
    is("everything is free", r.number == 0 && r.mapped == 0 && r.held == 0 && r.free == N && r.saved == 0, 1);
    is("20 units are silent", sumbilak_index_alarm_count(BY(w), image, IMAGE, 20).value, 0);
    is("21 units sound", sumbilak_index_alarm_count(BY(w), image, IMAGE, 21).value, 1);
}

/* ---- the header's own functions, held to the library */

static uint64_t rng_state = 1;

static uint64_t below(uint64_t n)
{
    rng_state ^= rng_state << 13;
    rng_state ^= rng_state >> 7;
    rng_state ^= rng_state << 17;
    return (rng_state >> 11) % n;
}

static void names(void)
{
    static const char *const told[] = {"answered", "SHORT",    "FOREIGN",  "GEOMETRY", "BAD LINK",
                                       "BAD MAP",  "SHARED",   "RANGE",    "SIZE",     "NO ROOM",
                                       "SMALL",    "BAD PLAN", "BAD ALARM"};
    static const uint64_t others[] = {13, 14, 100, UINT64_C(1) << 32, UINT64_MAX};
    for (uint64_t i = 0; i < sizeof told / sizeof told[0]; i++)
        is(told[i], (uint64_t)strcmp(sumbilak_refusal_name(i), told[i]), 0);
    for (size_t i = 0; i < sizeof others / sizeof others[0]; i++)
        is("no refusal", (uint64_t)strcmp(sumbilak_refusal_name(others[i]), "unknown"), 0);
    is("FOREIGN", (uint64_t)strcmp(sumbilak_refusal_name(SUMBILAK_FOREIGN), "FOREIGN"), 0);
    is("BAD ALARM", (uint64_t)strcmp(sumbilak_refusal_name(SUMBILAK_BAD_ALARM), "BAD ALARM"), 0);

    char text[32];
    snprintf(text, sizeof text, "%d.%d.%d", SUMBILAK_VERSION / 10000, SUMBILAK_VERSION / 100 % 100,
             SUMBILAK_VERSION % 100);
    is("both versions", (uint64_t)strcmp(text, SUMBILAK_VERSION_TEXT), 0);
}

/* Either edition's format of a geometry: its refusal, 0 for none. */
static uint64_t formats(uint64_t edition, uint64_t p, uint64_t c, uint64_t m, uint64_t n)
{
    static uint8_t image[2 * SUMBILAK_MAX_IMAGE2_BYTES];
    sumbilak_index g = {edition, p, c, m, n, 0};
    size_t bytes = sumbilak_image_bytes(g);
    uint64_t number = edition == 1 ? sumbilak_format(image, bytes, p, c, m, n).number
                                   : sumbilak_format2(image, bytes, p, c, m, n, 0).number;
    if (number == 0) {
        sumbilak_shape_answer shape = sumbilak_shape(image, bytes);
        sumbilak_index found = sumbilak_geometry(shape);
        is("the shape's geometry", (uint64_t)memcmp(&found, &g, sizeof g), 0);
    }
    return number;
}

/* The named limits are where format begins to refuse. */
static void named_limits(void)
{
    enum {
        P0 = SUMBILAK_MIN_CHUNK_UNITS,
        P1 = SUMBILAK_MAX_CHUNK_UNITS,
        C0 = SUMBILAK_MIN_CHUNKS,
        C1 = SUMBILAK_MAX_CHUNKS
    };
    enum { S0 = SUMBILAK_MIN_SPARE_MAPS, S1 = SUMBILAK_MAX_SPARE_MAPS };
    for (uint64_t e = SUMBILAK_FIRST_EDITION; e <= SUMBILAK_LAST_EDITION; e++) {
        is("least P", formats(e, P0, 4, 5, P0), 0);
        is("below it", formats(e, P0 - 1, 4, 5, P0), 3);
        is("most P", formats(e, P1, 4, 5, P1), 0);
        is("above it", formats(e, P1 + 1, 4, 5, P1 + 1), 3);
        is("least C", formats(e, P, C0, C0 + S0, P), 0);
        is("below it", formats(e, P, C0 - 1, C0, P), 3);
        is("most C", formats(e, P, C1, C1 + S0, P), 0);
        is("above it", formats(e, P, C1 + 1, C1 + 1 + S0, P), 3);
        is("fewest spare maps", formats(e, P, 9, 9 + S0, P), 0);
        is("below", formats(e, P, 9, 9 + S0 - 1, P), 3);
        is("most spare maps", formats(e, P, 9, 9 + S1, P), 0);
        is("above", formats(e, P, 9, 9 + S1 + 1, P), 3);
        is("the least of all", formats(e, P0, C0, SUMBILAK_MIN_MAPS, SUMBILAK_MIN_UNITS), 0);
        is("one unit less", formats(e, P0, C0, SUMBILAK_MIN_MAPS, SUMBILAK_MIN_UNITS - 1), 3);
        is("the most of all", formats(e, P1, C1, SUMBILAK_MAX_MAPS, SUMBILAK_MAX_UNITS), 0);
        is("one unit more", formats(e, P1, C1, SUMBILAK_MAX_MAPS, SUMBILAK_MAX_UNITS + 1), 3);
    }
    static const uint64_t sizes[][2] = {{0, 0},
                                        {1, 1},
                                        {4095, 1},
                                        {4096, 1},
                                        {4097, 2},
                                        {65536, 16},
                                        {UINT64_MAX, UINT64_C(1) << 52}};
    for (size_t i = 0; i < sizeof sizes / sizeof sizes[0]; i++)
        is("units of a size", sumbilak_units_of(sizes[i][0]), sizes[i][1]);
    sumbilak_index g = {2, P, C, M, N, 0};
    is("three units are no raw chunk", sumbilak_is_raw(g, 3 * 4096), 0);
    is("one byte more is", sumbilak_is_raw(g, 3 * 4096 + 1), 1);
    is("and all of it", sumbilak_is_raw(g, 4 * 4096), 1);
}

typedef struct {
    uint8_t image[SUMBILAK_MAX_IMAGE2_BYTES];
    size_t bytes;
    sumbilak_index g;
    uint64_t sets[WORDS];
} any_volume;

static any_volume v, one, two, all;

/* A volume of any shape, with anything in the maps that no chunk names. */
static void some_volume(uint64_t edition)
{
    sumbilak_index g = {edition, 2 + below(15), 1 + below(12), 0, 0, 0};
    g.m = g.c + 1 + below(4);
    g.n = g.p + below(g.p * g.m - g.p + 1);
    g.r = edition == 1 || below(2) ? 0 : below(g.n - g.p + 1);
    v.g = g;
    v.bytes = sumbilak_image_bytes(g);
    sumbilak_answer a = edition == 1 ? sumbilak_format(v.image, v.bytes, g.p, g.c, g.m, g.n)
                                     : sumbilak_format2(v.image, v.bytes, g.p, g.c, g.m, g.n, g.r);
    gives("formatted at the length that is told", a, 0, 0);
    for (size_t at = sumbilak_map_at(g, 0); at < sumbilak_map_at(g, g.m); at++)
        v.image[at] = 0x5A;
    sumbilak_opened o = sumbilak_open(v.image, v.bytes, v.sets, WORDS);
    gives("anything in dead maps", o.answer, 0, 0);
    is("the geometry", (uint64_t)memcmp(&o.index, &g, sizeof g), 0);
}

/* The bytes that two images differ in all lie in a part: from `at`, so many. */
static void differ_within(const char *what, const any_volume *a, const any_volume *b, size_t at,
                          size_t bytes)
{
    bool same = memcmp(a->image, b->image, at) == 0;
    is(what,
       same && memcmp(a->image + at + bytes, b->image + at + bytes, a->bytes - at - bytes) == 0,
       1);
}

/* Carries n steps out on a copy of the volume, by a copy of its index. A size of 0 is a discard.
 */
static void carry_in(any_volume *w, uint64_t chunk, uint64_t size, const uint8_t *plan,
                     size_t bytes, size_t n)
{
    sumbilak_answer a = size ? sumbilak_index_carry_write(w->g, w->sets, WORDS, w->image, w->bytes,
                                                          chunk, size, plan, bytes, n)
                             : sumbilak_index_carry_discard(w->g, w->sets, WORDS, w->image,
                                                            w->bytes, chunk, plan, bytes, n);
    gives("carried", a, 0, 0);
}

/* Each step of a plan by itself: its word lies where the header says, and no other byte changes.
 * And two carries, up to LINK and with it, leave what one carry of all steps leaves. */
static void step_by_step(uint64_t chunk, uint64_t size, const uint8_t *plan, size_t bytes)
{
    size_t steps = bytes / 16, link = sumbilak_steps_before_link(plan, bytes), data = 0, words = 0;
    one = v;
    for (size_t i = 0; i < steps && i <= link; i++) {
        sumbilak_step s = sumbilak_step_at(plan, i);
        two = one;
        carry_in(&two, chunk, size, plan, bytes, i + 1);
        size_t at = s.kind == SUMBILAK_MAP ? sumbilak_map_word_at(v.g, s.target, s.part)
                                           : sumbilak_entry_at(s.target);
        bool stores = s.kind == SUMBILAK_MAP || s.kind == SUMBILAK_LINK;
        differ_within("no other byte", &one, &two, stores ? at : 0,
                      stores ? SUMBILAK_WORD_BYTES : 0);
        if (stores)
            is("the word", sumbilak_get_u64(two.image, at),
               s.value == SUMBILAK_ABSENT ? UINT64_MAX : s.value);
        data += s.kind == SUMBILAK_DATA;
        words += s.kind == SUMBILAK_MAP;
        is("LINK", s.kind == SUMBILAK_LINK, i == link);
        one = two;
    }
    is("DATA steps", data, sumbilak_units_of(size));
    is("MAP steps", words, size ? sumbilak_map_words(v.g) : 0);

    all = one = v;
    carry_in(&all, chunk, size, plan, bytes, steps);
    carry_in(&one, chunk, size, plan, bytes, link);
    is("the index stays until LINK", (uint64_t)memcmp(one.sets, v.sets, sizeof v.sets), 0);
    if (link < steps) {
        sumbilak_step s = sumbilak_step_at(plan, link);
        bool maps = s.value != SUMBILAK_ABSENT;
        differ_within("the map's words", &one, &v, maps ? sumbilak_map_at(v.g, s.value) : 0,
                      maps ? sumbilak_map_bytes(v.g) : 0);
        two = one;
        carry_in(&two, chunk, size, plan, bytes, link + 1);
        differ_within("the entry", &one, &two, sumbilak_entry_at(chunk), SUMBILAK_WORD_BYTES);
        is("two carries", (uint64_t)memcmp(&two, &all, sizeof all), 0);
    }
    one = v;
    if (size)
        sumbilak_carry_write(one.image, v.bytes, chunk, size, plan, bytes, link);
    else
        sumbilak_carry_discard(one.image, v.bytes, chunk, plan, bytes, link);
    if (link < steps && size)
        sumbilak_carry_write(one.image, v.bytes, chunk, size, plan, bytes, link + 1);
    else if (link < steps)
        sumbilak_carry_discard(one.image, v.bytes, chunk, plan, bytes, link + 1);
    is("without an index", (uint64_t)memcmp(one.image, all.image, v.bytes), 0);
}

/* A maker's own plan of a write: the lowest free units, and the highest free map. */
static size_t own_plan(uint64_t chunk, uint64_t size, uint8_t *plan)
{
    uint64_t loaded[SUMBILAK_LOAD_WORDS], k = sumbilak_units_of(size), unit = 0, map = v.g.m - 1;
    uint32_t head = (uint32_t)(v.g.edition - 1), i = 0, at[16];
    sumbilak_load(v.image, v.bytes, loaded, SUMBILAK_LOAD_WORDS);
    is("P", loaded[SUMBILAK_LOAD_P], v.g.p);
    is("C", loaded[SUMBILAK_LOAD_C], v.g.c);
    is("M", loaded[SUMBILAK_LOAD_M], v.g.m);
    is("N", loaded[SUMBILAK_LOAD_N], v.g.n);
    while (!sumbilak_in_set(loaded + SUMBILAK_LOAD_MAP_SET, map))
        map--;
    for (uint32_t j = 0; j < k; unit++)
        if (sumbilak_in_set(loaded + SUMBILAK_LOAD_UNIT_SET, unit))
            at[j++] = (uint32_t)unit;
    for (uint32_t j = head; j-- > 0;)
        sumbilak_put_step(plan, i++, SUMBILAK_MAP, (uint32_t)map, j, (uint32_t)size);
    for (uint32_t j = (uint32_t)v.g.p; j-- > 0;)
        sumbilak_put_step(plan, i++, SUMBILAK_MAP, (uint32_t)map, head + j,
                          j < k ? at[j] : SUMBILAK_ABSENT);
    sumbilak_put_step(plan, i++, SUMBILAK_FENCE, 0, 0, 0);
    for (uint32_t j = 0; j < k; j++)
        sumbilak_put_step(plan, i++, SUMBILAK_DATA, at[j], j, 0);
    sumbilak_put_step(plan, i++, SUMBILAK_FENCE, 0, 0, 0);
    sumbilak_put_step(plan, i++, SUMBILAK_LINK, (uint32_t)chunk, 0, (uint32_t)map);
    sumbilak_put_step(plan, i++, SUMBILAK_FENCE, 0, 0, 0);
    return i * SUMBILAK_STEP_BYTES;
}

/* The words of the index say what is free as load does, of any number. */
static void free_by_index(void)
{
    uint64_t loaded[SUMBILAK_LOAD_WORDS], others = 0;
    sumbilak_load(v.image, v.bytes, loaded, SUMBILAK_LOAD_WORDS);
    for (uint64_t u = 0; u < SUMBILAK_MAX_UNITS; u++)
        others += sumbilak_free_unit(v.g, v.sets, u) !=
                  sumbilak_in_set(loaded + SUMBILAK_LOAD_UNIT_SET, u);
    for (uint64_t map = 0; map < 64 * SUMBILAK_MAP_SET_WORDS; map++)
        others += sumbilak_free_map(v.g, v.sets, map) !=
                  sumbilak_in_set(loaded + SUMBILAK_LOAD_MAP_SET, map);
    is("free as load says", others, 0);
    is("not from N on", sumbilak_free_unit(v.g, v.sets, v.g.n), 0);
    is("nor from M on", sumbilak_free_map(v.g, v.sets, v.g.m), 0);
    is("nor any number", sumbilak_free_unit(v.g, v.sets, UINT64_MAX), 0);
    is("of either kind", sumbilak_free_map(v.g, v.sets, UINT64_MAX), 0);
}

/* No word past the index is read, whatever the struct says. */
static void free_within(void)
{
    uint64_t lent[2 * WORDS], found = 0;
    sumbilak_index g = {2, 16, 256, UINT64_MAX, UINT64_MAX, 0};
    memset(lent, 0, sizeof lent);
    memset(lent + WORDS, 0xFF, sizeof lent / 2);
    for (uint64_t number = 0; number < 64 * (2 * WORDS - SUMBILAK_UNIT_SET_WORDS); number++)
        found += sumbilak_free_unit(g, lent, number) + sumbilak_free_map(g, lent, number);
    is("nothing past the words", found, 0);
}

/* Writes and discards on volumes of every kind, by the planner's plans and by a maker's own. */
static void plans(void)
{
    for (int i = 0; i < 120; i++) {
        some_volume((uint64_t)(1 + i % 2));
        for (int j = 0; j < 12; j++) {
            uint8_t plan[SUMBILAK_MAX_PLAN_STEPS * SUMBILAK_STEP_BYTES];
            uint64_t chunk = below(v.g.c),
                     size = below(5) == 0 ? 0 : 1 + below(v.g.p * SUMBILAK_UNIT_BYTES);
            sumbilak_answer a =
                size ? sumbilak_plan_write(v.image, v.bytes, chunk, size, plan, sizeof plan)
                     : sumbilak_plan_discard(v.image, v.bytes, chunk, plan, sizeof plan);
            if (a.number == 9)
                continue;
            gives("planned", (sumbilak_answer){a.number, a.place, 0, 0, 0}, 0, 0);
            step_by_step(chunk, size, plan, (size_t)a.value * 16);
            size_t bytes = (size_t)a.value * SUMBILAK_STEP_BYTES;
            if (size) {
                bytes = own_plan(chunk, size, plan);
                gives("a maker's own",
                      sumbilak_check_write(v.image, v.bytes, chunk, size, plan, bytes), 0, 0);
                step_by_step(chunk, size, plan, bytes);
            }
            carry_in(&v, chunk, size, plan, bytes, bytes / SUMBILAK_STEP_BYTES);
            free_by_index();
            sumbilak_answer held = sumbilak_held(v.image, v.bytes, chunk);
            is("held units", sumbilak_held_count(held), sumbilak_units_of(size));
            for (size_t k = 0; k < bytes / SUMBILAK_STEP_BYTES; k++) {
                sumbilak_step s = sumbilak_step_at(plan, k);
                if (s.kind == SUMBILAK_DATA)
                    is("its unit", sumbilak_held_unit(v.image, held, s.part), s.target);
            }
        }
    }
    uint8_t odd[40] = {4, 0, 0, 0, 0, 0, 0, 0, 0, 0, 0, 0, 0, 0, 0, 0, 4,
                       0, 0, 1, 0, 0, 0, 0, 0, 0, 0, 0, 0, 0, 0, 0, 3};
    is("no whole step", sumbilak_steps_before_link(odd, 15), 0);
    is("no plan", sumbilak_steps_before_link(NULL, 0), 0);
    is("no LINK in two steps and a half", sumbilak_steps_before_link(odd, 40), 2);
    is("a kind of four bytes", sumbilak_step_at(odd, 1).kind, 0x01000004);
    odd[16] = 3;
    is("not LINK", sumbilak_steps_before_link(odd, 40), 2);
    odd[19] = 0;
    is("LINK", sumbilak_steps_before_link(odd, 40), 1);
}

/* The pieces of any range, and the list of a repair, as the header reads them. */
static void lists(void)
{
    uint8_t pieces[12 * SUMBILAK_PIECE_BYTES], list[4 * 12];
    for (int i = 0; i < 300; i++) {
        some_volume((uint64_t)(1 + i % 2));
        uint64_t chunk_bytes = v.g.p * 4096, units = v.g.c * v.g.p, first = below(units),
                 offset = 4096 * first;
        uint64_t length = 4096 * (1 + below(units - first)), covered = 0;
        sumbilak_answer a =
            sumbilak_split(v.image, v.bytes, offset, length, pieces, sizeof pieces);
        is("split", a.number, 0);
        for (size_t k = 0; k < a.value; k++) {
            sumbilak_piece piece = sumbilak_piece_at(pieces, k);
            uint64_t from = offset + covered, left = length - covered,
                     room = chunk_bytes - from % chunk_bytes;
            is("chunk", piece.chunk, from / chunk_bytes);
            is("offset", piece.offset, from % chunk_bytes);
            is("length", piece.length, left < room ? left : room);
            sumbilak_piece first = sumbilak_first_piece(v.g, from, left);
            is("the first piece", (uint64_t)memcmp(&first, &piece, sizeof piece), 0);
            covered += piece.length;
        }
        is("all of it", covered, length);
        is("bytes of a chunk", sumbilak_chunk_bytes(v.g), chunk_bytes);

        uint64_t bad = 0;
        for (uint64_t c = 0; c < v.g.c; c++)
            if (below(2))
                memset(v.image + sumbilak_entry_at(c), 0x77, SUMBILAK_WORD_BYTES),
                    bad |= UINT64_C(1) << c;
        a = sumbilak_repair(v.image, v.bytes, list, sizeof list);
        is("repaired", a.number, 0);
        for (size_t k = 0; k < a.value; k++)
            bad ^= UINT64_C(1) << sumbilak_listed_chunk(list, k);
        is("just those chunks", bad, 0);
    }
}

/* Whether two chunks clash by document 01: the maps that they name have a number in common, their
 * own or a unit's. A chunk clashes with itself where it names one unit twice. */
static bool clash(uint64_t a, uint64_t b)
{
    uint64_t head = v.g.edition - 1, map[] = {sumbilak_get_u64(v.image, sumbilak_entry_at(a)),
                                              sumbilak_get_u64(v.image, sumbilak_entry_at(b))};
    if (map[0] == UINT64_MAX || map[1] == UINT64_MAX)
        return false;
    if (a != b && map[0] == map[1])
        return true;
    for (uint64_t i = 0; i < v.g.p; i++)
        for (uint64_t j = 0; j < v.g.p; j++) {
            uint64_t x = sumbilak_get_u64(v.image, sumbilak_map_word_at(v.g, map[0], head + i)),
                     y = sumbilak_get_u64(v.image, sumbilak_map_word_at(v.g, map[1], head + j));
            if (x != UINT64_MAX && x == y && (a != b || i != j))
                return true;
        }
    return false;
}

static void put_word(size_t at, uint64_t word)
{
    sumbilak_put_u32(v.image, at, (uint32_t)word);
    sumbilak_put_u32(v.image, at + 4, (uint32_t)(word >> 32));
}

/* The two chunks of refusal 6, on images whose links and maps are good one by one. */
static void shared(void)
{
    int found = 0, itself = 0;
    for (int i = 0; i < 4000; i++) {
        some_volume((uint64_t)(1 + i % 2));
        uint64_t head = v.g.edition - 1, place = 0, second = 0, number = 0;
        for (uint64_t map = 0; map < v.g.m; map++) {
            uint64_t k = 1 + below(below(2) ? 2 : v.g.p);
            for (uint64_t j = 0; j < v.g.p; j++)
                put_word(sumbilak_map_word_at(v.g, map, head + j),
                         j < k ? v.g.r + below(v.g.n - v.g.r) : UINT64_MAX);
            if (head)
                put_word(sumbilak_map_at(v.g, map), 4096 * k);
        }
        for (uint64_t c = 0; c < v.g.c; c++)
            put_word(sumbilak_entry_at(c), below(3) ? UINT64_MAX : below(v.g.m));
        for (uint64_t b = 0; number == 0 && b < v.g.c; b++)
            for (uint64_t a = 0; number == 0 && a <= b; a++)
                if (clash(a, b)) {
                    number = 6;
                    place = a;
                    second = b;
                }
        sumbilak_shape_answer shape = sumbilak_shape(v.image, v.bytes);
        is("shared", shape.number, number);
        is("with the lowest that it clashes with", shape.place, place);
        is("by the lowest that claims again", shape.second, second);
        found += number != 0;
        itself += number != 0 && place == second;
    }
    is("hundreds of both", found > 400 && found < 3600 && itself > 100, 1);
}

/* N = R + (C+1)*P, and as many maps as that needs, promise room: for R up to 31*P, and no more. */
static void room(void)
{
    static uint8_t image[SUMBILAK_MAX_IMAGE2_BYTES];
    for (uint64_t p = 2; p <= 16; p++)
        for (uint64_t c = 1; c <= 256; c += c < 3 ? 1 : 84 + c % 2)
            for (uint64_t r = 0; r <= 31 * p + 1; r++) {
                uint64_t n = r + (c + 1) * p, m = (n + p - 1) / p;
                uint64_t number = r > 31 * p ? 3 : 0, wide = r > 31 * p ? c + 32 : m;
                size_t bytes = SUMBILAK_IMAGE2_BYTES(p, c, wide);
                is("room", sumbilak_format2(image, bytes, p, c, wide, n, r).number, number);
                if (number || c > 3 || r % 13)
                    continue;
                uint8_t plan[SUMBILAK_PLAN_BYTES];
                for (uint64_t i = 0; i < 3 * c; i++) {
                    sumbilak_answer a =
                        sumbilak_plan_write(image, bytes, i % c, 4096 * p, plan, sizeof plan);
                    is("there is room", a.number, 0);
                    sumbilak_carry_write(image, bytes, i % c, 4096 * p, plan, 16 * a.value,
                                         a.value);
                }
            }
}

/* The header's rule 1 of one step. */
static bool within(sumbilak_step s)
{
    bool size = v.g.edition == 2 && s.part == 0, absent = s.value == SUMBILAK_ABSENT;
    switch (s.kind) {
    case SUMBILAK_DATA:
        return s.target < v.g.n && s.part < v.g.p && s.value == 0;
    case SUMBILAK_MAP:
        if (s.target >= v.g.m || s.part >= v.g.p + v.g.edition - 1)
            return false;
        return size ? s.value >= 1 && s.value <= v.g.p * 4096 : s.value < v.g.n || absent;
    case SUMBILAK_LINK:
        return s.target < v.g.c && s.part == 0 && (s.value < v.g.m || absent);
    case SUMBILAK_FENCE:
        return s.target == 0 && s.part == 0 && s.value == 0;
    }
    return false;
}

/* Rule 1 is broken just where the header says: each field of each step at each limit. */
static void rule_1(void)
{
    uint8_t plan[PLAN];
    for (int i = 0; i < 60; i++) {
        some_volume((uint64_t)(1 + i % 2));
        uint64_t near[] = {0, 1, 2, 3, 4, 5, v.g.p, v.g.c, v.g.m, v.g.n, v.g.p + 1,
                           v.g.p * 4096, v.g.p * 4096 + 1, SUMBILAK_ABSENT};
        sumbilak_answer a = sumbilak_plan_write(v.image, v.bytes, 0, 4097, plan, sizeof plan);
        if (a.number)
            continue;
        for (size_t k = 0; k < a.value; k++)
            for (size_t field = 0; field < 4; field++)
                for (size_t j = 0; j < 2 * sizeof near / sizeof near[0]; j++) {
                    uint32_t was = sumbilak_get_u32(plan, 16 * k + 4 * field);
                    sumbilak_put_u32(plan, 16 * k + 4 * field, (uint32_t)(near[j / 2] - j % 2));
                    sumbilak_answer b = sumbilak_check_write(v.image, v.bytes, 0, 4097, plan,
                                                             16 * (size_t)a.value);
                    is("rule 1", b.place == 1, !within(sumbilak_step_at(plan, k)));
                    sumbilak_put_u32(plan, 16 * k + 4 * field, was);
                }
    }
}

/* More FENCEs than are needed, up to 64 steps; and the discards that pass. */
static void fences(void)
{
    uint8_t image[IMAGE], plan[66 * 16];
    sumbilak_format(image, IMAGE, P, C, M, N);
    for (uint32_t i = 0; i < 66; i++)
        sumbilak_put_step(plan, i, SUMBILAK_FENCE, 0, 0, 0);
    size_t bytes = 16 * sumbilak_plan_write(image, IMAGE, 1, 5000, plan, sizeof plan).value;
    is("as planned", sumbilak_check_write(image, IMAGE, 1, 5000, plan, bytes).number, 0);
    is("64 steps", sumbilak_check_write(image, IMAGE, 1, 5000, plan, 64 * 16).number, 0);
    is("65", sumbilak_check_write(image, IMAGE, 1, 5000, plan, 65 * 16).place, 1);
    is("no whole step", sumbilak_check_write(image, IMAGE, 1, 5000, plan, bytes + 8).place, 1);
    sumbilak_carry_write(image, IMAGE, 1, 5000, plan, bytes, bytes / 16);
    for (uint32_t i = 0; i < 3; i++)
        sumbilak_put_step(plan, i, SUMBILAK_FENCE, 0, 0, 0);
    sumbilak_put_step(plan, 1, SUMBILAK_LINK, 1, 0, SUMBILAK_ABSENT);
    is("LINK, FENCE", sumbilak_check_discard(image, IMAGE, 1, plan + 16, 32).number, 0);
    is("FENCE, LINK, FENCE", sumbilak_check_discard(image, IMAGE, 1, plan, 48).number, 0);
    is("LINK alone", sumbilak_check_discard(image, IMAGE, 1, plan + 16, 16).place, 5);
    is("no step", sumbilak_check_discard(image, IMAGE, 1, NULL, 0).place, 4);
    is("no step, unmapped", sumbilak_check_discard(image, IMAGE, 0, NULL, 0).number, 0);
    is("a FENCE, unmapped", sumbilak_check_discard(image, IMAGE, 0, plan, 16).place, 5);
}

/* What the second carry does not see, and what no call refuses. */
static void unseen(void)
{
    uint8_t image[IMAGE2], was[IMAGE2], plan[PLAN];
    sumbilak_format2(image, IMAGE2, P, C, M, N, 0);
    kept k = open_in(image, IMAGE2);
    sumbilak_answer a = sumbilak_index_plan_write(BY(k), image, IMAGE2, 1, 9000, plan, PLAN);
    size_t bytes = 16 * a.value, link = sumbilak_steps_before_link(plan, bytes);
    size_t map = sumbilak_map_at(k.index, sumbilak_step_at(plan, link).value);
    gives("first", sumbilak_index_carry_write(BY(k), image, IMAGE2, 1, 9000, plan, bytes, link), 0,
          0);
    memcpy(was, image, IMAGE2);
    image[map] ^= 1;                       /* the size in the plan's own map */
    image[sumbilak_entry_at(3) + 7] = 0x77; /* another chunk's entry */
    gives("a scan sees the entry",
          sumbilak_carry_write(image, IMAGE2, 1, 9000, plan, bytes, link + 1), 4, 3);
    gives("an index neither",
          sumbilak_index_carry_write(BY(k), image, IMAGE2, 1, 9000, plan, bytes, link + 1), 0, 0);
    is("the map is stored anew", (uint64_t)memcmp(image + map, was + map, 40), 0);
    memcpy(image, was, IMAGE2);
    image[map] ^= 1;
    gives("nor does a scan see the map",
          sumbilak_carry_write(image, IMAGE2, 1, 9000, plan, bytes, link + 1), 0, 0);
    is("it stores it anew", (uint64_t)memcmp(image + map, was + map, 40), 0);
    write_in(image, IMAGE2, 2, P * 4096 - 1, 0);
    is("not raw, on all P units", sumbilak_stored_size(image, IMAGE2, 2).value, P * 4096 - 1);
    is("P units", sumbilak_held(image, IMAGE2, 2).extent, 8 * P);
}

/* The end of a region, and before it X in every word: an image of any length is sound if its
 * trailer passes. */
static uint8_t region[SUMBILAK_MAX_IMAGE2_BYTES + 64];

static bool passes(size_t bytes)
{
    return sumbilak_shape(region + sizeof region - bytes, bytes).number == 0;
}

static size_t told(size_t last)
{
    return sumbilak_image_length(region + sizeof region - last, last);
}

static void end_with(const uint8_t *image, size_t bytes)
{
    size_t last = bytes < 40 ? bytes : 40;
    memset(region, 0xFF, sizeof region);
    memcpy(region + sizeof region - last, image + bytes - last, last);
}

/* The length that is told is the only one at which the trailer passes; 0 where there is none. All
 * lengths are tried, or those that the bytes suggest. */
static void only_length(bool every)
{
    size_t length = told(40);
    if (length != 0)
        is("it passes", length <= SUMBILAK_MAX_IMAGE2_BYTES && passes(length), 1);
    size_t others = 0;
    uint64_t said[] = {sumbilak_get_u32(region, sizeof region - 4),
                       sumbilak_get_u32(region, sizeof region - 12)};
    for (size_t bytes = 0; every && bytes <= sizeof region; bytes++)
        others += bytes != length && passes(bytes);
    for (size_t i = 0; i < 2; i++)
        others += said[i] != length && said[i] <= sizeof region && passes((size_t)said[i]);
    is("no other length does", others, 0);
    is("of more bytes the same", told(sizeof region), length);
    is("of 41", told(41), length);
}

/* A trailer whose distances and length agree with its numbers, whatever these are: near the
 * limits, on both sides. */
static void agreeing_trailer(uint32_t edition)
{
    static const uint32_t ps[] = {0, 1, 2, 3, 15, 16, 17}, cs[] = {0, 1, 2, 255, 256, 257},
                          spares[] = {0, 1, 2, 31, 32, 33};
    uint32_t p = ps[below(7)], c = cs[below(6)], m = c + spares[below(6)],
             size = edition == 1 ? 32 : 40;
    uint32_t n = below(2) ? p * m + 1 - (uint32_t)below(3) : p - 1 + (uint32_t)below(3),
             maps = 8 * m * (p + edition - 1);
    uint32_t numbers[] = {0x50414D52,
                          edition | p << 16,
                          c,
                          m,
                          n,
                          8 * c + maps,
                          maps,
                          8 * c + maps + size,
                          n - p + 1 - (uint32_t)below(3),
                          below(9) == 0};
    memset(region, 0xFF, sizeof region);
    for (size_t i = 0; i < size / 4; i++)
        sumbilak_put_u32(region, sizeof region - size + 4 * i, numbers[i]);
}

static void lengths(void)
{
    static uint8_t image[SUMBILAK_MAX_IMAGE2_BYTES];
    for (uint64_t p = 2; p <= 4; p++)
        for (uint64_t c = 1; c <= 4; c++)
            for (uint64_t m = c + 1; m <= c + 3; m++)
                for (uint64_t n = p; n <= p * m; n++) {
                    size_t bytes = SUMBILAK_IMAGE_BYTES(p, c, m),
                           bytes2 = SUMBILAK_IMAGE2_BYTES(p, c, m);
                    is("format", sumbilak_format(image, bytes, p, c, m, n).number, 0);
                    end_with(image, bytes);
                    for (size_t last = 0; last <= 40; last++)
                        is("edition 1's length", told(last), last < 32 ? 0 : bytes);
                    is("from all of it", sumbilak_image_length(image, bytes), bytes);
                    for (uint64_t r = 0; r <= n - p; r++) {
                        is("format2", sumbilak_format2(image, bytes2, p, c, m, n, r).number, 0);
                        end_with(image, bytes2);
                        is("edition 2's length", told(40), bytes2);
                        is("of 39 bytes none", told(39), 0);
                        is("from all of it", sumbilak_image_length(image, bytes2), bytes2);
                    }
                }
    is("of nothing", sumbilak_image_length(NULL, 0), 0);
    sumbilak_format2(image, sizeof image, 16, 256, 288, 4608, 0);
    end_with(image, sizeof image);
    is("the longest", told(40), SUMBILAK_MAX_IMAGE2_BYTES);

    /* trailers with one to three numbers off, by a little or by anything; byte 8 of edition 2's is
     * where edition 1's would begin */
    static const uint32_t values[] = {0,
                                      1,
                                      2,
                                      16,
                                      17,
                                      32,
                                      40,
                                      256,
                                      257,
                                      288,
                                      289,
                                      4608,
                                      4609,
                                      38944,
                                      41256,
                                      0x50414D52,
                                      UINT32_C(1) << 31,
                                      UINT32_MAX};
    uint64_t passed = 0, refused = 0;
    for (int i = 0; i < 40000; i++) {
        uint64_t p = 2 + below(15), c = 1 + below(256), m = c + 1 + below(32),
                 n = p + below(p * m - p + 1), edition = 1 + below(2);
        sumbilak_index g = {edition, p, c, m, n, edition == 1 ? 0 : below(n - p + 1)};
        size_t bytes = sumbilak_image_bytes(g);
        if (edition == 1)
            sumbilak_format(image, bytes, p, c, m, n);
        else
            sumbilak_format2(image, bytes, p, c, m, n, g.r);
        end_with(image, bytes);
        is("told", told(40), bytes);
        for (uint64_t changes = below(4); changes > 0; changes--) {
            size_t at = sizeof region - 40 + 4 * (size_t)below(10);
            uint32_t was = sumbilak_get_u32(region, at);
            switch (below(5)) {
            case 0:
                sumbilak_put_u32(region, at, values[below(sizeof values / sizeof values[0])]);
                break;
            case 1:
                sumbilak_put_u32(region, at, was + 1);
                break;
            case 2:
                sumbilak_put_u32(region, at, was - 1);
                break;
            case 3:
                sumbilak_put_u32(region, at, (uint32_t)below(UINT64_C(1) << 32));
                break;
            case 4:
                region[at + (size_t)below(4)] ^= (uint8_t)(1 << below(8));
                break;
            }
        }
        only_length(i % 400 == 0);
        passed += told(40) != 0;
        refused += told(40) == 0;
    }
    is("thousands of both", passed > 5000 && refused > 5000, 1);
    passed = 0;
    for (int i = 0; i < 20000; i++) {
        agreeing_trailer((uint32_t)(1 + i % 2));
        only_length(false);
        passed += told(40) != 0;
    }
    is("near the limits too", passed > 1000 && passed < 19000, 1);
}

static void limits(void)
{
    uint8_t *image = malloc(SUMBILAK_MAX_IMAGE2_BYTES + 8);
    if (!image)
        exit(1);
    is("256 chunks", sumbilak_format(image, SUMBILAK_IMAGE_BYTES(2, 256, 257), 2, 256, 257, 514).number, 0);
    is("257 chunks", sumbilak_format(image, SUMBILAK_IMAGE_BYTES(2, 257, 258), 2, 257, 258, 516).number, 3);
    is("20 units", sumbilak_format(image, IMAGE, P, C, M, 20).number, 0);
    is("21 units", sumbilak_format(image, IMAGE, P, C, M, 21).number, 3);
    is("the largest", sumbilak_format(image, SUMBILAK_MAX_IMAGE_BYTES, 16, 256, 288, 4608).number, 0);
    is("loads", sumbilak_alarm_count(image, SUMBILAK_MAX_IMAGE_BYTES, 4609).value, 1);
    is("the largest of edition 2", sumbilak_format2(image, SUMBILAK_MAX_IMAGE2_BYTES, 16, 256, 288, 4608, 0).number, 0);
    is("loads", sumbilak_alarm_count(image, SUMBILAK_MAX_IMAGE2_BYTES, 4609).value, 1);
    is("36 steps", write_in(image, SUMBILAK_MAX_IMAGE2_BYTES, 255, 65536, 0), SUMBILAK_MAX_WRITE2_STEPS);
    is("65,536 bytes", sumbilak_stored_size(image, SUMBILAK_MAX_IMAGE2_BYTES, 255).value, 65536);
    static const uint64_t reserved[] = {1, 63, 64, 65, 127, 128, 4592};
    for (size_t i = 0; i < sizeof reserved / sizeof reserved[0]; i++) {
        uint64_t r = reserved[i], loaded[SUMBILAK_LOAD_WORDS], below = 0;
        is("reserved", sumbilak_format2(image, SUMBILAK_MAX_IMAGE2_BYTES, 16, 256, 288, 4608, r).number, 0);
        is("R", sumbilak_load(image, SUMBILAK_MAX_IMAGE2_BYTES, loaded, SUMBILAK_LOAD_WORDS).value, r);
        for (uint64_t u = 0; u < r; u++)
            below += loaded[4 + u / 64] >> u % 64 & 1;
        is("no reserved unit is free", below, 0);
        is("unit R is", loaded[4 + r / 64] >> r % 64 & 1, 1);
        is("all others are", sumbilak_report(image, SUMBILAK_MAX_IMAGE2_BYTES).free, 4608 - r);
        is("36 steps", write_in(image, SUMBILAK_MAX_IMAGE2_BYTES, 0, 65536, 0), SUMBILAK_MAX_WRITE2_STEPS);
        is("16 are held", sumbilak_report(image, SUMBILAK_MAX_IMAGE2_BYTES).free, 4592 - r);
    }
    is("4,593 reserved", sumbilak_format2(image, SUMBILAK_MAX_IMAGE2_BYTES, 16, 256, 288, 4608, 4593).number, 3);

    /* the largest volumes by an index, every chunk written raw, and the last again; 15 units are reserved in edition 2 */
    for (uint64_t edition = 1; edition <= 2; edition++) {
        size_t bytes = edition == 1 ? SUMBILAK_MAX_IMAGE_BYTES : SUMBILAK_MAX_IMAGE2_BYTES;
        if (edition == 1)
            sumbilak_format(image, bytes, 16, 256, 288, 4608);
        else
            sumbilak_format2(image, bytes, 16, 256, 288, 4608, 15);
        kept v = open_in(image, bytes);
        for (uint64_t chunk = 0; chunk < 256; chunk++)
            write_by(&v, image, bytes, chunk, 65536, 0);
        is("as many steps as there are", write_by(&v, image, bytes, 255, 65536, 0), edition == 1 ? SUMBILAK_MAX_WRITE_STEPS : SUMBILAK_MAX_WRITE2_STEPS);
        sumbilak_report_answer r = sumbilak_index_report(BY(v), image, bytes);
        is("all chunks", r.mapped, 256);
        is("all their units", r.held, 4096);
        is("the others", r.free, edition == 1 ? 512 : 497);
        is("map 255 is free", v.sets[72 + 3], UINT64_C(1) << 63);
        is("map 256 is not", v.sets[72 + 4], 0xFFFFFFFE);
    }
    free(image);
}

static void empty_slices(void)
{
    is("format", sumbilak_format(NULL, 0, P, C, M, N).number, 3);
    is("format2", sumbilak_format2(NULL, 0, P, C, M, N, 0).number, 3);
    is("shape", sumbilak_shape(NULL, 0).number, 1);
    is("stored_size", sumbilak_stored_size(NULL, 0, 0).number, 1);
    is("convert", sumbilak_convert(NULL, 0, NULL, 0).number, 1);
    is("load", sumbilak_load(NULL, 0, NULL, 0).number, 1);
    is("split", sumbilak_split(NULL, 0, 0, 4096, NULL, 0).number, 1);
    is("access", sumbilak_access(NULL, 0, false, 0, 4096).number, 1);
    is("held", sumbilak_held(NULL, 0, 0).number, 1);
    is("plan_write", sumbilak_plan_write(NULL, 0, 0, 1, NULL, 0).number, 1);
    is("plan_discard", sumbilak_plan_discard(NULL, 0, 0, NULL, 0).number, 1);
    is("check_write", sumbilak_check_write(NULL, 0, 0, 1, NULL, 0).number, 1);
    is("check_discard", sumbilak_check_discard(NULL, 0, 0, NULL, 0).number, 1);
    is("carry_write", sumbilak_carry_write(NULL, 0, 0, 1, NULL, 0, 0).number, 1);
    is("carry_discard", sumbilak_carry_discard(NULL, 0, 0, NULL, 0, 0).number, 1);
    is("repair", sumbilak_repair(NULL, 0, NULL, 0).number, 1);
    is("report", sumbilak_report(NULL, 0).number, 1);
    is("alarm_count", sumbilak_alarm_count(NULL, 0, 0).number, 1);
    is("alarm_fraction", sumbilak_alarm_fraction(NULL, 0, 0.5).number, 1);
    sumbilak_index x = {1, P, C, M, N, 0};
    is("open", sumbilak_open(NULL, 0, NULL, 0).answer.number, 1);
    is("index_plan_write", sumbilak_index_plan_write(x, NULL, 0, NULL, 0, 0, 1, NULL, 0).number, 1);
    is("index_plan_discard", sumbilak_index_plan_discard(x, NULL, 0, NULL, 0, 0, NULL, 0).number, 1);
    is("index_check_write", sumbilak_index_check_write(x, NULL, 0, NULL, 0, 0, 1, NULL, 0).number, 1);
    is("index_check_discard", sumbilak_index_check_discard(x, NULL, 0, NULL, 0, 0, NULL, 0).number, 1);
    is("index_carry_write", sumbilak_index_carry_write(x, NULL, 0, NULL, 0, 0, 1, NULL, 0, 0).number, 1);
    is("index_carry_discard", sumbilak_index_carry_discard(x, NULL, 0, NULL, 0, 0, NULL, 0, 0).number, 1);
    is("index_access", sumbilak_index_access(x, NULL, 0, NULL, 0, false, 0, 4096).number, 1);
    is("index_held", sumbilak_index_held(x, NULL, 0, NULL, 0, 0).number, 1);
    is("index_stored_size", sumbilak_index_stored_size(x, NULL, 0, NULL, 0, 0).number, 1);
    is("index_report", sumbilak_index_report(x, NULL, 0, NULL, 0).number, 1);
    is("index_alarm_count", sumbilak_index_alarm_count(x, NULL, 0, NULL, 0, 0).number, 1);
    is("index_alarm_fraction", sumbilak_index_alarm_fraction(x, NULL, 0, NULL, 0, 0.5).number, 1);
}

int main(void)
{
    worked_cases();
    lowest_units();
    repairs();
    edition_2();
    reserved_units();
    opening();
    held_index();
    held_index_2();
    refused_calls();
    made_up();
    limits();
    empty_slices();
    names();
    named_limits();
    free_within();
    plans();
    lists();
    shared();
    room();
    rule_1();
    fences();
    unseen();
    lengths();
    printf("C interface: %d of %d as documents 01 and 02 have them\n", asked - failed, asked);
    return failed != 0;
}
