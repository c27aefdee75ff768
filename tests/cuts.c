/* The example's firmware, just as it is, on a disk that keeps what was written in no order until
 * it is flushed, and loses any part of it when the power goes. The power goes at every write and
 * flush of a plan, with every choice of what had reached the disk: each chunk holds all of the old
 * or all of the new afterwards, and the next write goes on from there. Plans are the planner's,
 * and others with their steps in any order and FENCEs anywhere. A disk that lies about flushing is
 * found out. A fresh image over an old one is cut in the same way; and two plans at once, which the
 * header forbids, are shown to do harm. */
#define DISK_H
#include <stdbool.h>
#include <stdio.h>
#include <stdlib.h>
#include <string.h>

#include "sumbilak.h"

enum { UNIT = SUMBILAK_UNIT_BYTES };
enum { DISK_UNITS = 24, DISK_META = DISK_UNITS * UNIT };
enum { DISK_END = DISK_META + SUMBILAK_MAX_IMAGE2_BYTES };
enum { MOST_WAIT = 16 };

/* What was written and not flushed: units whole, and the image word by word. */
typedef struct {
    size_t at, bytes;
    uint8_t data[UNIT];
} waiting;

static uint8_t disk[DISK_END];
static waiting cache[MOST_WAIT];
static size_t cached;
static int disk_power = -1;  /* at which write or flush from now the power goes; -1: it stays */
static bool lies;            /* a flush does nothing */
static bool sectors;         /* a write of the image takes all of it along */
static void (*meddle)(void); /* what happens once, at the next flush */

/* The firmware's own: see there. */
static uint8_t image[SUMBILAK_MAX_IMAGE2_BYTES];
static size_t length;

static uint64_t rng_state = 1;

static uint64_t below(uint64_t n)
{
    rng_state ^= rng_state << 13;
    rng_state ^= rng_state >> 7;
    rng_state ^= rng_state << 17;
    return (rng_state >> 11) % n;
}

static bool disk_powered(void)
{
    if (disk_power > 0)
        disk_power--;
    return disk_power != 0;
}

static void disk_read(size_t at, void *to, size_t bytes)
{
    memcpy(to, disk + at, bytes);
}

/* Puts a unit or a word in the cache, if it is not what the disk has. */
static void cache_one(size_t at, const uint8_t *from, size_t bytes)
{
    if (memcmp(disk + at, from, bytes) == 0)
        return;
    if (cached == MOST_WAIT) {
        printf("power cuts: more was written without a FENCE than a plan has\n");
        exit(1);
    }
    cache[cached].at = at;
    cache[cached].bytes = bytes;
    memcpy(cache[cached++].data, from, bytes);
}

static bool disk_write(size_t at, const void *from, size_t bytes)
{
    size_t grain = at < DISK_META ? UNIT : SUMBILAK_WORD_BYTES;
    if (!disk_powered())
        return false;
    if (sectors && at >= DISK_META) {
        at = DISK_END - length;
        from = image;
        bytes = length;
    }
    for (size_t done = 0; done < bytes; done += grain)
        cache_one(at + done, (const uint8_t *)from + done, grain);
    return true;
}

static void land(const waiting *w)
{
    memcpy(disk + w->at, w->data, w->bytes);
}

static bool disk_flush(void)
{
    if (!disk_powered())
        return false;
    if (meddle)
        meddle();
    meddle = NULL;
    for (size_t i = 0; i < cached && !lies; i++)
        land(&cache[i]);
    cached = lies ? cached : 0;
    return true;
}

/* The power is gone: of what was waiting, that has landed which the bits say, the last one first.
 * A unit that did not land whole has anything. */
static void crash(uint64_t bits)
{
    for (size_t i = cached; i-- > 0;)
        if (bits >> i & 1)
            land(&cache[i]);
        else if (cache[i].bytes == UNIT)
            memset(disk + cache[i].at, 0xEE, UNIT);
    cached = 0;
    disk_power = -1;
}

#define main firmware_main
#include "../examples/firmware.c"
#undef main

/* What each chunk holds, by the writes that took effect; no bytes for an unmapped one. */
enum { CHUNKS = 4, CHUNK = 4 * UNIT };

typedef struct {
    uint64_t size;
    uint8_t bytes[CHUNK];
} content;

static content ledger[CHUNKS], offered;
static uint8_t plan[SUMBILAK_MAX_PLAN_STEPS * SUMBILAK_STEP_BYTES];
static uint64_t runs, wrong;

static void is(const char *what, bool holds)
{
    wrong += !holds;
    if (holds || lies)
        return;
    printf("power cuts: not so: %s\n", what);
    if (wrong == 20)
        exit(1);
}

static bool holds(uint64_t chunk, const content *c)
{
    sumbilak_answer held = sumbilak_index_held(VOLUME, chunk);
    uint64_t k = sumbilak_units_of(c->size);
    if (held.number != 0 || sumbilak_held_count(held) != k)
        return false;
    uint64_t size = sumbilak_index_stored_size(VOLUME, chunk).value;
    if (size != (volume.edition == 1 ? k * UNIT : c->size))
        return false;
    for (uint64_t j = 0; j < k; j++)
        if (memcmp(disk + sumbilak_held_unit(image, held, j) * UNIT, c->bytes + j * UNIT, UNIT))
            return false;
    return true;
}

/* A payload like no other, with zeros after its end. */
static void offer(uint64_t size)
{
    static uint64_t serial;
    serial++;
    memset(&offered, 0, sizeof offered);
    offered.size = size;
    for (uint64_t i = 0; i < size; i++)
        offered.bytes[i] = (uint8_t)(serial >> i % 4 * 8);
}

static void new_volume(uint64_t edition, uint64_t p, uint64_t c, uint64_t m, uint64_t n,
                       uint64_t r)
{
    sumbilak_index g = {edition, p, c, m, n, r};
    length = sumbilak_image_bytes(g);
    sumbilak_answer a = edition == 1 ? sumbilak_format(image, length, p, c, m, n)
                                     : sumbilak_format2(image, length, p, c, m, n, r);
    memset(disk, 0xEE, DISK_END);
    memcpy(disk + DISK_END - length, image, length);
    memset(ledger, 0, sizeof ledger);
    is("a new volume starts up", a.number == 0 && start_up() == 0);
}

/* The planner's plan of a request, a discard where its size is 0. Its bytes, 0 if it refuses. */
static size_t own_plan(uint64_t chunk, uint64_t size)
{
    sumbilak_answer a;
    if (size == 0)
        a = sumbilak_index_plan_discard(VOLUME, chunk, plan, sizeof plan);
    else
        a = sumbilak_index_plan_write(VOLUME, chunk, size, plan, sizeof plan);
    return (size_t)a.value * SUMBILAK_STEP_BYTES;
}

/* A map that is free: any. */
static uint32_t some_free_map(void)
{
    uint64_t loaded[SUMBILAK_LOAD_WORDS], map;
    sumbilak_load(image, length, loaded, SUMBILAK_LOAD_WORDS);
    do
        map = below(volume.m);
    while (!sumbilak_in_set(loaded + SUMBILAK_LOAD_MAP_SET, map));
    return (uint32_t)map;
}

/* The same request by a maker of his own: another map, the DATA and MAP steps in any order, and
 * FENCEs anywhere. */
static size_t foreign_plan(uint64_t chunk, uint64_t size)
{
    uint8_t own[sizeof plan];
    size_t order[SUMBILAK_MAX_PLAN_STEPS], made = 0, bytes = own_plan(chunk, size);
    size_t steps = bytes / SUMBILAK_STEP_BYTES, link = sumbilak_steps_before_link(plan, bytes);
    uint32_t map = some_free_map();
    memcpy(own, plan, sizeof own);
    for (size_t i = 0; i < steps; i++)
        order[i] = i;
    for (size_t i = 0; i + 2 <= link; i++) { /* the FENCE before LINK stays where it is */
        size_t j = i + below(link - 1 - i), other = order[i];
        order[i] = order[j];
        order[j] = other;
    }
    for (size_t i = 0; i < steps; i++) {
        sumbilak_step s = sumbilak_step_at(own, order[i]);
        bool write = size != 0 && s.kind == SUMBILAK_LINK;
        while (below(4) == 0 && made + steps - i < SUMBILAK_MAX_PLAN_STEPS)
            sumbilak_put_step(plan, made++, SUMBILAK_FENCE, 0, 0, 0);
        sumbilak_put_step(plan, made++, s.kind, s.kind == SUMBILAK_MAP ? map : s.target, s.part,
                          write ? map : s.value);
    }
    return made * SUMBILAK_STEP_BYTES;
}

/* Every chunk holds what the ledger has. */
static void all_hold(void)
{
    for (uint64_t i = 0; i < volume.c; i++)
        is("each chunk holds the old or the new", holds(i, &ledger[i]));
}

/* Performs a plan to its end, and goes on with the index that it left. */
static void finish(uint64_t chunk, size_t bytes)
{
    is("performed", perform(chunk, offered.bytes, offered.size, plan, bytes).number == 0);
    ledger[chunk] = offered;
    all_hold();
}

/* The power goes at a write or flush of a plan, if it has as many, and one starts up again. The
 * chunk holds the new just where LINK's word has landed, and the old otherwise. Whether the power
 * went. */
static bool cut(uint64_t chunk, size_t bytes, int at, uint64_t bits)
{
    uint8_t entry[SUMBILAK_WORD_BYTES];
    size_t place = DISK_END - length + sumbilak_entry_at(chunk);
    memcpy(entry, disk + place, sizeof entry);
    disk_power = at;
    uint64_t number = perform(chunk, offered.bytes, offered.size, plan, bytes).number;
    is("performed or cut", number == 0 || number == DISK_FAILED);
    crash(bits);
    runs++;
    is("it starts up", start_up() == 0);
    bool linked = memcmp(entry, disk + place, sizeof entry) != 0;
    is("a finished plan has its LINK", number != 0 || linked || bytes == 0);
    if (linked)
        ledger[chunk] = offered;
    all_hold();
    return number != 0;
}

/* Every cut of one plan, with every choice of what had landed, and after some of them a next
 * write. */
static void every_cut(uint64_t chunk, uint64_t size, size_t bytes)
{
    static uint8_t found[DISK_END], made[sizeof plan];
    static content was[CHUNKS], given;
    memcpy(found, disk, DISK_END);
    memcpy(was, ledger, sizeof was);
    memcpy(made, plan, sizeof made);
    offer(size);
    given = offered;
    bool went = true;
    for (int at = 1; went; at++) {
        disk_power = at; /* how many writes wait at this cut */
        perform(chunk, offered.bytes, size, plan, bytes);
        uint64_t choices = UINT64_C(1) << cached;
        crash(0);
        for (uint64_t bits = 0; bits < choices; bits++) {
            memcpy(disk, found, DISK_END);
            is("it starts up", start_up() == 0);
            went = cut(chunk, bytes, at, bits);
            if (bits % 8 == 0 && !lies) {
                offer(size / 2 + 1);
                finish(chunk, own_plan(chunk, offered.size));
            }
            memcpy(ledger, was, sizeof was);
            memcpy(plan, made, sizeof made);
            offered = given;
        }
        memcpy(disk, found, DISK_END);
        is("it starts up", start_up() == 0);
    }
}

/* A volume with chunks 0 and 2 written: every cut of writes and a discard of chunks 0 and 1. */
static void small_volume(uint64_t edition, uint64_t r, bool foreign, bool lying)
{
    static const uint64_t sizes[] = {1, 6144, 16384, 0};
    new_volume(edition, 4, CHUNKS, 6, 20, r);
    offer(6144);
    finish(2, own_plan(2, 6144));
    offer(9000);
    finish(0, own_plan(0, 9000));
    lies = lying;
    for (uint64_t chunk = 0; chunk < 2; chunk++)
        for (size_t i = 0; i < sizeof sizes / sizeof sizes[0]; i++) {
            size_t own = own_plan(chunk, sizes[i]);
            every_cut(chunk, sizes[i], foreign && own ? foreign_plan(chunk, sizes[i]) : own);
        }
    lies = false;
}

/* Writes and discards one after the other, half of them cut; the index is carried along. */
static void long_run(uint64_t edition, uint64_t p, uint64_t m, uint64_t n, uint64_t r, int events)
{
    new_volume(edition, p, CHUNKS, m, n, r);
    for (int i = 0; i < events; i++) {
        uint64_t chunk = below(CHUNKS), size = below(5) == 0 ? 0 : 1 + below(p * UNIT);
        size_t bytes = own_plan(chunk, size);
        if (bytes == 0 && size != 0)
            continue; /* no room */
        if (bytes != 0 && below(2) == 0)
            bytes = foreign_plan(chunk, size);
        offer(size);
        if (below(2) == 0)
            finish(chunk, bytes);
        else
            cut(chunk, bytes, 1 + (int)below(20), below(UINT64_C(1) << 40));
    }
}

/* What may happen to a machine between the two carries: each makes the second one refuse. */
enum { CHUNK_AT_WORK = 0 };
static size_t plan_bytes;

static void trailer_changes(void)
{
    image[length - 1] ^= 1;
}

static void tag_changes(void)
{
    image[length - (volume.edition == 1 ? 32 : 40)] ^= 1;
}

static void entry_changes(void)
{
    memset(image + sumbilak_entry_at(CHUNK_AT_WORK), 0x77, SUMBILAK_WORD_BYTES);
}

static void struct_changes(void)
{
    volume.n--;
}

static void words_change(void)
{
    memset(sets, 0, sizeof sets);
}

static void plan_changes(void)
{
    plan[0] = 9;
}

static void linked_already(void)
{
    carry(CHUNK_AT_WORK, offered.size, plan, plan_bytes, plan_bytes / SUMBILAK_STEP_BYTES);
}

/* The second carry is refused: nothing of LINK went out, and one goes on as after a cut. */
static void given_up(uint64_t edition)
{
    static const struct {
        void (*what)(void);
        uint64_t number;
    } changes[] = {{trailer_changes, 3}, {tag_changes, 2},   {entry_changes, 4},
                   {struct_changes, 3},  {words_change, 11}, {plan_changes, 11},
                   {linked_already, 11}};
    new_volume(edition, 4, CHUNKS, 6, 20, 0);
    for (size_t i = 0; i < sizeof changes / sizeof changes[0]; i++) {
        offer(5000);
        finish(CHUNK_AT_WORK, own_plan(CHUNK_AT_WORK, 5000));
        offer(9000);
        plan_bytes = own_plan(CHUNK_AT_WORK, 9000);
        meddle = changes[i].what;
        sumbilak_answer a = perform(CHUNK_AT_WORK, offered.bytes, 9000, plan, plan_bytes);
        is("the second carry is refused", a.number == changes[i].number);
        crash(0);
        is("it starts up", start_up() == 0);
        all_hold();
    }
}

/* A plan that the first carry refuses: not a byte is written, and the index goes on. */
static void refused(void)
{
    static uint8_t found[DISK_END], known[SUMBILAK_MAX_IMAGE2_BYTES];
    uint64_t free_then[WORDS];
    new_volume(2, 4, CHUNKS, 6, 20, 2);
    for (int i = 0; i < 400; i++) {
        offer(1 + below(16384));
        size_t bytes = own_plan(1, offered.size);
        finish(1, bytes); /* from here on it is no plan for this image any more */
        memcpy(found, disk, DISK_END);
        memcpy(known, image, length);
        memcpy(free_then, sets, sizeof sets);
        is("refused", perform(1, offered.bytes, offered.size, plan, bytes).number == 11);
        is("nothing is on its way", cached == 0 && memcmp(disk, found, DISK_END) == 0);
        is("nothing is stored",
           memcmp(image, known, length) == 0 && memcmp(sets, free_then, sizeof sets) == 0);
    }
}

/* What the header forbids, and no call refuses: a second plan is carried in memory between the two
 * carries of a first. Its MAP words go to the disk in place of the first one's. */
static void two_at_once(uint64_t edition)
{
    uint8_t other[sizeof plan];
    new_volume(edition, 4, CHUNKS, 6, 20, 0);
    size_t other_bytes = own_plan(1, 5);
    memcpy(other, plan, sizeof plan);
    size_t bytes = own_plan(0, 10000), link = sumbilak_steps_before_link(plan, bytes);
    uint32_t map = sumbilak_step_at(plan, link).value;
    uint64_t memory = edition == 1 ? 3 * UNIT : 10000, there = edition == 1 ? UNIT : 5;
    is("carried up to LINK", carry(0, 10000, plan, bytes, link).number == 0);
    is("a check is harmless", carry(1, 5, other, other_bytes, 0).number == 0);
    link = sumbilak_steps_before_link(other, other_bytes);
    is("the other is carried up to LINK", carry(1, 5, other, other_bytes, link).number == 0);
    is("MAP", write_through(sumbilak_map_at(volume, map), sumbilak_map_bytes(volume)));
    is("FENCE", disk_flush());
    link = sumbilak_steps_before_link(plan, bytes);
    is("LINK is carried", carry(0, 10000, plan, bytes, link + 1).number == 0);
    is("LINK", write_through(sumbilak_entry_at(0), SUMBILAK_WORD_BYTES) && disk_flush());
    is("memory has the first", sumbilak_index_stored_size(VOLUME, 0).value == memory);
    is("it starts up", start_up() == 0);
    is("the disk has the other", sumbilak_index_stored_size(VOLUME, 0).value == there);
}

/* A fresh image over an old one, every chunk of which was written raw, the first one twice: its
 * last map is named and full. Every cut, with every choice of the words that had landed: what is
 * found is the old image, none, or the fresh one. */
static void fresh_over_old(sumbilak_index was, sumbilak_index g)
{
    static uint8_t found[DISK_END], old[SUMBILAK_MAX_IMAGE2_BYTES], fresh[sizeof old];
    new_volume(was.edition, was.p, was.c, was.m, was.n, was.r);
    for (uint64_t i = 0; i <= was.c; i++) {
        offer(was.p * UNIT);
        finish(i % was.c, own_plan(i % was.c, offered.size));
    }
    size_t old_length = length, fresh_length = sumbilak_image_bytes(g);
    size_t trailer = fresh_length - sumbilak_map_at(g, g.m);
    memcpy(found, disk, DISK_END);
    memcpy(old, image, length);
    sumbilak_answer a = g.edition == 1
                            ? sumbilak_format(fresh, fresh_length, g.p, g.c, g.m, g.n)
                            : sumbilak_format2(fresh, fresh_length, g.p, g.c, g.m, g.n, g.r);
    is("formatted", a.number == 0);
    uint64_t choices = 1, olds = 0, news = 0;
    bool whole = false;
    for (int at = 1; !whole; at++)
        for (uint64_t bits = 0; bits < choices || bits == 0; bits++) {
            memcpy(disk + DISK_META, found + DISK_META, DISK_END - DISK_META);
            length = fresh_length;
            memcpy(image, fresh, length);
            disk_power = at;
            whole = write_fresh(trailer);
            choices = UINT64_C(1) << cached;
            crash(bits);
            runs++;
            uint64_t number = start_up();
            bool is_old = length == old_length && memcmp(image, old, length) == 0;
            bool is_new = length == fresh_length && memcmp(image, fresh, length) == 0;
            is("the old image, none, or the fresh one", number != 0 || is_old || is_new);
            is("the fresh one in the end", !whole || (number == 0 && is_new));
            olds += number == 0 && is_old;
            news += number == 0 && is_new;
        }
    is("the old one only where nothing landed", olds == 2);
    is("the fresh one only where all has", news == 2);
}

static void fresh_images(void)
{
    static const sumbilak_index shapes[] = {{1, 2, 2, 3, 6, 0}, {1, 3, 1, 2, 6, 0},
                                            {2, 2, 2, 3, 6, 0}, {2, 2, 2, 4, 7, 1},
                                            {2, 3, 1, 2, 6, 0}, {2, 2, 1, 3, 6, 2}};
    enum { SHAPES = sizeof shapes / sizeof shapes[0] };
    for (size_t i = 0; i < SHAPES * SHAPES; i++)
        fresh_over_old(shapes[i / SHAPES], shapes[i % SHAPES]);

    /* zeros over an old trailer: where only the last word has landed, R is 0 */
    new_volume(2, 2, 2, 4, 7, 1);
    memset(disk + DISK_END - SUMBILAK_WORD_BYTES, 0, SUMBILAK_WORD_BYTES);
    is("zeros will not do", start_up() == 0 && volume.r == 0);
}

int main(void)
{
    for (uint64_t edition = 1; edition <= 2; edition++)
        for (uint64_t r = 0; r < edition; r++)
            for (int i = 0; i < 6; i++) {
                sectors = i % 2;
                small_volume(edition, 3 * r, i >= 2, false);
            }
    sectors = false;
    long_run(1, 4, 5, 20, 0, 2000);
    long_run(1, 2, 36, 10, 0, 2000);
    long_run(1, 4, 6, 7, 0, 2000);
    long_run(2, 4, 5, 20, 0, 2000);
    long_run(2, 4, 8, 24, 4, 2000);
    long_run(2, 3, 6, 9, 1, 2000);
    given_up(1);
    given_up(2);
    refused();
    two_at_once(1);
    two_at_once(2);
    fresh_images();
    uint64_t found = wrong, cuts = runs;
    small_volume(1, 0, false, true);
    const char *lied = wrong > found ? "found out" : "not found out";
    printf(
        "power cuts: %d of the example's firmware, %d wrong; a disk that does not flush is %s\n",
        (int)cuts, (int)found, lied);
    return found != 0 || wrong == found;
}
