/* A maker's firmware in small: it formats a volume, writes a chunk, refuses a plan that came from elsewhere, and survives a power cut. It opens the volume
 * when it starts up, and works by the held index from then on: no read and no write goes over the whole image again.
 *
 *   bash .ci/built, after rt ci (or as README.md says)
 *   gcc -Wall -Wextra -Werror -Iinclude examples/firmware.c target/staticlib/libsumbilak.a -o firmware
 */
#include <stdio.h>
#include <string.h>

#include "sumbilak.h"

enum { P = 4, C = 4, M = 5, N = 20, IMAGE = SUMBILAK_IMAGE_BYTES(P, C, M) };
enum { WORDS = SUMBILAK_INDEX_WORDS, PLAN = SUMBILAK_MAX_WRITE_STEPS * SUMBILAK_STEP_BYTES };

static uint8_t disk_units[N][SUMBILAK_UNIT_BYTES]; /* what lies on the disk: the backing units, */
static uint8_t disk_image[IMAGE];                  /* and the metadata */
static uint8_t image[IMAGE];                       /* the metadata in memory, */
static sumbilak_index volume;                      /* and its index: the geometry, */
static uint64_t sets[WORDS];                       /* and what is free */

/* The disk of this example is memory: a real one writes the changed word, and at a FENCE is flushed. */
static void write_through(void)
{
    memcpy(disk_image, image, IMAGE);
}

static void flush(void)
{
}

static uint32_t field(const uint8_t *plan, size_t step, size_t i)
{
    const uint8_t *b = plan + step * SUMBILAK_STEP_BYTES + 4 * i;
    return b[0] | (uint32_t)b[1] << 8 | (uint32_t)b[2] << 16 | (uint32_t)b[3] << 24;
}

static void write_unit(uint32_t unit, const char *text, size_t from)
{
    size_t left = strlen(text) - from;
    memset(disk_units[unit], 0, SUMBILAK_UNIT_BYTES);
    memcpy(disk_units[unit], text + from, left < SUMBILAK_UNIT_BYTES ? left : SUMBILAK_UNIT_BYTES);
}

/* Performs a plan step by step, in its order: nothing is touched before the whole plan has passed the check. LINK brings the index up to date. The power goes
 * after n steps. */
static sumbilak_answer perform(uint64_t chunk, const char *text, const uint8_t *plan, size_t steps, size_t n)
{
    size_t bytes = steps * SUMBILAK_STEP_BYTES;
    sumbilak_answer a = sumbilak_index_check_write(volume, sets, WORDS, image, IMAGE, chunk, strlen(text), plan, bytes);
    for (size_t i = 0; a.number == 0 && i < steps && i < n; i++)
        switch (field(plan, i, 0)) {
        case SUMBILAK_DATA:
            write_unit(field(plan, i, 1), text, (size_t)field(plan, i, 2) * SUMBILAK_UNIT_BYTES);
            break;
        case SUMBILAK_MAP:
        case SUMBILAK_LINK:
            a = sumbilak_index_carry_write(volume, sets, WORDS, image, IMAGE, chunk, strlen(text), plan, bytes, i + 1);
            write_through();
            break;
        case SUMBILAK_FENCE:
            flush();
            break;
        }
    return a;
}

/* Starts up, after a format and after a crash: the metadata is read as the disk has it, judged, and opened anew, as an index from before may be out of date.
 * There is nothing to repair after a cut. A repair and a new N call for this too. */
static uint64_t start_up(void)
{
    memcpy(image, disk_image, IMAGE);
    sumbilak_opened opened = sumbilak_open(image, IMAGE, sets, WORDS);
    volume = opened.index;
    return opened.answer.number;
}

/* Reads a chunk: its held words say where it lies, and its stored size how many bytes there are to decompress. */
static void show(const char *when, uint64_t chunk)
{
    uint64_t bytes = P * SUMBILAK_UNIT_BYTES;
    sumbilak_answer reads = sumbilak_index_access(volume, sets, WORDS, image, IMAGE, false, chunk * bytes, bytes);
    sumbilak_answer held = sumbilak_index_held(volume, sets, WORDS, image, IMAGE, chunk);
    sumbilak_answer size = sumbilak_index_stored_size(volume, sets, WORDS, image, IMAGE, chunk);
    if (held.number != 0)
        printf("%s: refused with %llu\n", when, (unsigned long long)held.number);
    else if (reads.value == SUMBILAK_READS_ZEROS)
        printf("%s: chunk %llu is unmapped\n", when, (unsigned long long)chunk);
    else /* the low byte of the first held word: N is below 256 here, and each text within a unit */
        printf("%s: chunk %llu is on unit %u and reads \"%.*s\"\n", when, (unsigned long long)chunk, image[held.value], (int)size.value,
               (const char *)disk_units[image[held.value]]);
}

int main(void)
{
    uint8_t plan[PLAN];
    uint64_t stale[WORDS];

    if (sumbilak_format(image, IMAGE, P, C, M, N).number != 0)
        return 1;
    write_through();
    flush();
    if (start_up() != 0)
        return 1;
    show("fresh", 0);

    sumbilak_answer made = sumbilak_index_plan_write(volume, sets, WORDS, image, IMAGE, 0, strlen("monday 9:00"), plan, PLAN);
    if (made.number != 0 || perform(0, "monday 9:00", plan, made.value, made.value).number != 0)
        return 1;
    show("written", 0);

    /* A plan from elsewhere for chunk 1, made for the fresh volume: it puts its data on unit 0, which chunk 0 holds now. */
    sumbilak_answer a = perform(1, "camera frame", plan, made.value, made.value);
    printf("foreign plan: refused with %llu, rule %llu\n", (unsigned long long)a.number, (unsigned long long)a.place);
    show("after it", 0);

    /* The power goes before LINK, the last step but one: the chunk still shows what it held. */
    made = sumbilak_index_plan_write(volume, sets, WORDS, image, IMAGE, 0, strlen("tuesday 8:30"), plan, PLAN);
    if (made.number != 0 || perform(0, "tuesday 8:30", plan, made.value, made.value - 2).number != 0)
        return 1;
    if (start_up() != 0)
        return 1;
    show("cut before LINK", 0);

    /* After the cut a plan is made for the image found. */
    memcpy(stale, sets, sizeof stale);
    made = sumbilak_index_plan_write(volume, sets, WORDS, image, IMAGE, 0, strlen("tuesday 8:30"), plan, PLAN);
    if (made.number != 0 || perform(0, "tuesday 8:30", plan, made.value, made.value).number != 0)
        return 1;
    show("written again", 0);

    /* Words that were kept too long make a plan on unit 1, which chunk 0 holds now, and would let it pass. The newest ones do not, nor does the check that goes
     * over the whole image and takes no index. */
    made = sumbilak_index_plan_write(volume, stale, WORDS, image, IMAGE, 1, strlen("camera frame"), plan, PLAN);
    a = sumbilak_check_write(image, IMAGE, 1, strlen("camera frame"), plan, made.value * SUMBILAK_STEP_BYTES);
    printf("stale index: its plan is refused with %llu, rule %llu\n", (unsigned long long)a.number, (unsigned long long)a.place);

    sumbilak_report_answer r = sumbilak_index_report(volume, sets, WORDS, image, IMAGE);
    printf("held %llu, free %llu, alarm below 20 units: %llu\n", (unsigned long long)r.held, (unsigned long long)r.free,
           (unsigned long long)sumbilak_index_alarm_count(volume, sets, WORDS, image, IMAGE, 20).value);
    return 0;
}
