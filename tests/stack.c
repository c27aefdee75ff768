/* How much stack the library uses: every call on the largest image, on a stack that was painted before. The proofs do not bound it; this measures it. */
#define _XOPEN_SOURCE 700
#include <stdio.h>
#include <string.h>
#include <ucontext.h>

#include "sumbilak.h"

enum { STACK = 1 << 16, PAINT = 0xA5, ALLOWED = 8192, P = 16, C = 256, M = 288, N = 4608, IMAGE = SUMBILAK_MAX_IMAGE_BYTES, IMAGE2 = SUMBILAK_MAX_IMAGE2_BYTES };

static uint8_t stack[STACK], image[IMAGE], clash[IMAGE], image2[IMAGE2], plan[SUMBILAK_MAX_WRITE2_STEPS * SUMBILAK_STEP_BYTES], out[C * SUMBILAK_PIECE_BYTES];
static uint64_t words[SUMBILAK_LOAD_WORDS], sets[SUMBILAK_INDEX_WORDS];
static int discards;
static ucontext_t caller, callee;

/* Every call by a held index. The discard at the end has two steps and is carried out only where opening and the write went well. */
static void by_index(uint8_t *bytes, size_t len)
{
    enum { WORDS = SUMBILAK_INDEX_WORDS };
    sumbilak_index held = sumbilak_open(bytes, len, sets, WORDS).index;
    sumbilak_answer made = sumbilak_index_plan_write(held, sets, WORDS, bytes, len, 0, P * SUMBILAK_UNIT_BYTES, plan, sizeof plan);
    size_t steps = made.value * SUMBILAK_STEP_BYTES;
    sumbilak_index_check_write(held, sets, WORDS, bytes, len, 0, P * SUMBILAK_UNIT_BYTES, plan, steps);
    sumbilak_index_carry_write(held, sets, WORDS, bytes, len, 0, P * SUMBILAK_UNIT_BYTES, plan, steps, made.value);
    sumbilak_index_access(held, sets, WORDS, bytes, len, true, 0, SUMBILAK_UNIT_BYTES);
    sumbilak_index_held(held, sets, WORDS, bytes, len, 0);
    sumbilak_index_stored_size(held, sets, WORDS, bytes, len, 0);
    sumbilak_index_report(held, sets, WORDS, bytes, len);
    sumbilak_index_alarm_count(held, sets, WORDS, bytes, len, 1);
    sumbilak_index_alarm_fraction(held, sets, WORDS, bytes, len, 0.5);
    made = sumbilak_index_plan_discard(held, sets, WORDS, bytes, len, 0, plan, sizeof plan);
    steps = made.value * SUMBILAK_STEP_BYTES;
    sumbilak_index_check_discard(held, sets, WORDS, bytes, len, 0, plan, steps);
    discards += made.value == 2 && sumbilak_index_carry_discard(held, sets, WORDS, bytes, len, 0, plan, steps, 2).number == 0;
}

static void every_call(void)
{
    sumbilak_format(image, IMAGE, P, C, M, N);
    sumbilak_answer made = sumbilak_plan_write(image, IMAGE, 0, P * SUMBILAK_UNIT_BYTES, plan, sizeof plan);
    sumbilak_check_write(image, IMAGE, 0, P * SUMBILAK_UNIT_BYTES, plan, made.value * SUMBILAK_STEP_BYTES);
    sumbilak_carry_write(image, IMAGE, 0, P * SUMBILAK_UNIT_BYTES, plan, made.value * SUMBILAK_STEP_BYTES, made.value);
    memcpy(clash, image, IMAGE);
    memcpy(clash + 8 * 255, clash, 8); /* the last chunk names the first one's map */
    sumbilak_load(clash, IMAGE, words, SUMBILAK_LOAD_WORDS);
    sumbilak_repair(clash, IMAGE, out, sizeof out);
    sumbilak_load(image, IMAGE, words, SUMBILAK_LOAD_WORDS);
    sumbilak_split(image, IMAGE, 0, (uint64_t)C * P * SUMBILAK_UNIT_BYTES, out, sizeof out);
    sumbilak_access(image, IMAGE, true, 0, SUMBILAK_UNIT_BYTES);
    sumbilak_held(image, IMAGE, 0);
    sumbilak_report(image, IMAGE);
    sumbilak_alarm_count(image, IMAGE, 1);
    sumbilak_alarm_fraction(image, IMAGE, 0.5);
    sumbilak_convert(image, IMAGE, image2, IMAGE2);
    sumbilak_format2(image2, IMAGE2, P, C, M, N, 0);
    made = sumbilak_plan_write(image2, IMAGE2, 0, P * SUMBILAK_UNIT_BYTES, plan, sizeof plan);
    sumbilak_check_write(image2, IMAGE2, 0, P * SUMBILAK_UNIT_BYTES, plan, made.value * SUMBILAK_STEP_BYTES);
    sumbilak_carry_write(image2, IMAGE2, 0, P * SUMBILAK_UNIT_BYTES, plan, made.value * SUMBILAK_STEP_BYTES, made.value);
    sumbilak_stored_size(image2, IMAGE2, 0);
    sumbilak_shape(image2, IMAGE2);
    made = sumbilak_plan_discard(image, IMAGE, 0, plan, sizeof plan);
    sumbilak_check_discard(image, IMAGE, 0, plan, made.value * SUMBILAK_STEP_BYTES);
    sumbilak_carry_discard(image, IMAGE, 0, plan, made.value * SUMBILAK_STEP_BYTES, made.value);
    by_index(image, IMAGE);   /* chunk 0 is unmapped here, */
    by_index(image2, IMAGE2); /* and on 16 units here */
}

int main(void)
{
    memset(stack, PAINT, STACK);
    getcontext(&callee);
    callee.uc_stack.ss_sp = stack;
    callee.uc_stack.ss_size = STACK;
    callee.uc_link = &caller;
    makecontext(&callee, every_call, 0);
    swapcontext(&caller, &callee);

    size_t untouched = 0;
    while (untouched < STACK && stack[untouched] == PAINT)
        untouched++;
    printf("stack: %d bytes at the most, %d allowed\n", (int)(STACK - untouched), ALLOWED);
    return discards != 2 || STACK - untouched > ALLOWED;
}
