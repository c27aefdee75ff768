/* Every call of the header on pseudo-random volumes, requests and plans: both editions, sound and
 * damaged images, plans as made and altered, indexes that are current, stale and made up. Prints
 * how often each call answered and with which numbers it refused, and a hash over every answer and
 * every byte that was lent to be written. Two builds that print the same text gave the same
 * answers, on two machines (tests/aarch64) or processors (tests/archive). Wants a little-endian
 * machine.
 *
 *   compare [ROUNDS [SEED]]
 */
#include <stdio.h>
#include <stdlib.h>
#include <string.h>

#include "sumbilak.h"

#define CALLS(X)                                                                                   \
    X(format) X(format2) X(shape) X(load) X(split) X(access) X(held) X(stored_size) X(plan_write)  \
    X(plan_discard) X(check_write) X(check_discard) X(carry_write) X(carry_discard) X(repair)      \
    X(convert) X(report) X(alarm_count) X(alarm_fraction) X(open) X(index_plan_write)              \
    X(index_plan_discard) X(index_check_write) X(index_check_discard) X(index_carry_write)         \
    X(index_carry_discard) X(index_access) X(index_held) X(index_stored_size) X(index_report)      \
    X(index_alarm_count) X(index_alarm_fraction)

#define AS_ENUM(name) CALL_##name,
#define AS_TEXT(name) #name,
enum { CALLS(AS_ENUM) KINDS };
static const char *const names[KINDS] = {CALLS(AS_TEXT)};

/* Counts and hashes one answer, by the macro's name of the call. */
#define CALL(name, ...) note(CALL_##name, sumbilak_##name(__VA_ARGS__))

enum { SPARE = 3, WORDS = SUMBILAK_INDEX_WORDS, UNIT = SUMBILAK_UNIT_BYTES };
enum { STEP = SUMBILAK_STEP_BYTES, STEPS = SUMBILAK_MAX_PLAN_STEPS + 2 };

static uint64_t counts[KINDS][13], random_state, hash;

static uint64_t image[SUMBILAK_MAX_IMAGE2_BYTES / 8 + SPARE];  /* the volume under work, */
static uint64_t kept[SUMBILAK_MAX_IMAGE2_BYTES / 8 + SPARE];   /* as it was when last sound, */
static uint64_t second[SUMBILAK_MAX_IMAGE2_BYTES / 8 + SPARE]; /* and what it is converted to */
static size_t len, sound_len;
static uint64_t p, c, m, n, r, edition;

static uint64_t loaded[SUMBILAK_LOAD_WORDS + SPARE];
static uint64_t sets[WORDS + SPARE], old_sets[WORDS + SPARE];
static sumbilak_index volume, old_volume;
static uint8_t plan[STEPS * STEP], out[256 * SUMBILAK_PIECE_BYTES + SPARE];

static uint64_t next(void)
{
    uint64_t z = random_state += UINT64_C(0x9E3779B97F4A7C15);
    z = (z ^ z >> 30) * UINT64_C(0xBF58476D1CE4E5B9);
    z = (z ^ z >> 27) * UINT64_C(0x94D049BB133111EB);
    return z ^ z >> 31;
}

static uint64_t below(uint64_t limit)
{
    return limit == 0 ? 0 : next() % limit;
}

/* A number below a limit, and at times one that is not. No expression of this file draws two
 * numbers that C lets a compiler draw in either order. */
static uint64_t number(uint64_t limit)
{
    uint64_t any = next();
    switch (below(24)) {
    case 0:
        return limit;
    case 1:
        return UINT64_MAX - below(3);
    case 2:
        return any >> below(64);
    default:
        return limit == 0 ? 0 : any % limit;
    }
}

static void mix(uint64_t word)
{
    hash = (hash ^ word) * UINT64_C(0x9E3779B97F4A7C15);
    hash ^= hash >> 29;
}

static void mix_bytes(const void *bytes, size_t count)
{
    const uint8_t *at = bytes;
    uint64_t word;
    for (; count >= 8; at += 8, count -= 8) {
        memcpy(&word, at, 8);
        mix(word);
    }
    word = count;
    memcpy(&word, at, count);
    mix(word);
}

static uint64_t note_number(int kind, uint64_t number)
{
    mix((uint64_t)kind);
    counts[kind][number < 13 ? number : 0]++;
    if (number < 13)
        return number;
    printf("%s: refused with %llu\n", names[kind], (unsigned long long)number);
    exit(1);
}

static sumbilak_answer note_answer(int kind, sumbilak_answer a)
{
    note_number(kind, a.number);
    mix_bytes(&a, sizeof a);
    return a;
}

static sumbilak_report_answer note_report(int kind, sumbilak_report_answer a)
{
    note_number(kind, a.number);
    mix_bytes(&a, sizeof a); /* the ratios by their bits */
    return a;
}

static sumbilak_shape_answer note_shape(int kind, sumbilak_shape_answer a)
{
    note_number(kind, a.number);
    mix_bytes(&a, sizeof a);
    return a;
}

static sumbilak_opened note_opened(int kind, sumbilak_opened a)
{
    note_number(kind, a.answer.number);
    mix_bytes(&a, sizeof a);
    return a;
}

#define note(kind, a)                                                                              \
    _Generic((a), sumbilak_answer : note_answer, sumbilak_report_answer : note_report,             \
             sumbilak_shape_answer : note_shape, sumbilak_opened : note_opened)(kind, a)

static uint8_t *bytes(void)
{
    return (uint8_t *)image;
}

/* Everything that a call may write, and the image. */
static void mix_lent(void)
{
    mix_bytes(image, sizeof(uint64_t) * ((len + 7) / 8 + 1));
    mix_bytes(sets, sizeof sets);
    mix_bytes(old_sets, sizeof old_sets);
    mix_bytes(loaded, sizeof loaded);
    mix_bytes(plan, sizeof plan);
    mix_bytes(out, sizeof out);
}

static void keep(void)
{
    memcpy(kept, image, sizeof kept);
    sound_len = len;
}

static void put_back(void)
{
    memcpy(image, kept, sizeof image);
    len = sound_len;
}

static void open_anew(void)
{
    size_t lent = below(16) == 0 ? below(WORDS + SPARE) : WORDS;
    sumbilak_opened opened = CALL(open, bytes(), len, sets, lent);
    if (opened.answer.number == 0)
        volume = opened.index;
}

static void fresh(void)
{
    int large = below(200) == 0;
    p = 2 + below(15);
    c = large ? 200 + below(57) : 1 + below(10);
    m = c + 1 + (large ? below(32) : below(4));
    uint64_t least = below(4) == 0 ? p : (c + 1) * p;
    n = least + below(p * m - least + 1);
    edition = 1 + below(2);
    r = edition == 1 || below(2) == 0 ? 0 : below(n - p + 1);
    uint64_t odd = below(64), wrong = number(300);
    len = edition == 1 ? SUMBILAK_IMAGE_BYTES(p, c, m) : SUMBILAK_IMAGE2_BYTES(p, c, m);
    memset(image, 0xA5, sizeof image);
    if (odd < 4)
        CALL(format, bytes(), len, odd == 0 ? wrong : p, odd == 1 ? wrong : c, odd == 2 ? wrong : m,
             odd == 3 ? wrong : n);
    else if (odd < 8)
        CALL(format2, bytes(), len, odd == 4 ? wrong : p, odd == 5 ? wrong : c, m,
             odd == 6 ? wrong : n, odd == 7 ? wrong : r);
    mix_lent();
    if (edition == 1)
        CALL(format, bytes(), len, p, c, m, n);
    else
        CALL(format2, bytes(), len, p, c, m, n, r);
    keep();
    open_anew();
    old_volume = volume;
    memcpy(old_sets, sets, sizeof sets);
}

/* ---- what a caller asks */

static uint64_t chunk(void)
{
    return number(c);
}

static uint64_t size(void)
{
    return below(24) == 0 ? 0 : number(p * UNIT) + 1;
}

/* A multiple of the unit up to a limit of units, and at times another number. */
static uint64_t grains(uint64_t limit)
{
    uint64_t units = number(limit);
    return units < UINT64_C(1) << 48 && below(16) != 0 ? units * UNIT : units;
}

static double fraction(void)
{
    static const double odd[] = {0.0, -0.0, 1.0, 0.5, 1.0 / 3.0, 1e-310, -1e-310, 2.0};
    uint64_t bits = next();
    double any;
    switch (below(4)) {
    case 0:
        memcpy(&any, &bits, sizeof any); /* also infinities and what is not a number */
        return any;
    case 1:
        return odd[below(sizeof odd / sizeof *odd)];
    default:
        return (double)(bits >> 11) / 9007199254740992.0;
    }
}

static size_t room(size_t all)
{
    return below(8) == 0 ? below(all + 1) : all;
}

static size_t words_lent(void)
{
    return below(24) == 0 ? below(WORDS) : WORDS + below(SPARE + 1);
}

static void ask(void)
{
    uint64_t first = below(c * p), length = grains(c * p - first + 1), offset = first * UNIT;
    size_t lent = room(SUMBILAK_LOAD_WORDS + SPARE);
    bool write = below(2) == 1;
    CALL(shape, bytes(), len);
    CALL(load, bytes(), len, lent ? loaded : NULL, lent);
    lent = room(c * SUMBILAK_PIECE_BYTES);
    CALL(split, bytes(), len, offset, length, lent ? out : NULL, lent);
    CALL(split, bytes(), len, grains(c * p), length, out, sizeof out);
    CALL(access, bytes(), len, write, offset, grains(p - first % p + 1));
    CALL(access, bytes(), len, write, below(c) * p * UNIT, p * UNIT);
    CALL(held, bytes(), len, chunk());
    CALL(stored_size, bytes(), len, chunk());
    CALL(report, bytes(), len);
    CALL(alarm_count, bytes(), len, number(n + 2));
    CALL(alarm_fraction, bytes(), len, fraction());
    mix_lent();
}

static void ask_index(sumbilak_index held, const uint64_t *by)
{
    uint64_t first = below(c * p), length = grains(p - first % p + 1);
    size_t lent = words_lent();
    bool write = below(2) == 1;
    CALL(index_access, held, by, lent, bytes(), len, write, first * UNIT, length);
    CALL(index_access, held, by, lent, bytes(), len, write, grains(c * p), p * UNIT);
    CALL(index_access, held, by, lent, bytes(), len, write, below(c) * p * UNIT, p * UNIT);
    CALL(index_held, held, by, lent, bytes(), len, chunk());
    CALL(index_stored_size, held, by, lent, bytes(), len, chunk());
    CALL(index_report, held, by, lent, bytes(), len);
    CALL(index_alarm_count, held, by, lent, bytes(), len, number(n + 2));
    CALL(index_alarm_fraction, held, by, lent, bytes(), len, fraction());
    mix_lent();
}

/* ---- plans */

static void set_field(size_t step, size_t field, uint32_t value)
{
    for (size_t i = 0; i < 4; i++)
        plan[step * STEP + 4 * field + i] = (uint8_t)(value >> 8 * i);
}

/* Alters a plan of some steps, or leaves it, and says how many bytes it has then. */
static size_t alter(size_t steps)
{
    uint8_t step[STEP];
    size_t a = below(steps), b = below(steps), field = below(4);
    switch (steps == 0 ? 4 : below(16)) {
    case 0:
        set_field(a, field, (uint32_t)below(n + 2));
        break;
    case 1:
        set_field(a, field, below(2) ? SUMBILAK_ABSENT : (uint32_t)next());
        break;
    case 2:
        memcpy(step, plan + a * STEP, STEP);
        memcpy(plan + a * STEP, plan + b * STEP, STEP);
        memcpy(plan + b * STEP, step, STEP);
        break;
    case 3:
        return below(steps * STEP + 1);
    case 4:
        memset(plan + steps * STEP, 0, STEP); /* a FENCE more */
        plan[steps * STEP] = SUMBILAK_FENCE;
        return (steps + (below(4) == 0)) * STEP;
    case 5:
        return below(4) == 0 ? sizeof plan : steps * STEP;
    }
    return steps * STEP;
}

/* The plan that is lent next: steps just planned, or those of an earlier request. */
static size_t steps_of(sumbilak_answer made)
{
    if (made.number == 0 && made.value <= SUMBILAK_MAX_PLAN_STEPS)
        return (size_t)made.value;
    return below(SUMBILAK_MAX_PLAN_STEPS);
}

static void write_plain(void)
{
    uint64_t at = chunk(), in = size();
    size_t space = room(STEP * SUMBILAK_MAX_WRITE2_STEPS);
    sumbilak_answer made = CALL(plan_write, bytes(), len, at, in, space ? plan : NULL, space);
    size_t steps = steps_of(made), plan_len = alter(steps);
    CALL(check_write, bytes(), len, at, in, plan, plan_len);
    CALL(carry_write, bytes(), len, at, in, plan, plan_len, below(4) ? steps : number(steps));
    mix_lent();
}

static void discard_plain(void)
{
    uint64_t at = chunk();
    size_t space = room(STEP * 3);
    sumbilak_answer made = CALL(plan_discard, bytes(), len, at, space ? plan : NULL, space);
    size_t steps = steps_of(made), plan_len = alter(steps);
    CALL(check_discard, bytes(), len, at, plan, plan_len);
    CALL(carry_discard, bytes(), len, at, plan, plan_len, below(4) ? steps : number(steps));
    mix_lent();
}

static void write_index(sumbilak_index held, uint64_t *by)
{
    uint64_t at = chunk(), in = size();
    size_t lent = words_lent(), space = room(STEP * SUMBILAK_MAX_WRITE2_STEPS);
    sumbilak_answer made =
        CALL(index_plan_write, held, by, lent, bytes(), len, at, in, plan, space);
    size_t steps = steps_of(made), plan_len = alter(steps);
    uint64_t upto = below(4) ? steps : number(steps);
    CALL(index_check_write, held, by, lent, bytes(), len, at, in, plan, plan_len);
    CALL(index_carry_write, held, by, lent, bytes(), len, at, in, plan, plan_len, upto);
    mix_lent();
}

static void discard_index(sumbilak_index held, uint64_t *by)
{
    uint64_t at = chunk();
    size_t lent = words_lent(), space = room(STEP * 3);
    sumbilak_answer made = CALL(index_plan_discard, held, by, lent, bytes(), len, at, plan, space);
    size_t steps = steps_of(made), plan_len = alter(steps);
    uint64_t upto = below(4) ? steps : number(steps);
    CALL(index_check_discard, held, by, lent, bytes(), len, at, plan, plan_len);
    CALL(index_carry_discard, held, by, lent, bytes(), len, at, plan, plan_len, upto);
    mix_lent();
}

/* ---- damage, and what mends it */

/* A word of the image becomes X, a small number or any; or a byte or the length is altered. */
static void damage(void)
{
    if (len != sound_len)
        put_back();
    uint64_t entry = below(c), in_map = c + below(m * (p + edition - 1)), any = next();
    uint64_t word = below(2) ? UINT64_MAX : below(n + 2);
    size_t in_trailer = len - 1 - below(edition == 1 ? 32 : 40), anywhere = below(len);
    switch (below(8)) {
    case 0:
    case 1:
        image[entry] = any % 8 ? below(m + 1) : word;
        break;
    case 2:
    case 3:
        image[in_map] = word;
        break;
    case 4:
        image[in_map] = any;
        break;
    case 5:
        bytes()[in_trailer] ^= (uint8_t)(1 << any % 8);
        break;
    case 6:
        bytes()[anywhere] = (uint8_t)any;
        break;
    case 7:
        len = any % 3 == 0 ? below(41) : anywhere;
        break;
    }
}

static void mend(void)
{
    size_t lent = room(4 * c);
    sumbilak_answer a = CALL(repair, bytes(), len, lent ? out : NULL, lent);
    mix_lent();
    if (a.number != 0)
        put_back();
    else
        keep();
}

static void change_edition(void)
{
    size_t whole = SUMBILAK_IMAGE2_BYTES(p, c, m), lent = below(8) == 0 ? below(whole) : whole;
    memset(second, 0xA5, sizeof second);
    sumbilak_answer a = CALL(convert, bytes(), len, (uint8_t *)second, lent);
    mix_bytes(second, sizeof second);
    if (a.number != 0 || below(2) == 0)
        return;
    memcpy(image, second, sizeof image);
    len = lent;
    edition = 2;
    r = 0;
    keep();
    open_anew();
}

/* An index that is not the image's: one from before, or one that nobody opened. */
static void make_up(void)
{
    memcpy(old_sets, sets, sizeof sets);
    old_volume = volume;
    if (below(2) == 0)
        return;
    size_t one = below(WORDS), of_maps = WORDS - 1 - below(5);
    old_sets[one] = below(2) ? next() : 0;
    old_sets[of_maps] = below(2) ? next() : 0;
    switch (below(16)) {
    case 0:
        old_volume.p = number(20);
        break;
    case 1:
        old_volume.n = number(5000);
        break;
    case 2:
        old_volume.edition = number(4);
        break;
    case 3:
        old_volume.r = number(20);
        break;
    }
}

static void one_step(void)
{
    switch (below(16)) {
    case 0:
    case 1:
        ask();
        break;
    case 2:
        ask_index(volume, sets);
        break;
    case 3:
        ask_index(old_volume, old_sets);
        break;
    case 4:
    case 5:
        write_plain();
        break;
    case 6:
        discard_plain();
        break;
    case 7:
    case 8:
    case 9:
        write_index(volume, sets);
        break;
    case 10:
        discard_index(volume, sets);
        break;
    case 11:
        if (below(2))
            write_index(old_volume, old_sets);
        else
            discard_index(old_volume, old_sets);
        break;
    case 12:
        damage();
        ask();
        open_anew();
        break;
    case 13:
        mend();
        open_anew();
        break;
    case 14:
        change_edition();
        break;
    case 15:
        make_up();
        break;
    }
}

/* Every call has answered, every refusal of the header's table was met, and each call that can
 * refuse has refused. */
static int complete(void)
{
    uint64_t met[13] = {0};
    int whole = 1;
    for (int k = 0; k < KINDS; k++) {
        uint64_t refused = 0;
        for (int i = 1; i < 13; i++) {
            met[i] += counts[k][i];
            refused += counts[k][i];
        }
        whole &= counts[k][0] != 0 && refused != 0;
    }
    for (int i = 1; i < 13; i++)
        whole &= met[i] != 0;
    return whole;
}

int main(int argc, char **argv)
{
    unsigned long rounds = argc > 1 ? strtoul(argv[1], NULL, 10) : 2000;
    random_state = argc > 2 ? strtoull(argv[2], NULL, 10) : 1;
    for (unsigned long i = 0; i < rounds; i++) {
        fresh();
        for (int j = 0; j < 40; j++)
            one_step();
        if (rounds < 10 || i % (rounds / 10) == 0)
            printf("round %lu: hash %016llx\n", i, (unsigned long long)hash);
    }

    uint64_t all = 0;
    for (int k = 0; k < KINDS; k++) {
        printf("%-20s answered %llu, refused", names[k], (unsigned long long)counts[k][0]);
        for (int i = 1; i < 13; i++)
            if (counts[k][i] != 0)
                printf(" %d: %llu", i, (unsigned long long)counts[k][i]);
        printf("\n");
        for (int i = 0; i < 13; i++)
            all += counts[k][i];
    }
    printf("%llu calls, hash %016llx\n", (unsigned long long)all, (unsigned long long)hash);
    if (complete())
        return 0;
    printf("some call never answered or never refused, or some refusal was never met\n");
    return 1;
}
