/* The mutator: what libFuzzer makes of an input is mended in part, so that more of it is played than refused. The letter stays. */
#include "calls.h"
#include "script.h"

#include <string.h>

size_t LLVMFuzzerMutate(uint8_t *data, size_t size, size_t max_size);
size_t LLVMFuzzerCustomMutator(uint8_t *data, size_t size, size_t max_size, unsigned int seed);

/* Chance, by the seed that libFuzzer gives. */
static uint32_t chance;

static uint32_t below(uint32_t n) {
    chance ^= chance << 13;
    chance ^= chance >> 17;
    chance ^= chance << 5;
    return chance % n;
}

/* Whether a part is mended: mostly. */
static int mends(void) {
    return below(8) > 0;
}

static uint8_t at_most(uint8_t octet, uint8_t greatest) {
    return octet <= greatest ? octet : (uint8_t)(octet % (greatest + 1));
}

/* The offsets and the count that belong to a length, of which less than an input is cut off; `behind` are the octets behind the inputs. */
static size_t mend_header(uint8_t *file, size_t len, size_t behind) {
    uint8_t version = file[1] == 1 || file[1] == 2 ? file[1] : (uint8_t)(1 + below(2));
    size_t start = version == 1 ? 52 : 60;
    if (len < start + behind) return len;
    size_t n = (len - start - behind) / HOUSE_INPUT_SIZE;
    memcpy(file, (uint8_t[]){0, version, 0, 1, 0, 0, 0, HOUSE_HEADER_SIZE}, 8);
    house_put_u32(file + 8, (uint32_t)n);
    house_put_u32(file + 12, (uint32_t)start);
    return start + HOUSE_INPUT_SIZE * n + behind;
}

static void mend_times(uint8_t *times, int version) {
    size_t width = version == 1 ? 2 : 4;
    uint8_t *timed_on = times + 2 * width;
    for (int i = 0; i < 4 && version == 2; i++) house_put_u32(times + 4 * i, house_get_u32(times + 4 * i) % 655351);
    if (memcmp(timed_on, (uint8_t[4]){0}, width) == 0) timed_on[width - 1] = 1;
}

/* Whether an entry before this one has its number. */
static int repeats(const uint8_t *scenes, int entry) {
    for (int i = 0; i < entry; i++) {
        if (scenes[2 * i] == scenes[2 * entry]) return 1;
    }
    return 0;
}

static void mend_scenes(uint8_t *scenes) {
    for (int i = 0; i < 8; i++) {
        uint8_t *entry = scenes + 2 * i;
        if (entry[0] != 255) entry[0] = at_most(entry[0], 63);
        if (repeats(scenes, i)) entry[0] = 255;
        entry[1] = entry[0] == 255 ? 0 : at_most(entry[1], 3);
    }
}

/* Modes, learning, two zeros and the scenes. */
static void mend_rest(uint8_t *rest) {
    static const uint8_t greatest[8] = {2, 3, 2, 2, 2, 1, 0, 0};
    for (int i = 0; i < 8; i++) rest[i] = at_most(rest[i], greatest[i]);
    mend_scenes(rest + 8);
}

static uint8_t mended_value(uint8_t kind, uint8_t value) {
    if (kind == 3) return value & 0xBF;
    return at_most(value, kind == 4 ? 3 : 1);
}

/* Kinds, values and zeros; a wall list has two kinds more. */
static void mend_inputs(uint8_t *inputs, size_t n, int wall) {
    for (size_t i = 0; i < n; i++) {
        uint8_t *kind = inputs + HOUSE_INPUT_SIZE * i + 4;
        if (kind[0] == 0 || (kind[0] > 8 && !(wall && (kind[0] == 11 || kind[0] == 12)))) {
            kind[0] = (uint8_t)(wall && below(3) == 0 ? 11 + below(2) : 1 + kind[0] % 8);
        }
        memcpy(kind, (uint8_t[]){kind[0], mended_value(kind[0], kind[1]), 0, 0}, 4);
    }
}

/* Stamps that do not fall, from the last good one on; gives the last. */
static uint32_t mend_stamps(uint8_t *inputs, size_t n) {
    uint32_t before = 0;
    for (size_t i = 0; i < n; i++) {
        uint8_t *stamp = inputs + HOUSE_INPUT_SIZE * i;
        if (house_get_u32(stamp) < before || house_get_u32(stamp) > HOUSE_LAST_STAMP) house_put_u32(stamp, before + stamp[3] % 64);
        if (house_get_u32(stamp) > HOUSE_LAST_STAMP) house_put_u32(stamp, HOUSE_LAST_STAMP);
        before = house_get_u32(stamp);
    }
    return before;
}

static void mend_actions(uint8_t *actions, size_t n) {
    for (size_t i = 0; i < n; i++) actions[i] = at_most(actions[i], 3);
}

static size_t mend_file(uint8_t *file, size_t len, size_t behind) {
    if (len < 52 + behind) return len;
    if (mends()) len = mend_header(file, len, behind);
    size_t start = inputs_at(file, len);
    if (start == 0 || len < start + behind) return len;
    size_t n = (len - start - behind) / HOUSE_INPUT_SIZE;
    if (mends()) mend_times(file + HOUSE_HEADER_SIZE, file[1]);
    if (mends()) mend_rest(file + start - 24);
    if (mends()) mend_inputs(file + start, n, behind > 0);
    if (mends()) mend_actions(file + len - behind, behind);
    uint32_t last = mends() ? mend_stamps(file + start, n) : 0;
    if (mends() && (house_get_u32(file + 16) < last || house_get_u32(file + 16) > HOUSE_LAST_STAMP)) house_put_u32(file + 16, last);
    return len;
}

static void mend_step(const struct step *step, uint8_t *octets) {
    if (!mends()) return;
    switch (step->kind) {
    case FRESH_STATE:
        if (step->len == 32 || step->len == 40) {
            mend_times(octets, step->len == 32 ? 1 : 2);
            mend_rest(octets + step->len - 24);
        }
        break;
    case WILD_STATE:
        if (step->len == HOUSE_STATE_SIZE) mend_rest(octets + 16);
        break;
    case CHANGE_AS_IS:
    case CHANGE_IN_TIME: mend_inputs(octets, step->len / HOUSE_INPUT_SIZE, 0); break;
    default: break;
    }
}

static size_t mend_live(uint8_t *octets, size_t left) {
    size_t at = 0;
    struct step step;
    for (size_t len = read_step(octets, left, &step); len > 0; len = read_step(octets + at, left - at, &step)) {
        mend_step(&step, octets + at + STEP_HEAD);
        at += len;
    }
    return left;
}

size_t LLVMFuzzerCustomMutator(uint8_t *data, size_t size, size_t max_size, unsigned int seed) {
    chance = seed | 1;
    if (size <= LETTER) return LLVMFuzzerMutate(data, size, max_size);
    size_t head = data[0] == 'l' ? LETTER : LETTER + FILE_HEAD;
    /* the deviations of a file change seldom: most rooms are just as long as is asked for */
    size_t from = size <= head || below(16) == 0 ? LETTER : head;
    size = from + LLVMFuzzerMutate(data + from, size - from, max_size - from);
    if (size <= head || below(8) == 0) return size;
    uint8_t *rest = data + head;
    return head + (data[0] == 'l' ? mend_live(rest, size - head) : mend_file(rest, size - head, data[0] == 'w' ? HOUSE_ACTIONS_SIZE : 0));
}
