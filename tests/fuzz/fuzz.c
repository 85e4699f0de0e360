/* What libFuzzer calls with each input. */
#include "calls.h"
#include "script.h"

#include <string.h>

int LLVMFuzzerTestOneInput(const uint8_t *data, size_t size);

/* The room that n inputs ask for, more or less by what the input says. */
static void lend_room(struct call *c, size_t n, uint8_t records_deviation, uint8_t answers_deviation) {
    c->records_len = about(8 * (3 * n + 3), records_deviation);
    c->answers_len = about(n, answers_deviation);
}

/* How many inputs a file claims to have, as far as there can be so many. */
static size_t claimed(const uint8_t *file, size_t len) {
    uint32_t n = len < HOUSE_HEADER_SIZE ? 0 : house_get_u32(file + 8);
    return n <= HOUSE_MOST_INPUTS ? n : 0;
}

static void play_file(enum which which, const uint8_t *head, size_t left) {
    struct call c = {.which = which};
    if (left < FILE_HEAD || left - FILE_HEAD > LIST_ROOM) return;
    c.list = head + FILE_HEAD;
    c.list_len = left - FILE_HEAD;
    lend_room(&c, claimed(c.list, c.list_len), head[0], head[1]);
    if (which == RUN_TO) c.state_len = about(HOUSE_STATE_SIZE, head[2]);
    play(&c);
}

size_t read_step(const uint8_t *octets, size_t left, struct step *step) {
    if (left < STEP_HEAD) return 0;
    size_t len = ((size_t)octets[3] << 8 | octets[4]) % LONGEST_STEP;
    step->kind = (enum step_kind)(octets[0] % STEPS);
    step->records_deviation = octets[1];
    step->other_deviation = octets[2];
    step->octets = octets + STEP_HEAD;
    step->len = len <= left - STEP_HEAD ? len : left - STEP_HEAD;
    return STEP_HEAD + step->len;
}

/* A stamp that lies near: a little after the one before, or about the moment at which the phase ends, where it ends. */
static uint32_t near_stamp(const struct call *c, uint32_t before, const uint8_t *octets) {
    uint32_t end = house_get_u32(c->state + HOUSE_AT_PHASE_END);
    if (octets[0] % 2 == 1 && end > 0) return end - 1 + octets[3] % 3;
    return before + ((uint32_t)octets[2] << 8 | octets[3]) % 2048;
}

static void play_change(struct call *c, const struct step *step) {
    static uint8_t inputs[LONGEST_STEP];
    size_t n = step->len / HOUSE_INPUT_SIZE;
    uint32_t stamp = house_get_u32(c->state + HOUSE_AT_CLOCK);
    memcpy(inputs, step->octets, step->len);
    for (size_t i = 0; i < n && step->kind == CHANGE_IN_TIME; i++) {
        stamp = near_stamp(c, stamp, inputs + HOUSE_INPUT_SIZE * i);
        house_put_u32(inputs + HOUSE_INPUT_SIZE * i, stamp);
    }
    c->which = CHANGE;
    c->list = inputs;
    c->list_len = step->len;
    lend_room(c, n, step->records_deviation, step->other_deviation);
    play(c);
}

static void play_move(struct call *c, const struct step *step) {
    if (step->len < 4) return;
    uint32_t now = house_get_u32(c->state + HOUSE_AT_CLOCK);
    c->which = MOVE;
    c->stamp = step->kind == MOVE_AS_IS ? house_get_u32(step->octets) : near_stamp(c, now, step->octets);
    c->list_len = 0;
    c->records_len = about(16, step->records_deviation);
    c->answers_len = 0;
    play(c);
}

static void play_fresh(struct call *c, const struct step *step) {
    c->which = FRESH;
    c->list = step->octets;
    c->list_len = step->len;
    c->state_len = about(HOUSE_STATE_SIZE, step->other_deviation);
    c->records_len = c->answers_len = 0;
    play(c);
}

static void hand_in(struct call *c, const struct step *step) {
    c->state_len = step->len <= STATE_ROOM ? step->len : STATE_ROOM;
    memset(c->state, 0, STATE_ROOM);
    memcpy(c->state, step->octets, c->state_len);
}

static void play_step(struct call *c, const struct step *step) {
    switch (step->kind) {
    case FRESH_STATE: play_fresh(c, step); break;
    case WILD_STATE: hand_in(c, step); break;
    case CHANGE_AS_IS:
    case CHANGE_IN_TIME: play_change(c, step); break;
    default: play_move(c, step); break;
    }
}

static void play_live(const uint8_t *octets, size_t left) {
    struct call c = {.state_len = 0};
    struct step step;
    for (size_t len = read_step(octets, left, &step); len > 0; len = read_step(octets, left, &step)) {
        play_step(&c, &step);
        octets += len;
        left -= len;
    }
}

int LLVMFuzzerTestOneInput(const uint8_t *data, size_t size) {
    if (size < LETTER) return 0;
    switch (data[0]) {
    case 'c':
        play_file(RUN, data + LETTER, size - LETTER);
        play_file(RUN_TO, data + LETTER, size - LETTER);
        break;
    case 'w': play_file(WALL_RUN, data + LETTER, size - LETTER); break;
    case 'l': play_live(data + LETTER, size - LETTER); break;
    default: break;
    }
    return 0;
}
