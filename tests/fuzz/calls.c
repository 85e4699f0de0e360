#include "calls.h"
#include "rooms.h"

#include <inttypes.h>
#include <stdio.h>
#include <stdlib.h>
#include <string.h>

/* ---- The proved calls, and the second model (model.rs) in their place */

extern uint64_t model_call(uint32_t which, const uint8_t *list, size_t list_len, uint8_t *state, size_t state_len, uint32_t stamp,
                           uint8_t *records, size_t records_len, uint8_t *answers, size_t answers_len);

static uint64_t proved_call(const struct call *c, const uint8_t *list, uint8_t *state, uint8_t *records, uint8_t *answers) {
    switch (c->which) {
    case RUN: return house_run(list, c->list_len, records, c->records_len, answers, c->answers_len);
    case WALL_RUN: return house_wall_run(list, c->list_len, records, c->records_len, answers, c->answers_len);
    case FRESH: return house_fresh(list, c->list_len, state, c->state_len);
    case CHANGE: return house_change(state, c->state_len, list, c->list_len, records, c->records_len, answers, c->answers_len);
    case MOVE: return house_move(state, c->state_len, c->stamp, records, c->records_len);
    default: return house_run_to(list, c->list_len, state, c->state_len, records, c->records_len, answers, c->answers_len);
    }
}

/* ---- What include/house.h says of each call */

#define CODES_OF_A_FILE 0x1FFu

/* How many answers there are, for every call that gives any. */
enum { ANSWERS = HOUSE_NOTED + 1 };

static const struct {
    const char *name;
    unsigned codes; /* a bit for each that it can give */
    unsigned answers; /* how many there are */
} promised[CALLS] = {
    [RUN] = {"house_run", CODES_OF_A_FILE, ANSWERS},
    [WALL_RUN] = {"house_wall_run", CODES_OF_A_FILE | 1u << 11, ANSWERS},
    [FRESH] = {"house_fresh", 1u << 0 | 1u << 1 | 1u << 5 | 1u << 8, 0},
    [CHANGE] = {"house_change", 1u << 0 | 1u << 6 | 1u << 7 | 1u << 8 | 1u << 9 | 1u << 12, ANSWERS},
    [MOVE] = {"house_move", 1u << 0 | 1u << 7 | 1u << 8 | 1u << 9, 0},
    [RUN_TO] = {"house_run_to", CODES_OF_A_FILE, ANSWERS},
};

/* How often each code and each answer was given; of the calls that were made it is told when the program ends. */
static uint64_t met[CALLS][16], answered[CALLS][ANSWERS], made[CALLS];

static void tell_call(int which) {
    const char *name = promised[which].name;
    for (unsigned code = 0; code < 16; code++) {
        if (promised[which].codes >> code & 1) fprintf(stderr, "code %u of %s: %" PRIu64 "\n", code, name, met[which][code]);
    }
    for (unsigned answer = 0; answer < promised[which].answers; answer++) {
        fprintf(stderr, "answer %u of %s: %" PRIu64 "\n", answer, name, answered[which][answer]);
    }
}

static void tell(void) {
    for (int which = 0; which < CALLS; which++) {
        if (made[which] > 0) tell_call(which);
    }
}

/* What a number says. */
struct told {
    unsigned code;
    size_t place, count;
};

static struct told taken_apart(uint64_t number) {
    return (struct told){house_code(number), house_place(number), house_count(number)};
}

static void expect(int holds, const struct call *c, uint64_t number, const char *words) {
    if (holds) return;
    struct told t = taken_apart(number);
    fprintf(stderr, "FOUND: %s, code %u place %zu count %zu: %s\n", promised[c->which].name, t.code, t.place, t.count, words);
    abort();
}

size_t inputs_at(const uint8_t *file, size_t len) {
    if (len < HOUSE_INPUTS_AT_1 || file[0] != 0 || file[1] == 0 || file[1] > 2) return 0;
    return file[1] == 1 ? HOUSE_INPUTS_AT_1 : HOUSE_INPUTS_AT_2;
}

size_t about(size_t len, uint8_t deviation) {
    int more = (int8_t)deviation;
    return more >= 0 || len >= (size_t)-more ? len + (size_t)more : 0;
}

static int takes_a_file(const struct call *c) {
    return c->which == RUN || c->which == WALL_RUN || c->which == RUN_TO;
}

/* How many inputs a call has; of a file, those that its header counts. */
static size_t inputs_of(const struct call *c) {
    if (!takes_a_file(c)) return c->list_len / HOUSE_INPUT_SIZE;
    return c->list_len < HOUSE_HEADER_SIZE ? 0 : house_get_u32(c->list + 8);
}

static size_t parameters_of(const struct call *c) {
    size_t start = inputs_at(c->list, c->list_len);
    if (c->which == FRESH) return c->list_len;
    return start == 0 ? 0 : start - HOUSE_HEADER_SIZE;
}

/* How many inputs were played: all of an accepted call, of a change those before the refused one. */
static size_t played(const struct call *c, struct told t) {
    if (t.code == 0) return c->which == MOVE || c->which == FRESH ? 0 : inputs_of(c);
    return c->which == CHANGE ? t.place : 0;
}

/* Below what the place is; 1 where it is 0. */
static size_t places(const struct call *c, unsigned code) {
    switch (code) {
    case 5: return parameters_of(c);
    case 6: return inputs_of(c);
    case 7: return c->which == MOVE ? 1 : inputs_of(c);
    case 11: return HOUSE_ACTIONS_SIZE;
    default: return 1;
    }
}

/* The most records that so many inputs write, with the start and the end of a file. */
static size_t most_records(const struct call *c, struct told t) {
    size_t of_inputs = 3 * played(c, t);
    if (t.code != 0) return of_inputs;
    if (c->which == MOVE) return 2;
    return of_inputs + (takes_a_file(c) ? 3 : 0);
}

/* From which stamp to which the records of a call are. */
static uint32_t first_stamp(const struct call *c) {
    return takes_a_file(c) ? 0 : house_get_u32(c->state + HOUSE_AT_CLOCK);
}

static uint32_t last_stamp(const struct call *c, struct told t) {
    if (takes_a_file(c)) return house_get_u32(c->list + 16);
    return c->which == MOVE ? c->stamp : house_get_u32(c->list + HOUSE_INPUT_SIZE * (played(c, t) - 1));
}

static void check_records(const struct call *c, uint64_t number, const uint8_t *records) {
    struct told t = taken_apart(number);
    uint32_t before = t.count == 0 ? 0 : first_stamp(c), last = t.count == 0 ? 0 : last_stamp(c, t);
    for (size_t i = 0; i < t.count; i++) {
        const uint8_t *r = records + HOUSE_RECORD_SIZE * i;
        expect(house_stamp(r) >= before, c, number, "a record's stamp is below the one before");
        expect(house_stamp(r) <= last, c, number, "a record's stamp is above the last");
        expect(house_value(r) == 0 || house_value(r) == 255, c, number, "a record's value is neither 0 nor 255");
        expect(house_attributes(r) < 32, c, number, "a record's attributes are 32 or more");
        expect(house_cause(r) <= (c->which == MOVE ? 0 : HOUSE_POWER), c, number, "a record's cause is no kind of input");
        expect(r[7] == 0, c, number, "a record's last octet is not 0");
        before = house_stamp(r);
    }
}

/* The octets of an input that was played. */
static const uint8_t *input_of(const struct call *c, size_t i) {
    return c->list + (takes_a_file(c) ? house_inputs_at(c->list) : 0) + HOUSE_INPUT_SIZE * i;
}

static void check_answers(const struct call *c, uint64_t number, const uint8_t *answers) {
    for (size_t i = 0; i < played(c, taken_apart(number)); i++) {
        uint8_t kind = input_of(c, i)[4];
        expect(answers[i] < promised[c->which].answers, c, number, "an answer that there is not");
        expect(answers[i] != HOUSE_NOTED || kind == HOUSE_FORCE || kind == HOUSE_NIGHT_MODE, c, number, "neither a force nor a night is noted");
        answered[c->which][answers[i]]++;
    }
}

static void check_number(const struct call *c, uint64_t number) {
    struct told t = taken_apart(number);
    expect(t.code < 16 && (promised[c->which].codes >> t.code & 1), c, number, "a code that this call never gives");
    made[c->which]++;
    met[c->which][t.code]++;
    expect(t.place < places(c, t.code), c, number, "the place is out of range");
    expect(t.count <= most_records(c, t), c, number, "too many records");
    expect(t.code != 0 || !takes_a_file(c) || t.count > 0, c, number, "no start record");
}

/* ---- One call, in lent memory */

struct lending {
    struct lent list, state, records, answers;
    uint8_t filler;
};

static struct room list_room, state_room, records_room, answers_room;

static void make_rooms(void) {
    if (list_room.size > 0) return;
    list_room = new_room(LIST_ROOM);
    state_room = new_room(STATE_ROOM);
    records_room = new_room(RECORDS_ROOM);
    answers_room = new_room(ANSWERS_ROOM);
    atexit(tell);
}

static uint64_t play_lent(const struct call *c, enum side side, uint8_t filler, struct lending *l) {
    l->filler = filler;
    l->list = lend(&list_room, c->list_len, side, filler);
    l->state = lend(&state_room, c->state_len, side, filler);
    l->records = lend(&records_room, c->records_len, side, filler);
    l->answers = lend(&answers_room, c->answers_len, side, filler);
    if (c->list_len > 0) memcpy(l->list.first, c->list, c->list_len);
    memcpy(l->state.first, c->state, c->state_len);
    return proved_call(c, address(&l->list), address(&l->state), address(&l->records), address(&l->answers));
}

static void check_lent(const struct call *c, uint64_t number, const struct lending *l) {
    struct told t = taken_apart(number);
    check_number(c, number);
    check_records(c, number, l->records.first);
    check_answers(c, number, l->answers.first);
    expect(c->list_len == 0 || memcmp(l->list.first, c->list, c->list_len) == 0, c, number, "what is only read was written");
    expect(untouched(&l->records, 8 * t.count, l->filler), c, number, "octets behind the records were written");
    expect(untouched(&l->answers, played(c, t), l->filler), c, number, "octets behind the answers were written");
    expect(guards_stand(&l->list) && guards_stand(&l->state), c, number, "octets beside the list or the state were written");
    expect(guards_stand(&l->records) && guards_stand(&l->answers), c, number, "octets beside a lent buffer were written");
}

/* A state is written by an accepted call that gives one, and by a change that stops at an input. */
static int gives_a_state(const struct call *c, unsigned code) {
    if (c->which == RUN || c->which == WALL_RUN) return 0;
    return code == 0 || (c->which == CHANGE && (code == 6 || code == 7));
}

static void check_state(const struct call *c, uint64_t number, const struct lent *state) {
    if (!gives_a_state(c, taken_apart(number).code)) {
        expect(memcmp(state->first, c->state, c->state_len) == 0, c, number, "a state was written");
        return;
    }
    uint8_t image[HOUSE_STATE_SIZE], room[24];
    expect(state->len == HOUSE_STATE_SIZE, c, number, "a state of another length was accepted");
    memcpy(image, state->first, HOUSE_STATE_SIZE);
    /* a move without room for its records is refused for that, once the image is accepted */
    uint64_t moved = house_move(image, HOUSE_STATE_SIZE, house_get_u32(image + HOUSE_AT_CLOCK), NULL, 0);
    uint64_t changed = house_change(image, HOUSE_STATE_SIZE, NULL, 0, room, sizeof room, NULL, 0);
    expect(taken_apart(moved).code == 8, c, number, "the state that it gives is refused by house_move");
    expect(changed == 0, c, number, "the state that it gives is refused by house_change");
    expect(memcmp(image, state->first, HOUSE_STATE_SIZE) == 0, c, number, "a change of no inputs changes the state that it gives");
}

static void compare_with_model(const struct call *c, uint64_t number, const struct lending *l) {
    static uint8_t state[STATE_ROOM], records[RECORDS_ROOM], answers[ANSWERS_ROOM];
    static const uint8_t none[1];
    memcpy(state, c->state, c->state_len);
    memset(records, l->filler, c->records_len);
    memset(answers, l->filler, c->answers_len);
    uint64_t other = model_call(c->which, c->list_len > 0 ? c->list : none, c->list_len, state, c->state_len, c->stamp, records,
                                c->records_len, answers, c->answers_len);
    expect(other == number, c, number, "the second model gives another number");
    expect(memcmp(l->state.first, state, c->state_len) == 0, c, number, "the second model gives another state");
    expect(memcmp(l->records.first, records, c->records_len) == 0, c, number, "the second model gives other records");
    expect(memcmp(l->answers.first, answers, c->answers_len) == 0, c, number, "the second model gives other answers");
}

uint64_t play(struct call *c) {
    struct lending first, second;
    static uint8_t records[RECORDS_ROOM], answers[ANSWERS_ROOM], state[STATE_ROOM];
    make_rooms();
    uint64_t number = play_lent(c, AT_THE_END, 0xA5, &first);
    struct told t = taken_apart(number);
    check_lent(c, number, &first);
    check_state(c, number, &first.state);
    compare_with_model(c, number, &first);
    memcpy(records, first.records.first, 8 * t.count);
    memcpy(answers, first.answers.first, played(c, t));
    memcpy(state, first.state.first, c->state_len);
    expect(play_lent(c, AT_THE_START, 0x5A, &second) == number, c, number, "a second call gives another number");
    check_lent(c, number, &second);
    expect(memcmp(second.records.first, records, 8 * t.count) == 0, c, number, "a second call gives other records");
    expect(memcmp(second.answers.first, answers, played(c, t)) == 0, c, number, "a second call gives other answers");
    expect(memcmp(second.state.first, state, c->state_len) == 0, c, number, "a second call gives another state");
    memcpy(c->state, state, c->state_len);
    return number;
}
