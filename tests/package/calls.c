/* Every call of house.h, against a package: accepted and refused, without memory, at any address, over memory that overlaps, and from
 * several threads. One source for C99 and C++11. Says what does not hold; the last line counts. What is lent comes from malloc in its
 * exact size: valgrind sees an octet too far in the archive too, AddressSanitizer in the header's functions. */
#include <pthread.h>
#include <stdio.h>
#include <stdlib.h>
#include <string.h>

#include <house.h>

enum call { RUN, WALL_RUN, FRESH, CHANGE, MOVE, RUN_TO, CALLS };

/* What is lent: a list that is only read (a cue file, a wall list, parameters or inputs), and three parts that are written. */
enum part { LIST, STATE, RECORDS, ANSWERS, PARTS };

enum { INPUTS = 2, ROOM = 128, OFFSETS = 8, THREADS = 4, ROUNDS = 100, PATTERN = 0xA5, NOT_LENT = 255 };

static const char *const names[CALLS] = {"house_run", "house_wall_run", "house_fresh", "house_change", "house_move", "house_run_to"};

/* The codes of a call without one of its parts, and so what it takes at all. */
static const uint8_t without[CALLS][PARTS] = {
    {HOUSE_TOO_SHORT, NOT_LENT, HOUSE_SHORT_BUFFER, HOUSE_SHORT_BUFFER},
    {HOUSE_TOO_SHORT, NOT_LENT, HOUSE_SHORT_BUFFER, HOUSE_SHORT_BUFFER},
    {HOUSE_TOO_SHORT, HOUSE_SHORT_BUFFER, NOT_LENT, NOT_LENT},
    {HOUSE_ACCEPTED, HOUSE_UNSOUND_STATE, HOUSE_SHORT_BUFFER, HOUSE_SHORT_BUFFER},
    {NOT_LENT, HOUSE_UNSOUND_STATE, HOUSE_SHORT_BUFFER, NOT_LENT},
    {HOUSE_TOO_SHORT, HOUSE_SHORT_BUFFER, HOUSE_SHORT_BUFFER, HOUSE_SHORT_BUFFER},
};

/* What stands in each part before a call. */
struct given {
    uint8_t octets[PARTS][ROOM];
    size_t len[PARTS];
};

/* The same, lent, and the number that came back. */
struct lent {
    uint8_t *base[PARTS], *at[PARTS];
    size_t len[PARTS];
    uint64_t number;
};

static struct given shows[CALLS];
static struct lent wanted[CALLS];
static unsigned held, broken;

static void claim(const char *what, const char *of, int holds) {
    if (holds) {
        held++;
    } else {
        broken++;
        printf("does not hold: %s: %s\n", of, what);
    }
}

/* ---- the show: On at 0, Off at 100, with OnDelay 2, OffDelay 5, TimedOn 60 and Prewarning 10 seconds: lit at 20, dark at 150 */

static void write_times(uint8_t *parameters, int version) {
    static const uint16_t seconds[4] = {2, 5, 60, 10};
    for (unsigned i = 0; i < 4; i++) {
        if (version == 1) house_put_u16(parameters + 2 * i, seconds[i]);
        else house_put_u32(parameters + 4 * i, 10u * seconds[i]);
    }
}

static size_t write_parameters(uint8_t *parameters, int version) {
    uint8_t *modes = parameters + (version == 1 ? HOUSE_MODES_AT_1 : HOUSE_MODES_AT_2);
    memset(parameters, 0, HOUSE_PARAMETERS_SIZE_2);
    write_times(parameters, version);
    modes[HOUSE_AT_UNLOCKING] = HOUSE_AS_BEFORE_LOCKING;
    for (unsigned i = 0; i < HOUSE_SCENES; i++) modes[HOUSE_AT_SCENES + 2 * i] = HOUSE_UNUSED_SCENE;
    return version == 1 ? HOUSE_PARAMETERS_SIZE_1 : HOUSE_PARAMETERS_SIZE_2;
}

static size_t write_inputs(uint8_t *inputs, uint8_t kind) {
    house_put_input(inputs, 0, kind, 1);
    house_put_input(inputs + HOUSE_INPUT_SIZE, 100, kind, 0);
    return INPUTS * HOUSE_INPUT_SIZE;
}

static size_t write_file(uint8_t *file, uint16_t version, uint8_t kind) {
    size_t at = HOUSE_HEADER_SIZE;
    house_put_header(file, version, INPUTS, 1000);
    at += write_parameters(file + at, version);
    return at + write_inputs(file + at, kind);
}

static size_t write_wall(uint8_t *wall) {
    static const uint8_t actions[HOUSE_ACTIONS_SIZE] = {HOUSE_SEND_ON, HOUSE_SEND_OFF, HOUSE_NOTHING, HOUSE_TOGGLE};
    size_t len = write_file(wall, 2, HOUSE_BUTTON_1);
    memcpy(wall + len, actions, sizeof actions);
    return len + sizeof actions;
}

/* The fresh state of parameters of version 2; for a clock move, one that the two inputs were played to. */
static size_t write_state(uint8_t *state, int played) {
    uint8_t parameters[HOUSE_PARAMETERS_SIZE_2], inputs[INPUTS * HOUSE_INPUT_SIZE], records[HOUSE_RECORDS_ROOM(INPUTS)], answers[INPUTS];
    house_fresh(parameters, write_parameters(parameters, 2), state, HOUSE_STATE_SIZE);
    write_inputs(inputs, HOUSE_SWITCH);
    if (played) house_change(state, HOUSE_STATE_SIZE, inputs, sizeof inputs, records, sizeof records, answers, sizeof answers);
    return HOUSE_STATE_SIZE;
}

static size_t write_list(enum call call, uint8_t *list) {
    switch (call) {
    case RUN: return write_file(list, 1, HOUSE_SWITCH);
    case WALL_RUN: return write_wall(list);
    case FRESH: return write_parameters(list, 1);
    case CHANGE: return write_inputs(list, HOUSE_SWITCH);
    case RUN_TO: return write_file(list, 2, HOUSE_SWITCH);
    default: return 0;
    }
}

static void write_show(enum call call) {
    struct given *show = &shows[call];
    const uint8_t *takes = without[call];
    memset(show, PATTERN, sizeof *show);
    show->len[LIST] = write_list(call, show->octets[LIST]);
    show->len[STATE] = takes[STATE] == NOT_LENT ? 0 : HOUSE_STATE_SIZE;
    if (call == CHANGE || call == MOVE) write_state(show->octets[STATE], call == MOVE);
    show->len[RECORDS] = takes[RECORDS] == NOT_LENT ? 0 : call == MOVE ? HOUSE_MOVE_ROOM : HOUSE_RECORDS_ROOM(INPUTS);
    show->len[ANSWERS] = takes[ANSWERS] == NOT_LENT ? 0 : INPUTS;
}

/* ---- lending */

static uint8_t *octets(size_t len) {
    uint8_t *got = (uint8_t *)malloc(len);
    if (got == NULL && len > 0) abort();
    return got;
}

/* A show in memory of its own, each part so many octets after where malloc put it. */
static struct lent lend(const struct given *show, size_t offset) {
    struct lent l;
    for (int p = 0; p < PARTS; p++) {
        l.len[p] = show->len[p];
        l.base[p] = octets(offset + l.len[p] + (offset + l.len[p] == 0));
        l.at[p] = l.base[p] + offset;
        memcpy(l.at[p], show->octets[p], l.len[p]);
    }
    l.number = 0;
    return l;
}

static void give_back(struct lent *l) {
    for (int p = 0; p < PARTS; p++) free(l->base[p]);
}

/* The calls of the header, as they are and checked. */
struct calls {
    uint64_t (*run)(const uint8_t *, size_t, uint8_t *, size_t, uint8_t *, size_t);
    uint64_t (*wall_run)(const uint8_t *, size_t, uint8_t *, size_t, uint8_t *, size_t);
    uint64_t (*fresh)(const uint8_t *, size_t, uint8_t *, size_t);
    uint64_t (*change)(uint8_t *, size_t, const uint8_t *, size_t, uint8_t *, size_t, uint8_t *, size_t);
    uint64_t (*move)(uint8_t *, size_t, uint32_t, uint8_t *, size_t);
    uint64_t (*run_to)(const uint8_t *, size_t, uint8_t *, size_t, uint8_t *, size_t, uint8_t *, size_t);
};

static const struct calls plain_calls = {house_run, house_wall_run, house_fresh, house_change, house_move, house_run_to};
static const struct calls checked_calls = {house_run_checked,    house_wall_run_checked, house_fresh_checked,
                                           house_change_checked, house_move_checked,     house_run_to_checked};

static uint64_t by(const struct calls *calls, enum call call, const struct lent *l) {
    uint8_t *const *at = l->at;
    const size_t *len = l->len;
    switch (call) {
    case RUN: return calls->run(at[LIST], len[LIST], at[RECORDS], len[RECORDS], at[ANSWERS], len[ANSWERS]);
    case WALL_RUN: return calls->wall_run(at[LIST], len[LIST], at[RECORDS], len[RECORDS], at[ANSWERS], len[ANSWERS]);
    case FRESH: return calls->fresh(at[LIST], len[LIST], at[STATE], len[STATE]);
    case CHANGE:
        return calls->change(at[STATE], len[STATE], at[LIST], len[LIST], at[RECORDS], len[RECORDS], at[ANSWERS], len[ANSWERS]);
    case MOVE: return calls->move(at[STATE], len[STATE], 1000, at[RECORDS], len[RECORDS]);
    default: return calls->run_to(at[LIST], len[LIST], at[STATE], len[STATE], at[RECORDS], len[RECORDS], at[ANSWERS], len[ANSWERS]);
    }
}

static uint64_t plainly(enum call call, const struct lent *l) {
    return by(&plain_calls, call, l);
}

static uint64_t checked(enum call call, const struct lent *l) {
    return by(&checked_calls, call, l);
}

/* Whether two calls gave the same number and left the same octets in every part. */
static int same(const struct lent *a, const struct lent *b) {
    int equal = a->number == b->number;
    for (int p = 0; p < PARTS; p++) {
        equal = equal && a->len[p] == b->len[p] && (a->len[p] == 0 || memcmp(a->at[p], b->at[p], a->len[p]) == 0);
    }
    return equal;
}

/* Whether a call answered this number and wrote nothing. */
static int answered_alone(const struct lent *l, const struct given *show, uint64_t number) {
    int untouched = l->number == number;
    for (int p = 0; p < PARTS; p++) untouched = untouched && (l->len[p] == 0 || memcmp(l->at[p], show->octets[p], l->len[p]) == 0);
    return untouched;
}

static uint64_t packed(unsigned code, unsigned place) {
    return (uint64_t)code << 48 | (uint64_t)place << 32;
}

static int all_are(const uint8_t *from, const uint8_t *end, uint8_t octet) {
    while (from < end && *from == octet) from++;
    return from == end;
}

/* ---- accepted */

static int is_record(const uint8_t *record, uint32_t stamp, unsigned value, unsigned attributes, unsigned cause) {
    return house_stamp(record) == stamp && house_value(record) == value && house_attributes(record) == attributes &&
           house_cause(record) == cause && record[7] == 0;
}

/* The records that a call writes: a run begins with the start, a change ends before the light goes out, and a move shows only that. */
static int right_records(enum call call, const struct lent *l) {
    const uint8_t *r = l->at[RECORDS];
    if (call == FRESH) return house_count(l->number) == 0;
    if (call == CHANGE) return house_count(l->number) == 1 && is_record(r, 20, 255, HOUSE_VALID, 0);
    if (call == MOVE) return house_count(l->number) == 1 && is_record(r, 150, 0, HOUSE_VALID, 0);
    return house_count(l->number) == 3 && is_record(r, 0, 0, HOUSE_VALID, 0) && is_record(r + 8, 20, 255, HOUSE_VALID, 0) &&
           is_record(r + 16, 150, 0, HOUSE_VALID, 0);
}

static int right_state(enum call call, const uint8_t *state) {
    unsigned phase = state[HOUSE_AT_PHASE], clock = house_stamp(state + HOUSE_AT_CLOCK), end = house_stamp(state + HOUSE_AT_PHASE_END);
    if (call == FRESH) return phase == HOUSE_DARK && clock == 0 && end == 0 && house_get_u32(state + 8) == 600;
    if (call == CHANGE) return phase == HOUSE_ENDING && clock == 100 && end == 150;
    return phase == HOUSE_DARK && clock == 1000 && end == 0;
}

/* With more room than is asked for, too: what stands behind the last record and the last answer stays. */
static void accept(enum call call, size_t more) {
    struct given show = shows[call];
    struct lent l;
    show.len[RECORDS] += show.len[RECORDS] ? more : 0;
    show.len[ANSWERS] += show.len[ANSWERS] ? more : 0;
    l = lend(&show, 0);
    l.number = plainly(call, &l);
    claim("it is accepted", names[call], house_code(l.number) == HOUSE_ACCEPTED && house_place(l.number) == 0);
    claim("the records are right", names[call], right_records(call, &l));
    if (l.len[STATE]) claim("the state is right", names[call], right_state(call, l.at[STATE]));
    if (l.len[ANSWERS]) claim("the answers are right", names[call], l.at[ANSWERS][0] == HOUSE_CHANGED && l.at[ANSWERS][1] == HOUSE_CHANGED);
    claim("the list is left alone", names[call], l.len[LIST] == 0 || memcmp(l.at[LIST], show.octets[LIST], l.len[LIST]) == 0);
    if (l.len[RECORDS]) {
        claim("what is behind the records stays", names[call],
              all_are(l.at[RECORDS] + HOUSE_RECORD_SIZE * house_count(l.number), l.at[RECORDS] + l.len[RECORDS], PATTERN));
    }
    if (l.len[ANSWERS]) {
        claim("what is behind the answers stays", names[call],
              all_are(l.at[ANSWERS] + INPUTS, l.at[ANSWERS] + l.len[ANSWERS], PATTERN));
    }
    give_back(&l);
}

/* ---- refused */

/* A show with one octet changed. */
static void refuse(enum call call, enum part part, size_t at, uint8_t octet, uint64_t number) {
    struct given show = shows[call];
    struct lent l;
    show.octets[part][at] = octet;
    l = lend(&show, 0);
    l.number = plainly(call, &l);
    claim("it is refused, and nothing is written", names[call], answered_alone(&l, &show, number));
    give_back(&l);
}

static void refuse_all(void) {
    refuse(RUN, LIST, 1, 3, packed(HOUSE_WRONG_VERSION, 0));
    refuse(WALL_RUN, LIST, shows[WALL_RUN].len[LIST] - 1, 4, packed(HOUSE_BAD_ACTION, 3));
    refuse(FRESH, LIST, 5, 0, packed(HOUSE_BAD_PARAMETER, 4));
    refuse(CHANGE, STATE, HOUSE_AT_PHASE, 7, packed(HOUSE_UNSOUND_STATE, 0));
    refuse(MOVE, STATE, 43, 1, packed(HOUSE_UNSOUND_STATE, 0));
    refuse(RUN_TO, LIST, HOUSE_INPUTS_AT_2 + HOUSE_INPUT_SIZE + 5, 2, packed(HOUSE_BAD_INPUT, 1));
}

/* The second input of a change is no input: the first stands. */
static void stop_half_way(void) {
    struct lent l = lend(&shows[CHANGE], 0);
    l.at[LIST][HOUSE_INPUT_SIZE + 4] = 9;
    l.number = plainly(CHANGE, &l);
    claim("it stops at the input that is refused", names[CHANGE], l.number == packed(HOUSE_BAD_INPUT, 1));
    claim("what went before stands", names[CHANGE],
          l.at[STATE][HOUSE_AT_PHASE] == HOUSE_STARTING && l.at[ANSWERS][0] == HOUSE_CHANGED && l.at[ANSWERS][1] == PATTERN);
    give_back(&l);
}

/* ---- NULL, for a part of length 0 */

static void lend_nothing(struct lent *l, int part) {
    l->at[part] = NULL;
    l->len[part] = 0;
}

/* One part at a time. None is left out without a refusal but the inputs of a change, and then nothing changes. */
static void lend_without(enum call call) {
    for (int p = 0; p < PARTS; p++) {
        struct lent l = lend(&shows[call], 0);
        if (without[call][p] != NOT_LENT) {
            lend_nothing(&l, p);
            l.number = plainly(call, &l);
            claim("without a part", names[call], answered_alone(&l, &shows[call], packed(without[call][p], 0)));
            l.number = checked(call, &l);
            claim("without a part, checked", names[call], answered_alone(&l, &shows[call], packed(without[call][p], 0)));
        }
        give_back(&l);
    }
}

static void lend_none(enum call call) {
    static const uint8_t codes[CALLS] = {HOUSE_TOO_SHORT,     HOUSE_TOO_SHORT,     HOUSE_TOO_SHORT,
                                         HOUSE_UNSOUND_STATE, HOUSE_UNSOUND_STATE, HOUSE_TOO_SHORT};
    struct lent l;
    memset(&l, 0, sizeof l);
    claim("without any part", names[call], plainly(call, &l) == packed(codes[call], 0));
    claim("without any part, checked", names[call], checked(call, &l) == packed(codes[call], 0));
}

/* Without inputs there are no answers: a list of none is accepted with NULL for them. */
static void play_no_inputs(enum call call) {
    struct given show = shows[call];
    uint8_t *list = show.octets[LIST];
    size_t inputs = INPUTS * HOUSE_INPUT_SIZE;
    struct lent l;
    if (call != CHANGE) house_put_u32(list + 8, 0);
    if (call == WALL_RUN) memmove(list + HOUSE_INPUTS_AT_2, list + HOUSE_INPUTS_AT_2 + inputs, HOUSE_ACTIONS_SIZE);
    show.len[LIST] -= inputs;
    l = lend(&show, 0);
    lend_nothing(&l, ANSWERS);
    if (call == CHANGE) lend_nothing(&l, LIST);
    l.number = plainly(call, &l);
    claim("without inputs and answers", names[call], l.number == (call == CHANGE ? 0u : 1u));
    give_back(&l);
}

/* ---- any address */

static void lend_unaligned(enum call call) {
    for (size_t offset = 0; offset < OFFSETS; offset++) {
        struct lent l = lend(&shows[call], offset);
        l.number = plainly(call, &l);
        claim("at every address alike", names[call], same(&l, &wanted[call]));
        give_back(&l);
    }
}

/* ---- overlap */

/* Two parts of a show in one block: the second so many octets behind the first. */
static void join(struct lent *l, int first, int second, size_t shift) {
    const size_t *len = l->len;
    uint8_t *block = octets(shift + len[second] > len[first] ? shift + len[second] : len[first]);
    memcpy(block, l->at[first], len[first]);
    memcpy(block + shift, l->at[second], len[second]);
    free(l->base[first]);
    free(l->base[second]);
    l->base[first] = l->at[first] = block;
    l->base[second] = NULL;
    l->at[second] = block + shift;
}

static void lend_overlapping(enum call call, int first, int second, size_t shift) {
    struct lent l = lend(&shows[call], 0);
    struct given before = shows[call];
    join(&l, first, second, shift);
    memcpy(before.octets[first], l.at[first], l.len[first]);
    memcpy(before.octets[second], l.at[second], l.len[second]);
    l.number = checked(call, &l);
    claim("overlapping memory is told, and nothing is written", names[call], answered_alone(&l, &before, packed(HOUSE_OVERLAP, 0)));
    give_back(&l);
}

static void lend_touching(enum call call, int first, int second) {
    struct lent l = lend(&shows[call], 0);
    join(&l, first, second, l.len[first]);
    l.number = checked(call, &l);
    claim("memory that only touches is played", names[call], same(&l, &wanted[call]));
    give_back(&l);
}

/* Overlapping in one octet, and from the first octet on. */
static void lend_pair(enum call call, int first, int second) {
    if (first == second || without[call][first] == NOT_LENT || without[call][second] == NOT_LENT) return;
    lend_overlapping(call, first, second, shows[call].len[first] - 1);
    lend_overlapping(call, first, second, 0);
    lend_touching(call, first, second);
}

static void lend_pairs(enum call call) {
    for (int pair = 0; pair < PARTS * PARTS; pair++) lend_pair(call, pair / PARTS, pair % PARTS);
}

/* Also at both ends of the address space, where a sum would begin again at 0. */
static void compare_ranges(void) {
    uint8_t *low = (uint8_t *)1, *high = (uint8_t *)(UINTPTR_MAX - 7);
    const char *name = "house_apart";
    claim("a part and itself", name, !house_apart(low, 1, low, 1));
    claim("a part within another", name, !house_apart(low, 9, low + 3, 2) && !house_apart(low + 3, 2, low, 9));
    claim("parts that touch", name, house_apart(low, 3, low + 3, 2) && house_apart(low + 3, 2, low, 3));
    claim("a part of length 0", name, house_apart(low, 9, low + 3, 0) && house_apart(low + 3, 0, low, 9) && house_apart(NULL, 0, NULL, 0));
    claim("parts far apart", name, house_apart(low, 8, high, 8) && house_apart(high, 8, low, 8));
}

/* ---- threads */

static void *play_rounds(void *differing) {
    for (int i = 0; i < ROUNDS * CALLS; i++) {
        struct lent l = lend(&shows[i % CALLS], 0);
        l.number = plainly((enum call)(i % CALLS), &l);
        *(unsigned *)differing += !same(&l, &wanted[i % CALLS]);
        give_back(&l);
    }
    return NULL;
}

static void start_threads(pthread_t *threads, unsigned *differing) {
    for (int i = 0; i < THREADS; i++) {
        if (pthread_create(&threads[i], NULL, play_rounds, &differing[i]) != 0) abort();
    }
}

static void play_in_threads(void) {
    pthread_t threads[THREADS];
    unsigned differing[THREADS] = {0};
    start_threads(threads, differing);
    for (int i = 0; i < THREADS; i++) {
        pthread_join(threads[i], NULL);
        claim("in several threads alike", "all calls", differing[i] == 0);
    }
}

/* ---- the header by itself */

/* Those of 2 to 5, and no other. */
static int answers_drop(void) {
    for (unsigned answer = 0; answer <= 255; answer++) {
        if (house_dropped(answer) != (answer >= 2 && answer <= 5)) return 0;
    }
    return HOUSE_NOTED == 6;
}

static void read_and_write(void) {
    const char *name = "house.h";
    uint8_t input[HOUSE_INPUT_SIZE] = {PATTERN, PATTERN, PATTERN, PATTERN, PATTERN, PATTERN, PATTERN, PATTERN};
    static const uint8_t octets_of_input[HOUSE_INPUT_SIZE] = {0, 13, 46, 255, HOUSE_SCENE, HOUSE_LEARN + 63, 0, 0};
    const uint8_t *file = shows[RUN].octets[LIST], *later = shows[RUN_TO].octets[LIST];
    uint64_t number = 0x000C123480000007u;
    house_put_input(input, HOUSE_LAST_STAMP - 1, HOUSE_SCENE, HOUSE_LEARN + HOUSE_LAST_SCENE);
    claim("an input", name, memcmp(input, octets_of_input, sizeof input) == 0 && house_stamp(input) == 863999);
    claim("a number", name, house_code(number) == 12 && house_place(number) == 0x1234 && house_count(number) == 0x80000007u);
    claim("which answers drop", name, answers_drop());
    claim("a file of version 1", name, house_file_version(file) == 1 && house_inputs(file) == INPUTS && house_inputs_at(file) == 52);
    claim("a file of version 2", name, house_file_version(later) == 2 && house_inputs(later) == INPUTS && house_inputs_at(later) == 60);
}

/* A newer minor number and more versions of a file fit; fewer of these, or another major number, do not. */
static int versions_fit(void) {
    const uint64_t minor = (uint64_t)1 << 32, major = (uint64_t)1 << 48;
    return house_version_fits(HOUSE_VERSION) && house_version_fits(HOUSE_VERSION + minor) && house_version_fits(HOUSE_VERSION + 65536u) &&
           !house_version_fits(HOUSE_VERSION - 65536u) && !house_version_fits(HOUSE_VERSION + 1) && !house_version_fits(HOUSE_VERSION + major) &&
           !house_version_fits(HOUSE_VERSION - major);
}

static void compare_constants(void) {
    const char *name = "house.h";
    claim("sizes of version 1", name, HOUSE_FILE_SIZE_1(1 + 1) == 68 && shows[RUN].len[LIST] == 68);
    claim("sizes of version 2", name, HOUSE_FILE_SIZE_2(1 + 1) == 76 && shows[RUN_TO].len[LIST] == 76);
    claim("room for files", name, HOUSE_FILE_SIZE(1 + 1) == 76 && HOUSE_LONGEST_FILE == 16444 && HOUSE_LONGEST_WALL == 16448);
    claim("room for records", name, HOUSE_RECORDS_ROOM(1 + 1) == 72 && HOUSE_MOVE_ROOM == 16);
    claim("the parts of the version", name, HOUSE_VERSION == packed(HOUSE_VERSION_MAJOR, HOUSE_VERSION_MINOR) + 0x00020001u);
    claim("header and archive belong together", name, house_version() == HOUSE_VERSION);
    claim("which versions fit the header", name, versions_fit());
}

static void play(enum call call) {
    accept(call, 0);
    accept(call, 5);
    wanted[call] = lend(&shows[call], 0);
    wanted[call].number = plainly(call, &wanted[call]);
    lend_without(call);
    lend_none(call);
    if (shows[call].len[ANSWERS]) play_no_inputs(call);
    lend_unaligned(call);
    lend_pairs(call);
}

static void play_all(void) {
    for (int call = 0; call < CALLS; call++) {
        write_show((enum call)call);
        play((enum call)call);
    }
}

int main(void) {
    play_all();
    refuse_all();
    stop_half_way();
    compare_ranges();
    play_in_threads();
    read_and_write();
    compare_constants();
    for (int call = 0; call < CALLS; call++) give_back(&wanted[call]);
    printf("%u held, %u did not\n", held, broken);
    return broken != 0;
}
