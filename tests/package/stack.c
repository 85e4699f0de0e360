/* How much stack each call takes, over long lists of all kinds of inputs. A call is made on a stack of its own that was painted before:
 * the deepest octet that lost its paint is counted from the frame of its caller. Says the most of each call; status 1 above a kilobyte. */
#define _GNU_SOURCE
#include <stdio.h>
#include <string.h>
#include <ucontext.h>

#include <house.h>

enum call { RUN, WALL_RUN, FRESH, CHANGE, MOVE, RUN_TO, VERSION, CALLS };
enum { LISTS = 40, STACK = 65536, PAINT = 0xA5, MOST = 1024 };

static const char *const names[CALLS] = {"house_run",  "house_wall_run", "house_fresh",  "house_change",
                                         "house_move", "house_run_to",   "house_version"};
static uint8_t stack[STACK], file[HOUSE_LONGEST_WALL], state[HOUSE_STATE_SIZE], records[HOUSE_RECORDS_ROOM(HOUSE_MOST_INPUTS)];
static uint8_t answers[HOUSE_MOST_INPUTS];
static size_t file_len, deepest[CALLS];
static enum call called;
static uint64_t number;
static const uint8_t *caller;
static ucontext_t here, there;
static unsigned accepted[CALLS];

/* A number below a bound, by chance, the same in each run of this program. */
static unsigned below(unsigned bound) {
    static uint32_t seed = 1;
    seed = seed * 1664525u + 1013904223u;
    return (seed >> 8) % bound;
}

/* ---- lists */

static void write_parameters(uint8_t *parameters) {
    memset(parameters, 0, HOUSE_PARAMETERS_SIZE_2);
    for (unsigned i = 0; i < 4; i++) house_put_u32(parameters + 4 * i, 10 * (below(8) + (i == 2)));
    parameters[HOUSE_MODES_AT_2 + HOUSE_AT_UNLOCKING] = (uint8_t)below(4);
    parameters[HOUSE_MODES_AT_2 + HOUSE_AT_BUS_FAILURE] = (uint8_t)below(3);
    parameters[HOUSE_MODES_AT_2 + HOUSE_AT_POWER_RETURN] = (uint8_t)below(3);
    parameters[HOUSE_MODES_AT_2 + HOUSE_AT_LEARNING] = (uint8_t)below(2);
}

static void write_scenes(uint8_t *entries) {
    for (unsigned i = 0; i < HOUSE_SCENES; i++) {
        entries[2 * i] = (uint8_t)i;
        entries[2 * i + 1] = (uint8_t)below(4);
    }
}

static uint8_t some_value(uint8_t kind) {
    if (kind == HOUSE_SCENE) return (uint8_t)(HOUSE_LEARN * below(2) + below(12));
    return (uint8_t)below(kind == HOUSE_FORCE ? 4 : 2);
}

/* The last kinds of a wall list are its edges. */
static void write_inputs(uint8_t *inputs, int wall) {
    uint32_t stamp = 0;
    for (unsigned i = 0; i < HOUSE_MOST_INPUTS; i++) {
        unsigned kind = 1 + below(wall ? 10 : 8);
        if (kind > HOUSE_POWER) kind += HOUSE_BUTTON_1 - HOUSE_POWER - 1;
        stamp += below(3) * below(120);
        house_put_input(inputs + HOUSE_INPUT_SIZE * i, stamp, (uint8_t)kind, some_value((uint8_t)kind));
    }
}

static void write_list(int wall) {
    house_put_header(file, 2, HOUSE_MOST_INPUTS, HOUSE_LAST_STAMP);
    write_parameters(file + HOUSE_HEADER_SIZE);
    write_scenes(file + HOUSE_HEADER_SIZE + HOUSE_MODES_AT_2 + HOUSE_AT_SCENES);
    write_inputs(file + HOUSE_INPUTS_AT_2, wall);
    memset(file + HOUSE_LONGEST_FILE, HOUSE_TOGGLE, HOUSE_ACTIONS_SIZE);
    file_len = wall ? HOUSE_LONGEST_WALL : HOUSE_LONGEST_FILE;
}

/* ---- calls */

/* Of a cue file; a change takes as many of its inputs as it may. */
static uint64_t call(void) {
    switch (called) {
    case RUN: return house_run(file, file_len, records, sizeof records, answers, sizeof answers);
    case WALL_RUN: return house_wall_run(file, file_len, records, sizeof records, answers, sizeof answers);
    case FRESH: return house_fresh(file + HOUSE_HEADER_SIZE, HOUSE_PARAMETERS_SIZE_2, state, sizeof state);
    case CHANGE:
        return house_change(state, sizeof state, file + HOUSE_INPUTS_AT_2, HOUSE_MOST_GROUPS * HOUSE_INPUT_SIZE, records, sizeof records,
                            answers, sizeof answers);
    case MOVE: return house_move(state, sizeof state, HOUSE_LAST_STAMP, records, sizeof records);
    case RUN_TO: return house_run_to(file, file_len, state, sizeof state, records, sizeof records, answers, sizeof answers);
    default: return house_version();
    }
}

static void enter(void) {
    caller = (const uint8_t *)__builtin_frame_address(0);
    number = call();
}

static void measure(enum call which) {
    size_t painted = 0;
    memset(stack, PAINT, STACK);
    called = which;
    getcontext(&there);
    there.uc_stack.ss_sp = stack;
    there.uc_stack.ss_size = STACK;
    there.uc_link = &here;
    makecontext(&there, enter, 0);
    swapcontext(&here, &there);
    while (stack[painted] == PAINT) painted++;
    if ((size_t)(caller - stack) - painted > deepest[which]) deepest[which] = (size_t)(caller - stack) - painted;
    accepted[which] += house_code(number) == HOUSE_ACCEPTED || which == VERSION;
}

static void measure_all(void) {
    write_list(0);
    measure(RUN);
    measure(FRESH);
    measure(CHANGE);
    measure(MOVE);
    measure(RUN_TO);
    measure(VERSION);
    write_list(1);
    measure(WALL_RUN);
    file[below((unsigned)file_len)] = 13; /* most often refused */
    measure(WALL_RUN);
}

/* Says all figures; whether each is low enough, and of calls that were accepted. */
static int say_all(void) {
    int within = 1;
    for (int which = 0; which < CALLS; which++) {
        printf("%s%s %zu", which ? ", " : "", names[which], deepest[which]);
        within = within && deepest[which] <= MOST && accepted[which] >= LISTS;
    }
    printf("\n");
    return within;
}

int main(void) {
    for (int i = 0; i < LISTS; i++) measure_all();
    return !say_all();
}
