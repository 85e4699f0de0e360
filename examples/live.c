/* A house that is played live, as by a cue editor: the operator drags sixty inputs into it, waits, and drags some more. One of these
 * is refused; and a night that comes while a force stands is noted, and holds when the force is released. What the operator sees is
 * said in words. On x86-64, in the repository:
 *
 * cc -I include examples/live.c target/staticlib/libdesk.a -o target/live_c && target/live_c
 */
#include <stdio.h>
#include <stdlib.h>

#include "house.h"

static uint8_t state[HOUSE_STATE_SIZE];
static uint8_t records[HOUSE_RECORDS_ROOM(HOUSE_MOST_GROUPS)];
static uint8_t answers[HOUSE_MOST_GROUPS];

/* by the kind of an input, by its answer, and by the phase of a state */
static const char *const kinds[] = {"?", "switch", "timed light", "scene", "force", "lock", "night", "bus", "power"};
static const char *const answered[] = {"is obeyed",          "changes nothing",             "is dropped: forced",
                                       "is dropped: locked", "is dropped: the bus is down", "is dropped: the power is down",
                                       "is noted"};
static const char *const phases[] = {"dark", "lit", "starting", "starting, timed", "lit for a while", "warning", "going dark"};

/* A stamp in seconds; inputs and records both begin with it. */
static void say_time(const uint8_t *octets) {
    unsigned stamp = house_stamp(octets);
    printf("%6u.%u s  ", stamp / 10, stamp % 10);
}

static void say_records(uint32_t count) {
    for (const uint8_t *r = records; r < records + HOUSE_RECORD_SIZE * count; r += HOUSE_RECORD_SIZE) {
        unsigned says = house_attributes(r);
        say_time(r);
        printf("the light is %s%s%s%s%s%s\n", house_value(r) ? "on" : "off", says & HOUSE_STAIRCASE ? ", for a while" : "",
               says & HOUSE_NIGHT ? ", by night" : "", says & HOUSE_LOCKED ? ", locked" : "",
               says & HOUSE_FORCED ? ", forced" : "", says & HOUSE_VALID ? "" : ", without power");
    }
}

/* Read off the image. */
static void say_state(void) {
    say_time(state + HOUSE_AT_CLOCK);
    printf("the house is %s\n", phases[state[HOUSE_AT_PHASE]]);
}

/* The count of an accepted call. Nothing else is expected here: the parameters, the state and the buffers are our own. */
static uint32_t accepted(uint64_t number) {
    if (house_code(number) == HOUSE_ACCEPTED) return house_count(number);
    fprintf(stderr, "refused: code %u, place %u\n", house_code(number), house_place(number));
    exit(1);
}

static void say_answers(const uint8_t *inputs, unsigned first, unsigned played) {
    for (unsigned i = 0; i < played; i++) {
        const uint8_t *input = inputs + HOUSE_INPUT_SIZE * (first + i);
        say_time(input);
        printf("input %u, %s %u, %s\n", first + i, kinds[input[4]], input[5], answered[answers[i]]);
    }
}

/* At a refused input the call stops and what went before stands: the editor marks that input and goes on with those behind it. */
static void play(const uint8_t *inputs, unsigned n) {
    for (unsigned first = 0; first < n; first++) {
        uint64_t number = house_change(state, sizeof state, inputs + HOUSE_INPUT_SIZE * first, HOUSE_INPUT_SIZE * (n - first), records,
                                       sizeof records, answers, sizeof answers);
        int bad = house_code(number) == HOUSE_BAD_INPUT, late = house_code(number) == HOUSE_BAD_STAMP;
        unsigned played = bad || late ? house_place(number) : n - first;
        say_records(bad || late ? house_count(number) : accepted(number));
        say_answers(inputs, first, played);
        first += played;
        if (first < n) {
            say_time(inputs + HOUSE_INPUT_SIZE * first);
            printf("input %u is refused: %s\n", first,
                   bad ? "there is no such kind or value" : "its stamp is before the clock, or after the last one");
        }
    }
}

/* Sixty inputs, every second one at the stamp of the one before: On, Off; a timed light; night, On, day; lock, Off, unlock; Off. */
static void write_drag(uint8_t *inputs) {
    static const uint8_t orders[10][2] = {{HOUSE_SWITCH, 1}, {HOUSE_SWITCH, 0},     {HOUSE_TIMED_LIGHT, 1}, {HOUSE_NIGHT_MODE, 1},
                                          {HOUSE_SWITCH, 1}, {HOUSE_NIGHT_MODE, 0}, {HOUSE_LOCK, 1},        {HOUSE_SWITCH, 0},
                                          {HOUSE_LOCK, 0},   {HOUSE_SWITCH, 0}};
    for (unsigned i = 0; i < 60; i++) house_put_input(inputs + HOUSE_INPUT_SIZE * i, 8 * (i - i % 2), orders[i % 10][0], orders[i % 10][1]);
}

int main(void) {
    /* seconds: OnDelay 1, OffDelay 2, TimedOn 10, Prewarning 3; all modes 0, no scenes */
    static const uint8_t parameters[HOUSE_PARAMETERS_SIZE_1] = {0, 1, 0, 2, 0, 10, 0, 3, [16] = 255, 0, 255, 0, 255, 0, 255,
                                                                0, 255, 0, 255, 0, 255, 0, 255};
    uint8_t drag[60 * HOUSE_INPUT_SIZE], more[6 * HOUSE_INPUT_SIZE];
    write_drag(drag);
    house_put_input(more, 820, HOUSE_SWITCH, 1);
    house_put_input(more + 8, 830, HOUSE_SWITCH, 2); /* a value that no switch has */
    house_put_input(more + 16, 840, HOUSE_FORCE, HOUSE_FORCE_ON);
    house_put_input(more + 24, 850, HOUSE_TIMED_LIGHT, 1);
    house_put_input(more + 32, 860, HOUSE_NIGHT_MODE, 1);           /* under the force: the light stays as it is */
    house_put_input(more + 40, 870, HOUSE_FORCE, HOUSE_NO_CONTROL); /* and from here on it is lit for a while, by night */
    accepted(house_fresh(parameters, sizeof parameters, state, sizeof state));
    play(drag, 60);
    say_state();
    say_records(accepted(house_move(state, sizeof state, 800, records, sizeof records)));
    say_state();
    play(more, 6);
    say_state();
}
