/* house.h: the preview of a house-light actuator and its wall buttons, for C and C++.
 *
 * house_run plays a cue file on the model of one KNX Light Switching Actuator Basic and writes what its status shows and how
 * each cue is answered. house_wall_run plays a wall list, in which the edges of two wall buttons stand among the cues: a KNX Light
 * Switching Sensor turns them into telegrams. The others play a house live: the state is yours, and they take it a few inputs or
 * some time further. The models are written in Rattle, and each call is proved to give exactly what the rules say, for every octet
 * string and every pair of buffers.
 *
 * What is asked of you, and nothing else is: each pointer is good for as many octets as the length beside it says, for the time of
 * the call (it may be NULL where that length is 0), and what is lent to one call does not overlap, but for memory that is only read.
 * What is wrong with the octets themselves is answered, never assumed away.
 *
 *   Of memory that overlaps nothing is promised, neither what is written nor that it is written within what was lent. Nor is it
 *   noticed: a run whose file was also its records was accepted, with wrong records. Who cannot be sure of his pointers calls
 *   house_run_checked and its like, below, which look first.
 *
 * What you may rely on:
 *
 *   - A call always returns. It keeps nothing, allocates nothing and prints nothing: it may be made from any thread, from several at
 *     once and from a signal handler, as long as they lend different memory.
 *   - It calls no C library and nothing else: the archive has no undefined symbol. It sets no errno, raises no signal, throws no
 *     exception and has no tables to unwind it by.
 *   - No pointer need be aligned.
 *   - It needs less than a kilobyte of stack.
 *   - The archive is position independent: it may go into a program or into a shared object of yours.
 *
 * All of it is for x86-64 Linux. In the repository `./package DIR` fills a folder with this header, with libhouse.a and libhouse.so,
 * either of which has every call below, and with house.pc, so that `pkg-config --cflags --libs house` gives what a compiler needs.
 * (Inside the repository the calls stand in four archives of target/staticlib: house_run in libhouse.a, the live calls in libdesk.a,
 * house_wall_run in libwalls.a, house_version in libversion.a.)
 */
#ifndef HOUSE_H
#define HOUSE_H

#include <stddef.h>
#include <stdint.h>

#ifdef __cplusplus
extern "C" {
#endif

/* ---- Version
 *
 * The major number changes where something that a caller relies on does: a name, a size, an answer. The minor number changes where
 * something is added. The versions of a cue file that are read are numbers of their own. */
#define HOUSE_VERSION_MAJOR 2
#define HOUSE_VERSION_MINOR 0
#define HOUSE_OLDEST_FILE 1
#define HOUSE_NEWEST_FILE 2
#define HOUSE_VERSION \
    ((uint64_t)HOUSE_VERSION_MAJOR << 48 | (uint64_t)HOUSE_VERSION_MINOR << 32 | (uint64_t)HOUSE_NEWEST_FILE << 16 | HOUSE_OLDEST_FILE)

/* The HOUSE_VERSION of the library: equal to that of the header it belongs to. Compare them once, at the start. */
uint64_t house_version(void);

/* Whether a library of this version does all that this header says: the same major number, and nothing less. A shared object may be newer
 * than the header that a program was compiled with, and then still fits. */
static inline int house_version_fits(uint64_t version) {
    return version >> 48 == HOUSE_VERSION >> 48 && version >> 32 >= HOUSE_VERSION >> 32 &&
           (version >> 16 & 65535u) >= HOUSE_NEWEST_FILE && (version & 65535u) <= HOUSE_OLDEST_FILE;
}

/* ---- A cue file
 *
 * It is of version 1, with its times in seconds, or of version 2, with its times in tenths of a second; every call takes both.
 * Numbers are most significant octet first:
 *
 *                                   version 1             version 2
 *     header                        octets 0 to 19        the same
 *       0-1 version                 1                     2
 *       2-3 count of actuators      1                     1
 *       4-7 offset of parameters    20                    20
 *       8-11 count n of inputs      0 to 2,048            0 to 2,048
 *       12-15 offset of inputs      52                    60
 *       16-19 end time, a stamp     0 to 864,000          0 to 864,000
 *     parameters                    32 octets from 20 on  40 octets from 20 on
 *       OnDelay, OffDelay,          four times two        four times four octets: tenths of a second, 0 to 655,350
 *       TimedOnDuration (not 0),    octets: seconds
 *       PrewarningDuration
 *       modes and scenes, below     24 octets             the same 24 octets
 *     inputs, below                 from 52 on            from 60 on
 *     in all                        52+8n octets          60+8n octets
 *
 * Modes and scenes:
 *
 *     0 BehaviourAtLocking          0 keep, 1 off, 2 on
 *     1 BehaviourAtUnlocking        0 keep, 1 off, 2 on, 3 as before locking
 *     2 BusFailureMode              0 keep, 1 off, 2 on
 *     3 BusReturnMode               0 keep, 1 off, 2 on
 *     4 PowerReturnMode             0 as before the failure, 1 off, 2 on
 *     5 SceneLearningModeEnable     0 no, 1 yes
 *     6-7                           zero
 *     8-23 eight scene entries      two octets each: the number, 0 to 63, or 255 for an unused entry; then flags: 1 where it recalls on,
 *                                   plus 2 where it was taught in, 0 in an unused entry. No number is used twice.
 *
 * An input is eight octets: 0-3 its stamp, in tenths of a second, 4 its kind and 5 its value (enum house_kind), 6-7 zero. Stamps never
 * fall. Inputs of one stamp run in their order, after the timers that are due at that stamp.
 *
 * A wall list is a cue file in which an input may also be an edge of a wall button (enum house_button), followed by four octets,
 * the sensor's actions (enum house_action): button 1 rising, button 1 falling, button 2 rising, button 2 falling. Its header counts
 * the edges among the n inputs.
 */
#define HOUSE_LAST_STAMP 864000u
#define HOUSE_MOST_INPUTS 2048u /* of a file or a wall list */
#define HOUSE_MOST_GROUPS 256u  /* inputs of one house_change */

#define HOUSE_HEADER_SIZE 20u
#define HOUSE_PARAMETERS_SIZE_1 32u
#define HOUSE_PARAMETERS_SIZE_2 40u
#define HOUSE_INPUT_SIZE 8u
#define HOUSE_ACTIONS_SIZE 4u
#define HOUSE_RECORD_SIZE 8u
#define HOUSE_STATE_SIZE 56u

/* Where the inputs of a file begin, and where the modes of its parameters do, counted from the first octet of these. */
#define HOUSE_INPUTS_AT_1 (HOUSE_HEADER_SIZE + HOUSE_PARAMETERS_SIZE_1)
#define HOUSE_INPUTS_AT_2 (HOUSE_HEADER_SIZE + HOUSE_PARAMETERS_SIZE_2)
#define HOUSE_MODES_AT_1 8u
#define HOUSE_MODES_AT_2 16u

/* The size of a file of n inputs, by its version; a wall list has HOUSE_ACTIONS_SIZE more. */
#define HOUSE_FILE_SIZE_1(n) (HOUSE_INPUTS_AT_1 + HOUSE_INPUT_SIZE * (size_t)(n))
#define HOUSE_FILE_SIZE_2(n) (HOUSE_INPUTS_AT_2 + HOUSE_INPUT_SIZE * (size_t)(n))

/* Room that is enough for a file of n inputs of either version, for any file, for any wall list; for the records of n inputs, and of
 * one clock move. The answers of n inputs are n octets. */
#define HOUSE_FILE_SIZE(n) HOUSE_FILE_SIZE_2(n)
#define HOUSE_LONGEST_FILE HOUSE_FILE_SIZE(HOUSE_MOST_INPUTS)
#define HOUSE_LONGEST_WALL (HOUSE_LONGEST_FILE + HOUSE_ACTIONS_SIZE)
#define HOUSE_RECORDS_ROOM(n) (HOUSE_RECORD_SIZE * (3u * (size_t)(n) + 3u))
#define HOUSE_MOVE_ROOM (2u * HOUSE_RECORD_SIZE)

/* The octets of the modes, and where the scene entries begin behind them. */
enum house_mode_at {
    HOUSE_AT_LOCKING = 0,
    HOUSE_AT_UNLOCKING = 1,
    HOUSE_AT_BUS_FAILURE = 2,
    HOUSE_AT_BUS_RETURN = 3,
    HOUSE_AT_POWER_RETURN = 4,
    HOUSE_AT_LEARNING = 5,
    HOUSE_AT_SCENES = 8
};

enum house_mode {
    HOUSE_KEEP = 0,              /* at locking, unlocking, bus failure and bus return */
    HOUSE_AS_BEFORE_FAILURE = 0, /* at power return, in the place of keep */
    HOUSE_SET_OFF = 1,
    HOUSE_SET_ON = 2,
    HOUSE_AS_BEFORE_LOCKING = 3 /* at unlocking alone */
};

/* Scenes: eight entries of a number and flags, and the value of an input of kind HOUSE_SCENE. */
enum house_scene {
    HOUSE_SCENES = 8,
    HOUSE_LAST_SCENE = 63,
    HOUSE_UNUSED_SCENE = 255, /* the number of an unused entry; its flags are 0 */
    HOUSE_RECALLS_ON = 1,     /* flags, added up */
    HOUSE_TAUGHT = 2,
    HOUSE_LEARN = 128 /* added to the number, the input learns; without it, it recalls */
};

/* The kinds of an input, and their values. */
enum house_kind {
    HOUSE_SWITCH = 1,      /* SwitchOnOff: 0 off, 1 on */
    HOUSE_TIMED_LIGHT = 2, /* TimedStartStop: 0 stop, 1 start */
    HOUSE_SCENE = 3,       /* NumberedSceneControl: the scene's number, 0 to 63, to recall it; HOUSE_LEARN more to learn it */
    HOUSE_FORCE = 4,       /* SwitchOnOffForced: enum house_force */
    HOUSE_LOCK = 5,        /* LockDevice: 0 unlock, 1 lock */
    HOUSE_NIGHT_MODE = 6,  /* NightMode: 0 day, 1 night */
    HOUSE_BUS = 7,         /* 0 failure, 1 return */
    HOUSE_POWER = 8        /* 0 failure, 1 return */
};

enum house_force {
    HOUSE_NO_CONTROL = 0, /* 1 is the same */
    HOUSE_FORCE_OFF = 2,
    HOUSE_FORCE_ON = 3
};

/* The kinds of a wall list's edges, beside the kinds of a cue file. Edges are not paired: each acts by itself. */
enum house_button {
    HOUSE_BUTTON_1 = 11,
    HOUSE_BUTTON_2 = 12
};

/* The values of an edge: the button is let go, or pressed. */
enum house_edge {
    HOUSE_FALLS = 0,
    HOUSE_RISES = 1
};

/* What an edge does. */
enum house_action {
    HOUSE_NOTHING = 0,
    HOUSE_SEND_OFF = 1,
    HOUSE_SEND_ON = 2,
    HOUSE_TOGGLE = 3 /* the inverse of the last value sent or heard */
};

/* Numbers of two and of four octets, most significant first. */
static inline unsigned house_get_u16(const uint8_t *octets) {
    return (unsigned)octets[0] << 8 | (unsigned)octets[1];
}

static inline uint32_t house_get_u32(const uint8_t *octets) {
    return (uint32_t)house_get_u16(octets) << 16 | (uint32_t)house_get_u16(octets + 2);
}

static inline void house_put_u16(uint8_t *octets, uint16_t number) {
    octets[0] = (uint8_t)(number >> 8);
    octets[1] = (uint8_t)(number & 255u);
}

static inline void house_put_u32(uint8_t *octets, uint32_t number) {
    house_put_u16(octets, (uint16_t)(number >> 16));
    house_put_u16(octets + 2, (uint16_t)(number & 65535u));
}

/* Writes the eight octets of an input. */
static inline void house_put_input(uint8_t *octets, uint32_t stamp, uint8_t kind, uint8_t value) {
    house_put_u32(octets, stamp);
    octets[4] = kind;
    octets[5] = value;
    house_put_u16(octets + 6, 0);
}

/* Writes the twenty octets of the header of a file of version 1 or 2. */
static inline void house_put_header(uint8_t *octets, uint16_t version, uint32_t inputs, uint32_t end) {
    house_put_u16(octets, version);
    house_put_u16(octets + 2, 1);
    house_put_u32(octets + 4, HOUSE_HEADER_SIZE);
    house_put_u32(octets + 8, inputs);
    house_put_u32(octets + 12, version == 1 ? HOUSE_INPUTS_AT_1 : HOUSE_INPUTS_AT_2);
    house_put_u32(octets + 16, end);
}

/* Of an accepted file or wall list: its version, how many inputs it has, and where the first of them stands. */
static inline unsigned house_file_version(const uint8_t *file) {
    return house_get_u16(file);
}

static inline uint32_t house_inputs(const uint8_t *file) {
    return house_get_u32(file + 8);
}

static inline uint32_t house_inputs_at(const uint8_t *file) {
    return house_get_u32(file + 12);
}

/* ---- The number that every call answers: code * 2^48 + place * 2^32 + count of records */
static inline unsigned house_code(uint64_t number) {
    return (unsigned)(number >> 48);
}

static inline unsigned house_place(uint64_t number) {
    return (unsigned)(number >> 32 & 65535u);
}

static inline uint32_t house_count(uint64_t number) {
    return (uint32_t)(number & 0xFFFFFFFFu);
}

/* Codes, in the order in which they are tested, and what the place means. */
enum house_refusal {
    HOUSE_ACCEPTED = 0,        /* place 0 */
    HOUSE_TOO_SHORT = 1,       /* a file under 52 octets (version 2: 60), a wall list under 56 (64); parameters alone that are
                                * neither 32 nor 40; place 0 */
    HOUSE_WRONG_VERSION = 2,   /* neither version 1 nor 2, in a file of at least 52 octets; place 0 */
    HOUSE_WRONG_ACTUATORS = 3, /* count of actuators not 1; place 0 */
    HOUSE_WRONG_LAYOUT = 4,    /* an offset, the count of inputs, the length or the end time; place 0 */
    HOUSE_BAD_PARAMETER = 5,   /* place: the lowest bad octet of the parameters, 0 to 31 (version 2: 39); of a time its first */
    HOUSE_BAD_ACTION = 11,     /* a wall list's action above 3; place: the lowest bad octet of the four, 0 to 3 */
    HOUSE_BAD_INPUT = 6,       /* kind, value or zero octet; place: the input's index, from 0; of house_change after 8 */
    HOUSE_BAD_STAMP = 7,       /* below the stamp before or the clock, above the end time or, live, HOUSE_LAST_STAMP; place: the
                                * input's index; of house_change after 8; of house_move before 8, and 0 */
    HOUSE_SHORT_BUFFER = 8,    /* a lent buffer is too short, a lent state not HOUSE_STATE_SIZE; place 0 */
    HOUSE_UNSOUND_STATE = 9,   /* octets that are no image of a sound state; place 0; before all others */
    HOUSE_WRONG_GROUPS = 12,   /* more than HOUSE_MOST_GROUPS inputs, or a length that is no multiple of 8; place 0; right after 9 */
    HOUSE_OVERLAP = 65535      /* of the checked calls alone, before they call: lent memory overlaps; place 0 */
};

/* ---- Records and answers
 *
 * A record is eight octets: the stamp in tenths of a second (four octets, most significant first), value, attributes, cause, zero.
 * One is written at the start of a run, and one after each timer or input that changed value or attributes. */

/* The stamp of an input or of a record; both begin with it. */
static inline uint32_t house_stamp(const uint8_t *octets) {
    return house_get_u32(octets);
}

/* 0 off, 255 on */
static inline unsigned house_value(const uint8_t *record) {
    return record[4];
}

/* enum house_attribute, added up */
static inline unsigned house_attributes(const uint8_t *record) {
    return record[5];
}

/* the input's kind, 1 to 8; 1 for a telegram; 0 for a timer and for the start */
static inline unsigned house_cause(const uint8_t *record) {
    return record[6];
}

enum house_attribute {
    HOUSE_VALID = 1,    /* power is not down */
    HOUSE_LOCKED = 2,
    HOUSE_FORCED = 4,
    HOUSE_NIGHT = 8,
    HOUSE_STAIRCASE = 16 /* timed light runs, its prewarning included */
};

/* An answer to an input.
 *
 * A stopped input is dropped for good, and leaves nothing behind but the clock. Night and force are values, of which the last one is kept
 * even where lock or force stops other inputs: a night or a day under lock or force, and a force or its release under the lock, is noted.
 * The value changes, and a record shows it where an attribute does; the light stays as it is. The release or the unlocking then acts on
 * the values that stand. A bus or a power that is down drops them too, and a power failure clears what was noted. */
enum house_answer {
    HOUSE_CHANGED = 0,          /* it was taken, and changed something */
    HOUSE_UNCHANGED = 1,        /* it changed nothing but the clock, taken or noted; or an edge that sends nothing */
    HOUSE_STOPPED_BY_FORCE = 2,
    HOUSE_STOPPED_BY_LOCK = 3,
    HOUSE_STOPPED_BY_BUS = 4,   /* the bus is down */
    HOUSE_STOPPED_BY_POWER = 5, /* power is down */
    HOUSE_NOTED = 6             /* a night or a force was noted, and is another than the one before */
};

/* Whether an answer says that its input was stopped. Not every answer above 1 does. */
static inline int house_dropped(unsigned answer) {
    return answer >= HOUSE_STOPPED_BY_FORCE && answer <= HOUSE_STOPPED_BY_POWER;
}

/* ---- Runs: a whole list at once */

/* Plays a cue file.
 *
 *   file, file_len          the octets of a cue file; they are only read
 *   records, records_len    lent room for records: at least HOUSE_RECORDS_ROOM(n) octets for a file of n inputs
 *   answers, answers_len    lent room for answers: at least n octets
 *
 * Accepted: records holds house_count records of eight octets, answers one octet for each input; whatever stood behind them
 * stays. Refused: nothing is written, and the count is 0.
 */
uint64_t house_run(const uint8_t *file, size_t file_len, uint8_t *records, size_t records_len, uint8_t *answers,
                   size_t answers_len);

/* Plays a wall list.
 *
 *   wall, wall_len          the octets of a wall list; they are only read
 *   records, records_len    lent room for records, as for house_run
 *   answers, answers_len    lent room for answers, as for house_run
 *
 * An edge sends what its action says as a telegram of kind 1 at its own stamp, after the timers that are due at that stamp. An
 * action HOUSE_TOGGLE sends the inverse of the last value that the sensor sent or heard, whichever is later; it hears every
 * record, and before any the value is off. A telegram that is dropped was sent all the same.
 *
 * The number and what is written are as for house_run. The answer to an edge is the telegram's, or HOUSE_UNCHANGED where it sends
 * nothing; the cause of a telegram's record is 1.
 */
uint64_t house_wall_run(const uint8_t *wall, size_t wall_len, uint8_t *records, size_t records_len, uint8_t *answers,
                        size_t answers_len);

/* ---- Live: a house that is played input by input
 *
 * A state is HOUSE_STATE_SIZE octets, its image. It holds all that the actuator remembers, so it may be stored, copied, compared
 * (equal states have equal images, and equal images are equal states) and handed to another process. Numbers are most significant octet
 * first; every octet has one meaning, and what is not listed is refused:
 *
 *     0-3 OnDelay, 4-7 OffDelay, 8-11 TimedOnDuration, 12-15 PrewarningDuration: in tenths of a second, whatever the version
 *     16-39 modes and scenes, as laid out above; the scene table is the present one
 *     40 version (1, 2): that of the parameters, by which they are judged (1: times of whole seconds, multiples of 10)
 *     41 night (0, 1)
 *     42 lock (0, 1)
 *     43 force (0 none, 2 off, 3 on)
 *     44 link (0 up, 1 bus down, 2 power down)
 *     45 the output remembered at locking (0 off, 1 on)
 *     46 the output remembered at power failure (0 off, 1 on)
 *     47 phase (enum house_phase)
 *     48-51 clock, a stamp
 *     52-55 the moment at which the phase becomes another by itself; 0 in HOUSE_DARK and HOUSE_LIT, which do not
 *
 * Octets that are no image of a sound state are refused with HOUSE_UNSOUND_STATE wherever a state is handed in: a wrong length, an octet
 * without meaning, parameters out of range for the version, or a state that no actuator can be in.
 *
 * Each call answers the number; house_count is how many records were written, and what stood behind them stays. A refused call writes
 * nothing, but for house_change, which writes nothing from the refused input on. The state that an accepted call leaves is accepted by
 * the next one.
 */

/* Where an image has its phase, its clock and the end of its phase. */
enum house_state_at {
    HOUSE_AT_PHASE = 47,
    HOUSE_AT_CLOCK = 48,
    HOUSE_AT_PHASE_END = 52
};

enum house_phase {
    HOUSE_DARK = 0,
    HOUSE_LIT = 1,
    HOUSE_STARTING = 2,       /* dark, and lit at its end */
    HOUSE_STARTING_TIMED = 3, /* dark, and lit for TimedOnDuration at its end */
    HOUSE_TIMED = 4,
    HOUSE_WARNING = 5,
    HOUSE_ENDING = 6          /* lit, and dark at its end */
};

/* The fresh state of parameters alone (32 octets: version 1; 40: version 2) is written to state. Refusals: 1, 5 with the place of the
 * lowest bad octet, then 8 for a state_len that is not HOUSE_STATE_SIZE. The count is 0. */
uint64_t house_fresh(const uint8_t *parameters, size_t parameters_len, uint8_t *state, size_t state_len);

/* Plays inputs to a state, one after the other: a whole scene change, or a single input.
 *
 *   state, state_len        the image of a state; it is replaced by that of the state afterwards
 *   inputs, inputs_len      up to HOUSE_MOST_GROUPS inputs of eight octets each, as in a cue file; they are only read
 *   records, records_len    lent room for records: at least HOUSE_RECORDS_ROOM(n) octets for n inputs
 *   answers, answers_len    lent room for answers: at least n octets
 *
 * Accepted: the records and one answer for each input are written, in order. No start record is written, and the clock stays at the last
 * stamp.
 *
 * Refusals, in this order: 9; then 12 for more inputs or a length that is no multiple of 8; then 8: place 0, and nothing is written. Then
 * the inputs are played until one is refused, with 6 or else with 7 (a stamp below the clock, or above HOUSE_LAST_STAMP): the place is its
 * index, and what went before it stands, in the state (whose clock is the stamp of the input before it; at place 0 the state is as it was),
 * in the records (house_count of them) and in the answers (as many as the place says). */
uint64_t house_change(uint8_t *state, size_t state_len, const uint8_t *inputs, size_t inputs_len, uint8_t *records,
                      size_t records_len, uint8_t *answers, size_t answers_len);

/* Moves the clock of a state to a stamp: the timers due by then run, and the image is replaced. At most two records are written; the room
 * lent for them is at least HOUSE_MOVE_ROOM octets. Refusals: 9, then 7 (below the clock, or above HOUSE_LAST_STAMP), then 8; place 0. */
uint64_t house_move(uint8_t *state, size_t state_len, uint32_t stamp, uint8_t *records, size_t records_len);

/* As house_run, and the image of the state at the end time is written to state, from which the house may be played on. Refusals: those of
 * house_run; last of all 8 for a state_len that is not HOUSE_STATE_SIZE. */
uint64_t house_run_to(const uint8_t *file, size_t file_len, uint8_t *state, size_t state_len, uint8_t *records,
                      size_t records_len, uint8_t *answers, size_t answers_len);

/* ---- Checked calls
 *
 * Each is the call of its name, but that it first compares what it is lent: where two parts overlap and one of them is written, its code
 * is HOUSE_OVERLAP, place and count are 0, nothing is called and nothing is written. They are made of your own compiler's code, so the
 * archive never answers HOUSE_OVERLAP. */
#define HOUSE_OVERLAP_NUMBER ((uint64_t)HOUSE_OVERLAP << 48)

/* Whether two parts of memory have no octet in common; of length 0, a part has none. */
static inline int house_apart(const uint8_t *a, size_t a_len, const uint8_t *b, size_t b_len) {
    uintptr_t a_at = (uintptr_t)a, b_at = (uintptr_t)b;
    if (a_len == 0 || b_len == 0) return 1;
    return a_at < b_at ? b_at - a_at >= a_len : a_at - b_at >= b_len;
}

static inline int house_three_apart(const uint8_t *a, size_t a_len, const uint8_t *b, size_t b_len, const uint8_t *c, size_t c_len) {
    return house_apart(a, a_len, b, b_len) && house_apart(a, a_len, c, c_len) && house_apart(b, b_len, c, c_len);
}

static inline int house_four_apart(const uint8_t *a, size_t a_len, const uint8_t *b, size_t b_len, const uint8_t *c, size_t c_len,
                                   const uint8_t *d, size_t d_len) {
    return house_three_apart(a, a_len, b, b_len, c, c_len) && house_apart(a, a_len, d, d_len) && house_apart(b, b_len, d, d_len) &&
           house_apart(c, c_len, d, d_len);
}

static inline uint64_t house_run_checked(const uint8_t *file, size_t file_len, uint8_t *records, size_t records_len, uint8_t *answers,
                                         size_t answers_len) {
    if (!house_three_apart(file, file_len, records, records_len, answers, answers_len)) return HOUSE_OVERLAP_NUMBER;
    return house_run(file, file_len, records, records_len, answers, answers_len);
}

static inline uint64_t house_wall_run_checked(const uint8_t *wall, size_t wall_len, uint8_t *records, size_t records_len,
                                              uint8_t *answers, size_t answers_len) {
    if (!house_three_apart(wall, wall_len, records, records_len, answers, answers_len)) return HOUSE_OVERLAP_NUMBER;
    return house_wall_run(wall, wall_len, records, records_len, answers, answers_len);
}

static inline uint64_t house_fresh_checked(const uint8_t *parameters, size_t parameters_len, uint8_t *state, size_t state_len) {
    if (!house_apart(parameters, parameters_len, state, state_len)) return HOUSE_OVERLAP_NUMBER;
    return house_fresh(parameters, parameters_len, state, state_len);
}

static inline uint64_t house_change_checked(uint8_t *state, size_t state_len, const uint8_t *inputs, size_t inputs_len, uint8_t *records,
                                            size_t records_len, uint8_t *answers, size_t answers_len) {
    if (!house_four_apart(state, state_len, inputs, inputs_len, records, records_len, answers, answers_len)) return HOUSE_OVERLAP_NUMBER;
    return house_change(state, state_len, inputs, inputs_len, records, records_len, answers, answers_len);
}

static inline uint64_t house_move_checked(uint8_t *state, size_t state_len, uint32_t stamp, uint8_t *records, size_t records_len) {
    if (!house_apart(state, state_len, records, records_len)) return HOUSE_OVERLAP_NUMBER;
    return house_move(state, state_len, stamp, records, records_len);
}

static inline uint64_t house_run_to_checked(const uint8_t *file, size_t file_len, uint8_t *state, size_t state_len, uint8_t *records,
                                            size_t records_len, uint8_t *answers, size_t answers_len) {
    if (!house_four_apart(file, file_len, state, state_len, records, records_len, answers, answers_len)) return HOUSE_OVERLAP_NUMBER;
    return house_run_to(file, file_len, state, state_len, records, records_len, answers, answers_len);
}

#ifdef __cplusplus
}
#endif

#endif
