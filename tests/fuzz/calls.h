/* One call of include/house.h, as a fuzz input asks for it, played and checked. */
#ifndef CALLS_H
#define CALLS_H

#include "../../include/house.h"

enum which { RUN, WALL_RUN, FRESH, CHANGE, MOVE, RUN_TO, CALLS };

/* The longest of each that is lent. */
enum { LIST_ROOM = 20480, STATE_ROOM = 256, RECORDS_ROOM = 53248, ANSWERS_ROOM = 4096 };

struct call {
    enum which which;
    const uint8_t *list; /* a cue file, a wall list, parameters or inputs */
    size_t list_len, state_len, records_len, answers_len;
    uint32_t stamp;
    uint8_t state[STATE_ROOM]; /* as it is handed in; where an image was written, it replaces it */
};

/* Where the inputs of a file start, by its version; 0 where it has neither. */
size_t inputs_at(const uint8_t *file, size_t len);

/* So many octets, more or less by a signed octet; never less than none. */
size_t about(size_t len, uint8_t deviation);

/* Plays the call twice on the proved code, in other memory and over other octets, and once on the second model. Ends the program with
 * words where the two differ, or where include/house.h promises something else. */
uint64_t play(struct call *call);

#endif
