/* A fuzz input: a letter, and what it asks for.
 *
 *   'c'  three octets: by how much the room for records, the room for answers and the state differ from what is asked for, signed;
 *        then a cue file, for house_run and house_run_to
 *   'w'  the same three, then a wall list, for house_wall_run
 *   'l'  steps of a house that is played live. A step has a head of five octets: what it does (enum step_kind, the rest of a division
 *        by STEPS), two signed deviations, of the room for records and of that for answers or of the state, and the length of what
 *        follows it, of which a step takes what there is
 */
#ifndef SCRIPT_H
#define SCRIPT_H

#include <stddef.h>
#include <stdint.h>

enum { LETTER = 1, FILE_HEAD = 3, STEP_HEAD = 5, LONGEST_STEP = 2400 };

enum step_kind {
    FRESH_STATE,    /* house_fresh of these parameters */
    WILD_STATE,     /* the state is these octets */
    CHANGE_AS_IS,   /* house_change with these inputs */
    CHANGE_IN_TIME, /* the same, and their first four octets say how they are stamped from the state's clock on */
    MOVE_AS_IS,     /* house_move to this stamp */
    MOVE_IN_TIME,   /* house_move to a stamp that these four octets say, from the state's clock on */
    STEPS
};

struct step {
    enum step_kind kind;
    uint8_t records_deviation, other_deviation;
    const uint8_t *octets;
    size_t len;
};

/* The step at the start of these octets; gives how many octets it has with its head, 0 where there is none. */
size_t read_step(const uint8_t *octets, size_t left, struct step *step);

#endif
