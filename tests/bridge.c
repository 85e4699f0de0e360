/* The calls for C behind a pipe, for tests that reach them without linking them: reads calls on standard input, answers on standard
 * output. It uses no header at all, so that the kit's bare compiler builds it.
 *
 * A call: a letter (named below); the lengths of the list (a cue file, a wall list, parameters or inputs), of the state, of the
 * records and of the answers, and a stamp, four octets each, least significant first; the octet that fills the records, the one
 * that fills the answers, and one that is 1 where NULL stands for what has length 0; then the list and the state. Its answer: the
 * number (eight octets, least significant first), the state, the records, the answers, and one octet that is 1 where the list was
 * left alone. What a call does not take is left as it is. Any other letter ends it. */
typedef unsigned char uint8_t;
typedef unsigned int uint32_t;
typedef unsigned long uint64_t, size_t;

/* as include/house.h declares them */
typedef uint64_t run(const uint8_t *list, size_t list_len, uint8_t *records, size_t records_len, uint8_t *answers, size_t answers_len);
extern run house_run, house_wall_run;
extern uint64_t house_fresh(const uint8_t *parameters, size_t parameters_len, uint8_t *state, size_t state_len);
extern uint64_t house_change(uint8_t *state, size_t state_len, const uint8_t *inputs, size_t inputs_len, uint8_t *records,
                             size_t records_len, uint8_t *answers, size_t answers_len);
extern uint64_t house_move(uint8_t *state, size_t state_len, uint32_t stamp, uint8_t *records, size_t records_len);
extern uint64_t house_run_to(const uint8_t *file, size_t file_len, uint8_t *state, size_t state_len, uint8_t *records,
                             size_t records_len, uint8_t *answers, size_t answers_len);

extern long read(int, void *, unsigned long);
extern long write(int, const void *, unsigned long);

enum { LIST_ROOM = 65536, STATE_ROOM = 256, RECORDS_ROOM = 131072, ANSWERS_ROOM = 8192, HEAD = 24 };

static uint8_t list_room[LIST_ROOM], kept[LIST_ROOM], state_room[STATE_ROOM], records_room[RECORDS_ROOM], answers_room[ANSWERS_ROOM];

/* What is lent to a call. */
struct lent {
    uint8_t *list, *state, *records, *answers;
    size_t list_len, state_len, records_len, answers_len;
    uint32_t stamp;
};

/* So many octets from standard input (0) or to standard output (1). */
static int pass(int stream, uint8_t *at, size_t left) {
    while (left > 0) {
        long passed = stream == 0 ? read(0, at, left) : write(1, at, left);
        if (passed <= 0) return 0;
        at += passed;
        left -= (size_t)passed;
    }
    return 1;
}

static uint32_t little(const uint8_t *at) {
    return (uint32_t)at[0] | (uint32_t)at[1] << 8 | (uint32_t)at[2] << 16 | (uint32_t)at[3] << 24;
}

static void fill(uint8_t *room, size_t len, uint8_t octet) {
    for (size_t i = 0; i < len; i++) room[i] = octet;
}

/* Where a call finds so many octets of a room. */
static uint8_t *place(uint8_t *room, size_t len, int null) {
    return null && len == 0 ? 0 : room;
}

/* What a head says, and all rooms as the call is to find them; 0 where the head cannot be. */
static int lend(const uint8_t *head, struct lent *l) {
    int null = head[23];
    l->list_len = little(head + 1);
    l->state_len = little(head + 5);
    l->records_len = little(head + 9);
    l->answers_len = little(head + 13);
    l->stamp = little(head + 17);
    if (l->list_len > LIST_ROOM || l->state_len > STATE_ROOM) return 0;
    if (l->records_len > RECORDS_ROOM || l->answers_len > ANSWERS_ROOM) return 0;
    l->list = place(list_room, l->list_len, null);
    l->state = place(state_room, l->state_len, null);
    l->records = place(records_room, l->records_len, null);
    l->answers = place(answers_room, l->answers_len, null);
    fill(records_room, l->records_len, head[21]);
    fill(answers_room, l->answers_len, head[22]);
    if (!pass(0, list_room, l->list_len) || !pass(0, state_room, l->state_len)) return 0;
    for (size_t i = 0; i < l->list_len; i++) kept[i] = list_room[i];
    return 1;
}

/* The call of a letter; 0 where there is none. */
static int call(uint8_t letter, const struct lent *l, uint64_t *number) {
    switch (letter) {
    case 'c': *number = house_run(l->list, l->list_len, l->records, l->records_len, l->answers, l->answers_len); return 1;
    case 'w': *number = house_wall_run(l->list, l->list_len, l->records, l->records_len, l->answers, l->answers_len); return 1;
    case 'f': *number = house_fresh(l->list, l->list_len, l->state, l->state_len); return 1;
    case 'h':
        *number = house_change(l->state, l->state_len, l->list, l->list_len, l->records, l->records_len, l->answers, l->answers_len);
        return 1;
    case 'm': *number = house_move(l->state, l->state_len, l->stamp, l->records, l->records_len); return 1;
    case 't':
        *number = house_run_to(l->list, l->list_len, l->state, l->state_len, l->records, l->records_len, l->answers, l->answers_len);
        return 1;
    default: return 0;
    }
}

static int answer(const struct lent *l, uint64_t number) {
    uint8_t octets[8], unchanged = 1;
    for (int i = 0; i < 8; i++) octets[i] = (uint8_t)(number >> 8 * i);
    for (size_t i = 0; i < l->list_len; i++) {
        if (list_room[i] != kept[i]) unchanged = 0;
    }
    return pass(1, octets, 8) && pass(1, state_room, l->state_len) && pass(1, records_room, l->records_len) &&
           pass(1, answers_room, l->answers_len) && pass(1, &unchanged, 1);
}

int main(void) {
    uint8_t head[HEAD];
    struct lent lent;
    uint64_t number;
    while (pass(0, head, HEAD)) {
        if (!lend(head, &lent) || !call(head[0], &lent, &number) || !answer(&lent, number)) return 1;
    }
    return 0;
}
