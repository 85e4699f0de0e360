/* Memory to lend: rooms between two pages that may not be touched, so that a read or a write beyond either end is noticed. */
#ifndef ROOMS_H
#define ROOMS_H

#include <stddef.h>
#include <stdint.h>

struct room {
    uint8_t *first;
    size_t size;
};

/* What is lent of a room lies hard against one of its ends; at the other side of it are guard octets. */
enum side { AT_THE_END, AT_THE_START };

struct lent {
    uint8_t *first;
    size_t len;
    enum side side;
};

struct room new_room(size_t size);
struct lent lend(const struct room *room, size_t len, enum side side, uint8_t filler);

/* NULL is lent for length 0 at one side, an address at the other. */
uint8_t *address(const struct lent *lent);

int guards_stand(const struct lent *lent);

/* Whether all octets from one on are the filler. */
int untouched(const struct lent *lent, size_t from, uint8_t filler);

#endif
