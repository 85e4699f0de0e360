#define _DEFAULT_SOURCE
#include "rooms.h"

#include <stdlib.h>
#include <string.h>
#include <sys/mman.h>
#include <unistd.h>

enum { GUARDS = 64, GUARD = 0x3C };

struct room new_room(size_t size) {
    size_t page = (size_t)sysconf(_SC_PAGESIZE);
    size_t inner = (size + GUARDS + page - 1) / page * page;
    uint8_t *all = mmap(NULL, inner + 2 * page, PROT_NONE, MAP_PRIVATE | MAP_ANONYMOUS, -1, 0);
    if (all == MAP_FAILED || mprotect(all + page, inner, PROT_READ | PROT_WRITE) != 0) abort();
    return (struct room){all + page, inner};
}

/* The guard octets stand before what is lent at the end, and after what is lent at the start. */
static uint8_t *guards(const struct lent *lent) {
    return lent->side == AT_THE_END ? lent->first - GUARDS : lent->first + lent->len;
}

struct lent lend(const struct room *room, size_t len, enum side side, uint8_t filler) {
    struct lent lent = {side == AT_THE_END ? room->first + room->size - len : room->first, len, side};
    if (len + GUARDS > room->size) abort();
    memset(lent.first, filler, len);
    memset(guards(&lent), GUARD, GUARDS);
    return lent;
}

uint8_t *address(const struct lent *lent) {
    return lent->len == 0 && lent->side == AT_THE_END ? NULL : lent->first;
}

static int all_are(const uint8_t *octets, size_t len, uint8_t octet) {
    for (size_t i = 0; i < len; i++) {
        if (octets[i] != octet) return 0;
    }
    return 1;
}

int guards_stand(const struct lent *lent) {
    return all_are(guards(lent), GUARDS, GUARD);
}

int untouched(const struct lent *lent, size_t from, uint8_t filler) {
    return all_are(lent->first + from, lent->len - from, filler);
}
