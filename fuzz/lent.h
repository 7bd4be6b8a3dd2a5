/* Memory that is lent to a call. On either side of it, the next byte traps or is known. */
#ifndef LENT_H
#define LENT_H

#include <stdbool.h>
#include <stddef.h>
#include <stdint.h>

/* One buffer of a call: data, numbers, kinds or elevations. */
struct lent {
    uint8_t *pages;  /* room, with a page before and a page after that no access reaches */
    size_t room;
    uint8_t *heap;   /* where the address sanitizer watches: exactly as long as was asked */
    uint8_t *bytes;  /* what is lent */
    size_t len;
    uint32_t canary;
};

/* Stops the run: a promise does not hold. */
#define HOLD(promise) ((promise) ? (void)0 : broken(#promise, __FILE__, __LINE__))
void broken(const char *promise, const char *file, int line);

/* Pages for a buffer of at most room bytes. */
void lent_open(struct lent *lent, size_t room);

/* Lends len bytes, all of them canaries: from the heap, or from the pages, flush with their start or
   with their end. */
uint8_t *lend(struct lent *lent, size_t len, bool heap, bool at_start, uint32_t canary);

/* Holds that the bytes from a place on, and those around what is lent, are the canaries still. */
void lent_kept(const struct lent *lent, size_t from);

/* Gives the heap's part back. */
void lent_back(struct lent *lent);

/* Whether the bytes may be written. For data, which a call only reads. */
void lent_writable(struct lent *lent, bool writable);

#endif
