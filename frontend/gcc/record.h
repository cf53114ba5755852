/* What the two halves of the recorder share: record_log.c writes the log, record.c what goes there. */
#ifndef BOHRALI_RECORD_H
#define BOHRALI_RECORD_H

#include <stdatomic.h>
#include <stdbool.h>
#include <stdint.h>

#pragma GCC visibility push(hidden)

enum kind { HOLE, AT, CLAIM, REGION, TEAM, OVER, NOTHING };

struct entry {
    uint64_t function; /* its mark, as the flow has it */
    uint32_t instance; /* of a region, from 0 */
    uint32_t node;     /* AT: a node; CLAIM: what was taken, or 0; REGION: its directive; TEAM: threads; OVER: entries that were left out */
    uint16_t thread;
    uint8_t depth; /* how many regions deeper than the instance */
    _Atomic uint8_t kind;
    uint32_t zero;
};

/* What is to be recorded, as the environment says. */
extern struct wanted {
    unsigned long first; /* instances of each region */
    unsigned long shake; /* what delays are made of */
    bool shakes;
    const char *only; /* names of regions, or none */
} bohrali_wanted;

extern atomic_bool bohrali_is_recording;

/* The child of a fork has one thread and no team. */
void bohrali_leave_team(void);

/* Draws the next place and writes an entry there; none where the log is full or closed. */
struct entry *bohrali_put(enum kind kind, uint32_t instance, uint16_t thread, uint8_t depth,
                  uint64_t function, uint32_t node);

#pragma GCC visibility pop

#endif
