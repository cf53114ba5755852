/* The recorder, which a program built with `bohrali-gcc --record` is linked with. With BOHRALI_LOG set
 * it writes which nodes the threads of parallel regions come to, in the order of one counter, into
 * that file (record_log.c); docs/FRONTEND.md has its form and what else is set.
 *
 * Teams are told apart by standing before GOMP_parallel and its kin: threads run their body through
 * `enter`, which keeps a chain of frames. Thread 0 of an inner team is still a thread of the outer
 * one, and its entries go to both. */
#define _GNU_SOURCE
#include "record.h"

#include <dlfcn.h>
#include <pthread.h>
#include <sched.h>
#include <stdio.h>
#include <stdlib.h>
#include <string.h>
#include <unistd.h>

enum { MOST_OF_INSTANCE = 1 << 16, REGIONS = 1 << 12, MOST_DEPTH = 16 };

struct instance {
    uint32_t number;
    atomic_uint used;
};

struct frame {
    struct instance *instance; /* none where it is not recorded */
    struct frame *outer;
    uint16_t thread;
    unsigned aside; /* inside so many tasks, which are no flow of the region's threads */
};

/* What compiled code looks at: none where this thread has nothing to record. */
_Thread_local struct frame *bohrali_team;

/* The region that this thread is about to begin. */
static _Thread_local struct {
    const char *name;
    uint64_t function;
    uint32_t directive;
} ahead;

static pthread_mutex_t region_lock = PTHREAD_MUTEX_INITIALIZER;

static struct {
    bool is_used;
    uint64_t function;
    uint32_t directive, met;
} regions[REGIONS];

static atomic_uint instances;

/* Puts a thread's entry, as long as its instance has not too many of them. */
static struct entry *put_in(struct frame *frame, enum kind kind, unsigned depth, uint64_t function,
                            uint32_t node)
{
    if (!frame->instance || atomic_fetch_add(&frame->instance->used, 1) >= MOST_OF_INSTANCE) {
        return NULL;
    }
    return bohrali_put(kind, frame->instance->number, frame->thread, (uint8_t)depth, function, node);
}

void bohrali_leave_team(void)
{
    bohrali_team = NULL;
}

/* ---- Instances of regions -------------------------------------------------------------------- */

/* Whether BOHRALI_ONLY, a list of NAME and NAME@NUMBER with commas between them, asks for it. */
static bool is_named(const char *name, unsigned long number)
{
    for (const char *item = bohrali_wanted.only; *item;) {
        size_t length = strcspn(item, ","), own = strcspn(item, ",@");
        if (own == strlen(name) && strncmp(item, name, own) == 0) {
            bool is_it = own == length ? number <= bohrali_wanted.first
                                       : strtoul(item + own + 1, NULL, 10) == number;
            if (is_it) {
                return true;
            }
        }
        item += length + (item[length] == ',');
    }
    return false;
}

/* How often the region ahead was met, this time with it; 0 where there are too many regions. */
static unsigned long times_met(void)
{
    unsigned long met = 0;
    pthread_mutex_lock(&region_lock);
    uint64_t start = ahead.function ^ ahead.directive;
    for (unsigned k = 0; k < REGIONS && !met; k++) {
        unsigned i = (unsigned)((start + k) % REGIONS);
        if (!regions[i].is_used) {
            regions[i].is_used = true;
            regions[i].function = ahead.function;
            regions[i].directive = ahead.directive;
        }
        if (regions[i].function == ahead.function && regions[i].directive == ahead.directive) {
            met = ++regions[i].met;
        }
    }
    pthread_mutex_unlock(&region_lock);
    return met;
}

/* Whether the region ahead is recorded this time. */
static bool is_wanted(void)
{
    if (!ahead.name || !atomic_load_explicit(&bohrali_is_recording, memory_order_relaxed)) {
        return false;
    }
    unsigned long met = times_met();
    return met && (bohrali_wanted.only ? is_named(ahead.name, met) : met <= bohrali_wanted.first);
}

/* A region as its encountering thread begins it, and as its threads run it. */
struct start {
    void *reductions; /* which GOMP_parallel_reductions looks for first in its data */
    void (*body)(void *);
    void *data;
    struct instance *recorded;
    struct instance own;
    bool is_framed;
};

static void start(struct start *start)
{
    if (is_wanted()) {
        start->own.number = atomic_fetch_add(&instances, 1);
        start->recorded = &start->own;
        bohrali_put(REGION, start->own.number, 0, 0, ahead.function, ahead.directive);
    }
    ahead.name = NULL;
    start->is_framed = start->recorded || bohrali_team;
}

static void finish(struct start *start)
{
    if (start->recorded) {
        unsigned used = start->own.used;
        bohrali_put(OVER, start->own.number, 0, 0, 0, used > MOST_OF_INSTANCE ? used - MOST_OF_INSTANCE : 0);
    }
}

extern int omp_get_thread_num(void);
extern int omp_get_num_threads(void);

/* What each thread of a team runs. */
static void enter(void *data)
{
    struct start *start = data;
    struct frame frame = {start->recorded, bohrali_team, (uint16_t)omp_get_thread_num(), 0};
    if (frame.instance && frame.thread == 0) {
        bohrali_put(TEAM, frame.instance->number, 0, 0, 0, (uint32_t)omp_get_num_threads());
    }
    bohrali_team = frame.instance || frame.outer ? &frame : NULL;
    start->body(start->data);
    bohrali_team = frame.outer;
}

/* ---- What compiled code calls ---------------------------------------------------------------- */

/* A delay now and then, so that other orders are seen. */
static void shake(void)
{
    static _Thread_local uint32_t state, calls;
    if (!bohrali_wanted.shakes || ++calls > 200000) {
        return;
    }
    if (!state) {
        state = (uint32_t)((uintptr_t)&state >> 6) * 2654435761u + (uint32_t)bohrali_wanted.shake * 40503u;
        state |= 1;
    }
    state ^= state << 13;
    state ^= state >> 17;
    state ^= state << 5;
    if (calls < 3000 && state % 8 == 0) {
        usleep(state >> 24);
    } else if (state % 32 == 1) {
        sched_yield();
    }
}

void bohrali_region(const char *name, uint64_t function, unsigned directive)
{
    ahead.name = name;
    ahead.function = function;
    ahead.directive = directive;
}

void bohrali_at(uint64_t function, unsigned node)
{
    unsigned depth = 0;
    for (struct frame *f = bohrali_team; f && !f->aside && depth < MOST_DEPTH; f = f->outer) {
        put_in(f, AT, depth++, function, node);
    }
    shake();
}

/* A thread begins or ends a task. */
void bohrali_aside(int begins)
{
    if (begins) {
        bohrali_team->aside++;
    } else if (bohrali_team->aside) {
        bohrali_team->aside--;
    }
}

/* ---- What stands before the runtime ---------------------------------------------------------- */

static void *next_of(const char *name)
{
    void *found = dlsym(RTLD_NEXT, name);
    if (!found) {
        fprintf(stderr, "bohrali: no OpenMP runtime has %s\n", name);
        abort();
    }
    return found;
}

/* `next`, the runtime's own. */
#define FIND_NEXT(type, name, declared)                                                            \
    static type(*_Atomic next) declared;                                                           \
    if (!next) {                                                                                   \
        next = (type(*) declared)next_of(#name);                                                   \
    }

#define BODY void (*body)(void *), void *data
#define REGION_BY(type, name, declared, passed)                                                    \
    type name declared                                                                             \
    {                                                                                              \
        FIND_NEXT(type, name, declared);                                                           \
        struct start own = {.reductions = REDUCTIONS_##type, .body = body, .data = data};          \
        start(&own);                                                                               \
        if (own.is_framed) {                                                                       \
            body = enter;                                                                          \
            data = &own;                                                                           \
        }                                                                                          \
        RETURN_##type next passed;                                                                 \
        finish(&own);                                                                              \
        END_##type                                                                                 \
    }
/* The one that returns a number is the one with reductions. */
#define REDUCTIONS_void NULL
#define REDUCTIONS_unsigned (*(void **)data)
#define RETURN_void
#define END_void
#define RETURN_unsigned unsigned result =
#define END_unsigned return result;

REGION_BY(void, GOMP_parallel, (BODY, unsigned threads, unsigned flags), (body, data, threads, flags))
REGION_BY(unsigned, GOMP_parallel_reductions, (BODY, unsigned threads, unsigned flags),
          (body, data, threads, flags))
REGION_BY(void, GOMP_parallel_sections, (BODY, unsigned threads, unsigned count, unsigned flags),
          (body, data, threads, count, flags))

#define LOOP_BY(name)                                                                              \
    REGION_BY(void, name,                                                                          \
              (BODY, unsigned threads, long from, long to, long by, long chunk, unsigned flags),   \
              (body, data, threads, from, to, by, chunk, flags))
LOOP_BY(GOMP_parallel_loop_static)
LOOP_BY(GOMP_parallel_loop_dynamic)
LOOP_BY(GOMP_parallel_loop_guided)
LOOP_BY(GOMP_parallel_loop_nonmonotonic_dynamic)
LOOP_BY(GOMP_parallel_loop_nonmonotonic_guided)

#define LOOP_AT_RUNTIME_BY(name)                                                                   \
    REGION_BY(void, name, (BODY, unsigned threads, long from, long to, long by, unsigned flags),   \
              (body, data, threads, from, to, by, flags))
LOOP_AT_RUNTIME_BY(GOMP_parallel_loop_runtime)
LOOP_AT_RUNTIME_BY(GOMP_parallel_loop_nonmonotonic_runtime)
LOOP_AT_RUNTIME_BY(GOMP_parallel_loop_maybe_nonmonotonic_runtime)

/* Who takes a single or a section draws its place before it asks, and who does not draws one after
 * it: so the one that takes it comes before all that find it taken, and nobody waits for a lock. */
static unsigned places_before(struct entry **places)
{
    unsigned depth = 0;
    for (struct frame *f = bohrali_team; f && !f->aside && depth < MOST_DEPTH; f = f->outer) {
        places[depth] = put_in(f, NOTHING, depth, 0, 0);
        depth++;
    }
    return depth;
}

static void claimed(struct entry **places, unsigned depths, unsigned taken)
{
    unsigned depth = 0;
    for (struct frame *f = bohrali_team; depth < depths; f = f->outer, depth++) {
        struct entry *place = taken ? places[depth] : put_in(f, NOTHING, depth, 0, 0);
        if (place) {
            place->node = taken;
            atomic_store_explicit(&place->kind, CLAIM, memory_order_release);
        }
    }
    shake();
}

#define CLAIM_BY(type, name, declared, passed)                                                     \
    type name declared                                                                             \
    {                                                                                              \
        FIND_NEXT(type, name, declared);                                                           \
        if (!bohrali_team) {                                                                       \
            return next passed;                                                                    \
        }                                                                                          \
        struct entry *places[MOST_DEPTH];                                                          \
        unsigned depths = places_before(places);                                                   \
        type taken = next passed;                                                                  \
        claimed(places, depths, taken);                                                            \
        return taken;                                                                              \
    }

CLAIM_BY(bool, GOMP_single_start, (void), ())
CLAIM_BY(unsigned, GOMP_sections_start, (unsigned count), (count))
CLAIM_BY(unsigned, GOMP_sections_next, (void), ())
CLAIM_BY(unsigned, GOMP_sections2_start, (unsigned count, uintptr_t *reductions, void **memory),
         (count, reductions, memory))
