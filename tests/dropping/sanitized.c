/* What ThreadSanitizer has to know of libgomp, which is compiled without it: who waits for whom in teams, barriers, ordereds and criticals.
 * Its calls stand in front of libgomp's. One place stands for all barriers, one for all ordereds: of races between two teams it is blind. */
#define _GNU_SOURCE
#include <dlfcn.h>
#include <stdbool.h>
#include <stdlib.h>

void __tsan_acquire(void *place);
void __tsan_release(void *place);

static char teams, barriers, ordereds, unnamed;

#define REAL(name) ((__typeof__(&name))dlsym(RTLD_NEXT, #name))

typedef struct { void (*body)(void *); void *data; } work_t;

static void worker(void *data)
{
    __tsan_acquire(&teams);
    work_t work = *(work_t *)data;
    work.body(work.data);
    __tsan_release(&teams);
}

void GOMP_parallel(void (*body)(void *), void *data, unsigned threads, unsigned flags)
{
    work_t work = { body, data };
    __tsan_release(&teams);
    REAL(GOMP_parallel)(worker, &work, threads, flags);
    __tsan_acquire(&teams);
}

/* A barrier, in itself or behind a construct. */
#define WAITS(name)                \
    void name(void)                \
    {                              \
        __tsan_release(&barriers); \
        REAL(name)();              \
        __tsan_acquire(&barriers); \
    }

/* One that says whether it was cancelled. */
#define WAITS_OR_NOT(name)               \
    bool name(void)                      \
    {                                    \
        __tsan_release(&barriers);       \
        bool is_cancelled = REAL(name)(); \
        __tsan_acquire(&barriers);       \
        return is_cancelled;             \
    }

WAITS(GOMP_barrier)
WAITS(GOMP_loop_end)
WAITS(GOMP_sections_end)
WAITS_OR_NOT(GOMP_barrier_cancel)
WAITS_OR_NOT(GOMP_loop_end_cancel)
WAITS_OR_NOT(GOMP_sections_end_cancel)

/* From one to the next. */
#define FOLLOWS(start, end, parameter, argument, place) \
    void start(parameter)                               \
    {                                                   \
        REAL(start)(argument);                          \
        __tsan_acquire(place);                          \
    }                                                   \
    void end(parameter)                                 \
    {                                                   \
        __tsan_release(place);                          \
        REAL(end)(argument);                            \
    }

FOLLOWS(GOMP_ordered_start, GOMP_ordered_end, void, , &ordereds)
FOLLOWS(GOMP_critical_start, GOMP_critical_end, void, , &unnamed)
FOLLOWS(GOMP_critical_name_start, GOMP_critical_name_end, void **lock, lock, lock)
