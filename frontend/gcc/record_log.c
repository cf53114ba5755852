/* The log: a mapped file. An entry's place in it is drawn from one counter, and its kind is written
 * last: where the program is killed in between there is a hole, and what stands before the hole is a
 * prefix of the run. Memory is that of the file, which is bounded; its space is reserved before it is
 * written, so that a full disk ends the log and not the program. */
#define _GNU_SOURCE
#include "record.h"

#include <errno.h>
#include <fcntl.h>
#include <pthread.h>
#include <stdarg.h>
#include <stdio.h>
#include <stdlib.h>
#include <string.h>
#include <sys/file.h>
#include <sys/mman.h>
#include <unistd.h>

struct header {
    char words[16];
    uint64_t entries; /* once the log is closed */
    uint64_t is_closed;
    uint64_t left_out; /* for want of room */
    uint64_t zero[3];
};

_Static_assert(sizeof(struct entry) == 24 && sizeof(struct header) == 64, "the log's form");

enum { CHUNK = 1 << 15 };
#define DEFAULT_MOST (1u << 22)
#define DEFAULT_FIRST 16

struct wanted bohrali_wanted = {.first = DEFAULT_FIRST};
atomic_bool bohrali_is_recording;

static struct {
    int file;
    struct header *header;
    struct entry *entries;
    _Atomic uint64_t used;
    _Atomic uint64_t reserved, most; /* entries with room in the file, and the most of them */
    pthread_mutex_t lock;
} record = {.file = -1, .lock = PTHREAD_MUTEX_INITIALIZER};

static void say(const char *file, const char *message, ...)
{
    va_list values;
    va_start(values, message);
    fprintf(stderr, "bohrali: %s: ", file);
    vfprintf(stderr, message, values);
    fputs("; nothing is recorded\n", stderr);
    va_end(values);
}

/* Whether there is room for an entry; where the disk is full the log ends. */
static bool reserve(uint64_t place)
{
    pthread_mutex_lock(&record.lock);
    while (place >= record.reserved && place < record.most) {
        uint64_t next = record.reserved + CHUNK < record.most ? record.reserved + CHUNK : record.most;
        off_t end = (off_t)(sizeof(struct header) + next * sizeof(struct entry));
        if (posix_fallocate(record.file, 0, end) == 0) {
            record.reserved = next;
        } else {
            record.most = record.reserved;
        }
    }
    bool is_there = place < record.reserved;
    pthread_mutex_unlock(&record.lock);
    return is_there;
}

struct entry *bohrali_put(enum kind kind, uint32_t instance, uint16_t thread, uint8_t depth,
                  uint64_t function, uint32_t node)
{
    if (!atomic_load_explicit(&bohrali_is_recording, memory_order_relaxed)) {
        return NULL;
    }
    uint64_t place = atomic_fetch_add(&record.used, 1);
    if (place >= record.reserved && !reserve(place)) {
        return NULL;
    }
    struct entry *entry = &record.entries[place];
    entry->function = function;
    entry->instance = instance;
    entry->node = node;
    entry->thread = thread;
    entry->depth = depth;
    atomic_store_explicit(&entry->kind, kind, memory_order_release);
    return entry;
}

/* No place is drawn any more; the file gets the length of what was written. */
__attribute__((destructor)) static void close_log(void)
{
    if (!atomic_exchange(&bohrali_is_recording, false)) {
        return;
    }
    uint64_t drawn = atomic_fetch_add(&record.used, UINT64_C(1) << 40);
    pthread_mutex_lock(&record.lock);
    uint64_t entries = drawn < record.reserved ? drawn : record.reserved;
    record.most = record.reserved;
    record.header->entries = entries;
    record.header->left_out = drawn - entries;
    record.header->is_closed = 1;
    /* Nobody writes behind the last place drawn. Where this fails zeros are left there. */
    if (ftruncate(record.file, (off_t)(sizeof(struct header) + entries * sizeof(struct entry)))) {
        errno = 0;
    }
    pthread_mutex_unlock(&record.lock);
}

/* The log stays the parent's. */
static void leave_to_parent(void)
{
    bohrali_is_recording = false;
    bohrali_leave_team();
}

static bool number(const char *name, unsigned long most, unsigned long *value)
{
    const char *text = getenv(name);
    if (!text) {
        return true;
    }
    char *end;
    errno = 0;
    unsigned long read = strtoul(text, &end, 10);
    if (!*text || *end || errno || read > most || *text == '-') {
        say(name, "'%s' found, a number up to %lu expected", text, most);
        return false;
    }
    *value = read;
    return true;
}

/* BOHRALI_LOG with the number of the process for %p. */
static const char *log_path(char *path, size_t most)
{
    const char *text = getenv("BOHRALI_LOG");
    const char *mark = text ? strstr(text, "%p") : NULL;
    if (!mark) {
        return text;
    }
    snprintf(path, most, "%.*s%ld%s", (int)(mark - text), text, (long)getpid(), mark + 2);
    return path;
}

/* Opens a log that no other process writes. */
static bool open_log(const char *path, uint64_t most)
{
    size_t bytes = sizeof(struct header) + most * sizeof(struct entry);
    record.file = open(path, O_RDWR | O_CREAT | O_CLOEXEC, 0666);
    if (record.file < 0) {
        say(path, "%s", strerror(errno));
        return false;
    }
    if (flock(record.file, LOCK_EX | LOCK_NB)) {
        say(path, "another process writes it");
        return false;
    }
    if (ftruncate(record.file, 0) || posix_fallocate(record.file, 0, sizeof(struct header))) {
        say(path, "cannot be written");
        return false;
    }
    void *mapped = mmap(NULL, bytes, PROT_READ | PROT_WRITE, MAP_SHARED, record.file, 0);
    if (mapped == MAP_FAILED) {
        say(path, "%s", strerror(errno));
        return false;
    }
    record.header = mapped;
    record.entries = (struct entry *)(record.header + 1);
    record.most = most;
    memcpy(record.header->words, "bohrali-log 1\n", 15);
    return true;
}

__attribute__((constructor)) static void begin(void)
{
    char own[4096];
    const char *path = log_path(own, sizeof own);
    if (!path || !*path) {
        return;
    }
    unsigned long most = DEFAULT_MOST;
    bohrali_wanted.only = getenv("BOHRALI_ONLY");
    bohrali_wanted.shakes = getenv("BOHRALI_SHAKE") != NULL;
    if (number("BOHRALI_MOST", 1ul << 32, &most) && number("BOHRALI_FIRST", UINT32_MAX, &bohrali_wanted.first)
        && number("BOHRALI_SHAKE", UINT32_MAX, &bohrali_wanted.shake) && open_log(path, most)
        && pthread_atfork(NULL, NULL, leave_to_parent) == 0) {
        bohrali_is_recording = true;
    }
}
