/* The decisions of `bohrali locks DIR --decide FILE`: which locks of a program are left out. docs/DROPPING.md has
 * the rows. The plugin reads them to leave out locks, the linker's helper to hold objects to them. */
#ifndef BOHRALI_DECISIONS_H
#define BOHRALI_DECISIONS_H

#include <cstdint>
#include <set>
#include <string>
#include <vector>

namespace flow {

/* FNV-1a of 64 bits: of no bytes, with some bytes more, and as 16 hexadecimal digits. */
const uint64_t no_bytes = 0xcbf29ce484222325;
uint64_t hash_on(uint64_t from, const char *bytes, size_t length);
std::string hash(const char *bytes, size_t length);

/* The bytes of a file; false where it cannot be read, and errno says why. */
bool contents(const char *path, std::string &bytes);

/* A critical that loses its lock. */
struct decision {
    std::string function, place; /* FILE:LINE */
    std::string name;            /* empty if it has none */
    std::string number;          /* of its directive in the function's flow */
    std::string flow;            /* the hash of its unit's flow */
    std::string rules;
};

struct decisions {
    std::string id; /* the hash of all rows */
    bool full = true; /* a full fence stays in place of a lock's start and of its end */
    std::set<std::string> units; /* the hashes of all flows of the program */
    std::vector<decision> dropped;

    /* Reads a file; returns why it cannot be trusted, or nothing. */
    std::string read(const char *path);

private:
    std::string row(const std::vector<std::string> &words);
    std::string drop(const std::vector<std::string> &words);
};

/* What an object holds that is as decided: a section with a row for its unit. */
#define BOHRALI_SECTION ".bohrali"
/* An object without some of its locks names this symbol with the decisions' id behind it, which only a link that
 * holds all objects to the decisions defines. */
#define BOHRALI_SYMBOL "bohrali_link_with_drop_"

}

#endif
