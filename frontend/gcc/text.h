/* The flow of a unit as text; docs/FRONTEND.md has its rows. */
#ifndef BOHRALI_TEXT_H
#define BOHRALI_TEXT_H

#include <cstdint>
#include <cstdio>
#include <map>
#include <string>

#include "flow.h"

namespace flow {

/* The number of each directive in the text. Tails have none: what lies in one lies where its
 * directive lies. */
std::vector<int> numbers(const graph &graph);

class text {
public:
    /* Begins the text of a unit; false where the file cannot be written. */
    bool begin(const std::string &path, const char *unit);
    /* Writes the rows of a function; returns the mark by which a recorded run names it: that of the
     * unit's row and of these. */
    uint64_t write(function *fn, const graph &graph);
    void alias(tree name, tree target);
    /* Says that all that decides is written; returns the hash of it, or nothing where it has none. */
    std::string seal();
    /* Ends it with the mark that it is whole; false where not all of it could be written. */
    bool end();

private:
    FILE *file = NULL, *out = NULL; /* what is written goes to the bytes first */
    char *bytes = NULL;
    size_t length = 0;
    std::map<std::string, int> files; /* their numbers */
    int functions = 0;
    uint64_t own = 0; /* the mark of the unit's row */

    std::string place(const std::string &file, int line);
    std::string directive_rows(const graph &graph, const std::vector<int> &named,
                               const expanded_location &fallback);
    std::string node_rows(const graph &graph, const std::vector<int> &named);
};

}

#endif
