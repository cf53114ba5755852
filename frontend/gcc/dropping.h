/* The locks that decisions about the whole program leave out of this unit. */
#ifndef BOHRALI_DROPPING_H
#define BOHRALI_DROPPING_H

#include "decisions.h"
#include "flow.h"

namespace flow {

class dropping {
public:
    /* With the decisions of the file that BOHRALI_DROP names; without it nothing is done. */
    void begin();
    /* Meets the criticals of a function. Their calls stay the same statements when `ompexp` moves them. */
    void meet(function *fn, const graph &graph);
    /* Leaves out the locks, once the flow of the unit is whole; its hash is empty where there is none. */
    void drop(const std::string &flow);
    /* Keeps the statements that were met. */
    void keep_alive();
    /* Writes into the object that it is as decided. */
    void mark();

private:
    struct critical {
        std::string function, place, name, number;
        location_t at;
        gimple *start, *end; /* NULL where there is not just one of each */
        const decision *decided = NULL;
        bool gone = false;
    };

    const char *path = NULL;
    std::string wrong; /* why all locks stay, or empty */
    decisions all;
    std::vector<critical> criticals;
    std::string unit; /* the hash of its flow, where that is as decided */
    bool some_gone = false;

    std::string match(const std::string &flow);
    bool replace(function *fn);
    bool replace(critical &met, gimple_stmt_iterator start, gimple_stmt_iterator end);
};

}

#endif
