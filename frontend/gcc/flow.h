/* The control flow of one function with its OpenMP directives, straight before GCC's pass `ompexp`.
 *
 * There the directives are still statements of a control flow graph (GIMPLE_OMP_..), alike for C,
 * C++ and Fortran. What the pass `omplower` has done to them by then is undone here:
 *   - single, master, masked: the test for the chosen thread belongs to the opening, and what follows
 *     the label behind it (destructors of private variables, the copies of copyprivate) to the tail;
 *   - for, sections: what follows GIMPLE_OMP_CONTINUE (reductions, lastprivate) is the tail;
 *   - critical, ordered: the body reaches from GOMP_.._start to GOMP_.._end;
 *   - GIMPLE_OMP_RETURN without nowait of a for, sections, single or scope is a barrier.
 * A shape that is not the one that omplower makes is no guess: the directive is marked flat, or the
 * whole function is given up with the reason. */
#ifndef BOHRALI_FLOW_H
#define BOHRALI_FLOW_H

#include <map>
#include <set>
#include <string>
#include <utility>
#include <vector>

#include "gcc.h"

namespace flow {

enum directive_kind {
    PARALLEL,
    SINGLE,
    MASTER,
    CRITICAL,
    FOR,
    ORDERED,
    SECTIONS,
    SECTION,
    TASK,
    TARGET,
    TEAMS,
    THROUGH, /* scope, taskgroup, scan: a block that all threads walk through */
    LOOP     /* simd, distribute, taskloop: iterations that this thread runs */
};

enum node_kind { PLAIN, CALL, BARRIER, WEAK, OPEN, CLOSE, ENTRY, EXIT };

/* Where a node stands: a directive's body, its tail, or neither. The tail is code of the directive
 * behind its close; it lies where the directive lies. */
typedef int context;
const context OUTSIDE = -1;

/* Where a thread comes to a node: before a statement, or without one at the start of a block. */
struct point {
    gimple *before;
    basic_block block;
};

struct directive {
    directive_kind kind;
    context parent;
    location_t place;
    context tail = OUTSIDE;    /* the context of its tail */
    context tail_of = OUTSIDE; /* not a directive: the tail of this one */
    bool flat = false;         /* of another shape than omplower gives it: plain code */
    bool scope = false;        /* a block with a barrier behind it */
    bool nowait = false;
    bool ordered = false; /* a for with the clause ordered */
    bool cancel = false;  /* a sections or a parallel that can be cancelled */
    bool early = false;   /* a sections whose first section is taken before its begin is left */
    std::string name;     /* of a critical */
    std::string filter;   /* of a master: a number, or ? */
    std::string threads;  /* of a parallel: a number, or ?, or empty */
    int close = -1;       /* its node */
    point body_end = {NULL, NULL}; /* of a task, whose close is not in the body */
    std::vector<gimple *> starts, ends; /* of a critical: the calls that take and give its lock */
};

struct node {
    node_kind kind;
    context where;
    point at;                   /* without a block: at no place of its own */
    context of = OUTSIDE;       /* the directive that it opens or closes */
    bool stop = false;          /* nothing follows: the program ends or hangs here */
    bool library = false;       /* a call that GCC knows as one of the C library */
    bool system = false;        /* a call of what a header of the system declares */
    std::string callee;         /* * for a call through a pointer */
    std::set<std::pair<std::string, int>> lines;
};

class graph {
public:
    std::vector<directive> directives;
    std::vector<node> nodes;
    std::set<std::pair<int, int>> edges;
    std::string trouble; /* why the function is given up, or empty */

    explicit graph(function *fn) : fn(fn) { build(); }

    /* The innermost parallel around a place, or OUTSIDE; of a parallel's close it is its own. */
    context region_of(const node &n) const;
    /* Whether no record of a thread can stand at a node, so that a recorded run lacks it. */
    bool is_mute(const node &n) const;

private:
    /* An edge of GCC's graph out of a node, to the block that it leads to. */
    struct way {
        int from;
        context leaving;
        basic_block to;
    };

    function *fn;
    std::map<int, context> context_of; /* by block, on entry */
    std::map<int, int> entry_of;       /* by block: its first node */
    std::vector<way> ways;
    std::vector<std::pair<basic_block, context>> work;
    int current = -1;           /* the node that is being filled */
    point here = {NULL, NULL};  /* the statement that is being walked over */

    /* graph.cc */
    void build();
    void lay_edges();
    bool lay_edge(const way &way);
    void retry_atomic(basic_block load);
    bool encloses(context outer, context inner) const;
    void give_up(const char *why);

    /* blocks.cc */
    void walk(basic_block block, context where);
    bool ends_block(gimple *statement, basic_block block, context where);
    bool opens_plainly(gimple *statement, basic_block block, context where);
    void parallel(basic_block block, context opened, gimple *statement);
    void critical(basic_block block, context opened, gimple *statement);
    bool ordered(gimple *statement, basic_block block, context where);
    bool unknown(gimple *statement);
    bool target(gimple *statement, basic_block block, context where);
    bool leave(gimple *statement, basic_block block, context where);
    context call(gimple *statement, context where);
    void wait(context where);
    void cancel(gimple *statement, context where);
    void routine(gimple *statement, context where);

    /* directives.cc */
    context open(directive_kind kind, context where, gimple *statement);
    context tail_of(context opened);
    int close_of(context opened);
    void step_to_close(context opened);
    void task(basic_block block, context opened);
    void chosen(basic_block block, context opened);
    void loop(basic_block block, gimple *statement, context where);
    void sections(basic_block block, gimple *statement, context where);
    void around(context opened, basic_block to);

    /* Small steps of all of them. */
    int add_node(node_kind kind, context where);
    void add_line(int node, location_t place);
    void step(int node);
    void plain(gimple *statement, context where);
    void go(int from, context leaving, basic_block to);
    void follow(basic_block block, context where);
};

/* A constant as a number, anything else as a question mark. */
std::string number(tree value);

/* The assembler's name of a function. */
std::string symbol(tree declaration);

/* A source line as FILE:LINE, each a word; empty where there is none. */
std::string line_of(location_t place);

/* A text as one word, which stays apart from the marks around it here and in a region table. */
std::string word(const std::string &text);

}

#endif
