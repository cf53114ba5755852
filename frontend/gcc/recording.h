/* Calls of the recorder (record.c), put into code that is compiled with --record. */
#ifndef BOHRALI_RECORDING_H
#define BOHRALI_RECORDING_H

#include "flow.h"

namespace recording {

/* Whether calls are asked for. */
bool is_wanted();

/* Puts a call at each node of a function that a team may come to; `mark` is the function's in the
 * flow, which is written before. */
void insert(function *fn, const flow::graph &graph, uint64_t mark);

/* Registers the pass that lets a call be made only where this thread has something to record. */
void register_guards(const char *plugin);

}

#endif
