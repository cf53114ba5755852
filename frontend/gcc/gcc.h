/* GCC's headers, and what differs between its versions 11 to 14. */
#ifndef BOHRALI_GCC_H
#define BOHRALI_GCC_H

#include "gcc-plugin.h"

#include "tree.h"

#include "tree-pass.h"

#include "basic-block.h"
#include "cgraph.h"
#include "context.h"
#include "diagnostic.h"
#include "fold-const.h"
#include "function.h"
#include "gimple.h"
#include "gimple-iterator.h"
#include "gimple-ssa.h"
#include "omp-general.h"
#include "plugin-version.h"
#include "stringpool.h"
#include "tree-cfg.h"

#if !defined GCCPLUGIN_VERSION || GCCPLUGIN_VERSION < 11000
#error "the plugin is for gcc 11 and later"
#endif

namespace flow {

inline gimple *last_statement(basic_block block)
{
#if GCCPLUGIN_VERSION >= 14000
    return last_nondebug_stmt(block);
#else
    return last_stmt(block);
#endif
}

inline bool ends_with(basic_block block, enum gimple_code code)
{
    gimple *last = last_statement(block);
    return last && gimple_code(last) == code;
}

/* An ordered that stands alone: it waits for iterations, or posts one, and has no body. */
inline bool ordered_alone(tree clauses)
{
#if GCCPLUGIN_VERSION >= 13000
    if (omp_find_clause(clauses, OMP_CLAUSE_DOACROSS)) {
        return true;
    }
#endif
    return omp_find_clause(clauses, OMP_CLAUSE_DEPEND) != NULL_TREE;
}

}

#endif
