/* Blocks: statement by statement into nodes. A directive stands last in its block. */
#include "flow.h"

namespace flow {

static bool is_call(gimple *statement, built_in_function routine)
{
    return gimple_call_builtin_p(statement, routine);
}

void graph::walk(basic_block block, context where)
{
    here = {NULL, block};
    current = entry_of[block->index] = add_node(PLAIN, where);
    for (gimple_stmt_iterator i = gsi_start_bb(block); !gsi_end_p(i); gsi_next(&i)) {
        gimple *statement = gsi_stmt(i);
        switch (gimple_code(statement)) {
        case GIMPLE_DEBUG:
        case GIMPLE_LABEL:
        case GIMPLE_NOP:
        case GIMPLE_PREDICT:
            continue;
        default:
            break;
        }
        here.before = statement;
        if (ends_block(statement, block, where)) {
            return;
        }
        if (is_gimple_call(statement)) {
            where = call(statement, where);
        } else {
            plain(statement, where);
        }
    }
    if (EDGE_COUNT(block->succs) == 0) {
        nodes[current].stop = true;
    }
    follow(block, where);
}

void graph::plain(gimple *statement, context where)
{
    if (nodes[current].kind != PLAIN || nodes[current].where != where) {
        step(add_node(PLAIN, where));
    }
    if (!gimple_clobber_p(statement)) {
        add_line(current, gimple_location(statement));
    }
}

/* Directives with a shape of their own; the others are opened plainly. */
bool graph::ends_block(gimple *statement, basic_block block, context where)
{
    switch (gimple_code(statement)) {
    case GIMPLE_OMP_SINGLE:
        chosen(block, open(SINGLE, where, statement));
        return true;
    case GIMPLE_OMP_MASTER:
        chosen(block, open(MASTER, where, statement));
        return true;
#if GCCPLUGIN_VERSION >= 12000
    case GIMPLE_OMP_MASKED: {
        context masked = open(MASTER, where, statement);
        if (tree filter = omp_find_clause(gimple_omp_masked_clauses(statement), OMP_CLAUSE_FILTER)) {
            directives[masked].filter = number(OMP_CLAUSE_FILTER_EXPR(filter));
        }
        chosen(block, masked);
        return true;
    }
#endif
    case GIMPLE_OMP_FOR:
        loop(block, statement, where);
        return true;
    case GIMPLE_OMP_SECTIONS:
        sections(block, statement, where);
        return true;
    case GIMPLE_OMP_SECTIONS_SWITCH:
        give_up("a sections switch out of place");
        return true;
    case GIMPLE_OMP_TASK:
        if (gimple_omp_task_taskwait_p(statement)) {
            return false;
        }
        task(block, open(TASK, where, statement));
        return true;
    case GIMPLE_OMP_TARGET:
        return target(statement, block, where);
    case GIMPLE_OMP_CONTINUE:
    case GIMPLE_OMP_RETURN:
        return leave(statement, block, where);
    default:
        return opens_plainly(statement, block, where);
    }
}

/* Directives whose body begins behind them and ends with their return. */
bool graph::opens_plainly(gimple *statement, basic_block block, context where)
{
    switch (gimple_code(statement)) {
    case GIMPLE_OMP_PARALLEL:
        parallel(block, open(PARALLEL, where, statement), statement);
        return true;
    case GIMPLE_OMP_CRITICAL:
        critical(block, open(CRITICAL, where, statement), statement);
        return true;
    case GIMPLE_OMP_ORDERED:
        return ordered(statement, block, where);
    case GIMPLE_OMP_TEAMS:
        follow(block, open(TEAMS, where, statement));
        return true;
    case GIMPLE_OMP_SECTION:
        follow(block, open(SECTION, where, statement));
        return true;
#if GCCPLUGIN_VERSION >= 12000
    case GIMPLE_OMP_SCOPE: {
        context scope = open(THROUGH, where, statement);
        directives[scope].scope = true;
        follow(block, scope);
        return true;
    }
    case GIMPLE_OMP_TASKGROUP:
#endif
    case GIMPLE_OMP_SCAN:
        follow(block, open(THROUGH, where, statement));
        return true;
    default:
        return unknown(statement);
    }
}

void graph::parallel(basic_block block, context opened, gimple *statement)
{
    tree clauses = gimple_omp_parallel_clauses(statement);
    if (tree threads = omp_find_clause(clauses, OMP_CLAUSE_NUM_THREADS)) {
        directives[opened].threads = number(OMP_CLAUSE_NUM_THREADS_EXPR(threads));
    }
    follow(block, opened);
}

void graph::critical(basic_block block, context opened, gimple *statement)
{
    if (tree name = gimple_omp_critical_name(as_a<gomp_critical *>(statement))) {
        directives[opened].name = IDENTIFIER_POINTER(name);
    }
    follow(block, opened);
}

bool graph::ordered(gimple *statement, basic_block block, context where)
{
    tree clauses = gimple_omp_ordered_clauses(as_a<gomp_ordered *>(statement));
    if (ordered_alone(clauses)) {
        return false;
    }
    context opened = open(ORDERED, where, statement);
    directives[opened].flat = omp_find_clause(clauses, OMP_CLAUSE_SIMD) != NULL_TREE;
    follow(block, opened);
    return true;
}

/* Gives up where a statement of OpenMP is none of those that are known. */
bool graph::unknown(gimple *statement)
{
    switch (gimple_code(statement)) {
    case GIMPLE_OMP_ATOMIC_LOAD:
    case GIMPLE_OMP_ATOMIC_STORE:
#if GCCPLUGIN_VERSION < 12000
    /* No return belongs to it there. */
    case GIMPLE_OMP_TASKGROUP:
#endif
        return false;
    default:
        break;
    }
    if (is_gimple_omp(statement)) {
        give_up(gimple_code_name[gimple_code(statement)]);
    }
    return is_gimple_omp(statement);
}

bool graph::target(gimple *statement, basic_block block, context where)
{
    switch (gimple_omp_target_kind(statement)) {
    case GF_OMP_TARGET_KIND_REGION:
    case GF_OMP_TARGET_KIND_OACC_PARALLEL:
    case GF_OMP_TARGET_KIND_OACC_KERNELS:
    case GF_OMP_TARGET_KIND_OACC_SERIAL:
    case GF_OMP_TARGET_KIND_OACC_PARALLEL_KERNELS_PARALLELIZED:
    case GF_OMP_TARGET_KIND_OACC_PARALLEL_KERNELS_GANG_SINGLE:
        follow(block, open(TARGET, where, statement));
        return true;
    default:
        return false;
    }
}

/* GIMPLE_OMP_CONTINUE and GIMPLE_OMP_RETURN: the ends of bodies and of tails. */
bool graph::leave(gimple *statement, basic_block block, context where)
{
    if (where == OUTSIDE) {
        give_up("the end of a directive out of place");
        return true;
    }
    bool in_tail = directives[where].tail_of != OUTSIDE;
    if (gimple_code(statement) == GIMPLE_OMP_CONTINUE) {
        if (in_tail) {
            give_up("a continue out of place");
        } else if (directives[where].kind == TASK) {
            directives[where].body_end = here;
            follow(block, where);
        } else {
            /* The ways on from the close were laid where the directive was opened. */
            step_to_close(where);
        }
        return true;
    }
    context left = in_tail ? directives[where].tail_of : where;
    if (!in_tail) {
        step_to_close(left);
    }
    directive &d = directives[left];
    bool waits = d.kind == FOR || d.kind == SINGLE || d.kind == SECTIONS || d.scope;
    d.nowait = !waits || gimple_omp_return_nowait_p(statement);
    if (!d.nowait) {
        /* With a result it says whether the region was cancelled, and then some do not wait. */
        int barrier = add_node(gimple_omp_return_lhs(statement) ? WEAK : BARRIER, d.parent);
        add_line(barrier, d.place);
        step(barrier);
    }
    follow(block, directives[left].parent);
    return true;
}

/* Whether a call is the first statement of a critical's or an ordered's body, or the one behind it. */
static bool starts_body(gimple *statement, directive_kind kind)
{
    return kind == CRITICAL ? is_call(statement, BUILT_IN_GOMP_CRITICAL_START)
                                  || is_call(statement, BUILT_IN_GOMP_CRITICAL_NAME_START)
                            : kind == ORDERED && is_call(statement, BUILT_IN_GOMP_ORDERED_START);
}

static bool ends_body(gimple *statement, directive_kind kind)
{
    return kind == CRITICAL ? is_call(statement, BUILT_IN_GOMP_CRITICAL_END)
                                  || is_call(statement, BUILT_IN_GOMP_CRITICAL_NAME_END)
                            : kind == ORDERED && is_call(statement, BUILT_IN_GOMP_ORDERED_END);
}

/* A call; returns the context behind it. */
context graph::call(gimple *statement, context where)
{
    bool barrier = is_call(statement, BUILT_IN_GOMP_BARRIER);
    if (barrier || is_call(statement, BUILT_IN_GOMP_BARRIER_CANCEL)) {
        /* omplower puts in some without a line, for copyin and the like: OpenMP promises none. */
        bool promised = LOCATION_LOCUS(gimple_location(statement)) > BUILTINS_LOCATION;
        step(add_node(barrier && promised ? BARRIER : WEAK, where));
        add_line(current, gimple_location(statement));
        return where;
    }
    bool in_body = where != OUTSIDE && directives[where].tail_of == OUTSIDE;
    if (in_body && starts_body(statement, directives[where].kind)) {
        directives[where].starts.push_back(statement);
        wait(where);
        return where;
    }
    if (in_body && ends_body(statement, directives[where].kind)) {
        directives[where].ends.push_back(statement);
        step_to_close(where);
        return tail_of(where);
    }
    if (is_call(statement, BUILT_IN_GOMP_CANCEL)) {
        cancel(statement, where);
    }
    routine(statement, where);
    return where;
}

/* The body of a critical or an ordered begins behind the wait for it; what waits is no place inside. */
void graph::wait(context where)
{
    if (nodes[current].kind == PLAIN && nodes[current].lines.empty()) {
        nodes[current].at = {NULL, NULL};
    }
    gimple_stmt_iterator behind = gsi_for_stmt(here.before);
    gsi_next_nondebug(&behind);
    step(add_node(PLAIN, where));
    nodes[current].at = gsi_end_p(behind) ? point{NULL, NULL} : point{gsi_stmt(behind), here.block};
}

/* Out of a cancelled sections threads go before all sections are taken, and barriers of routines
 * that a cancelled parallel calls are not waited for by all. */
void graph::cancel(gimple *statement, context where)
{
    /* The numbers of libgomp. */
    std::string what = number(gimple_call_arg(statement, 0));
    directive_kind kind = what == "1" ? PARALLEL : SECTIONS;
    if (what != "1" && what != "4") {
        return;
    }
    for (; where != OUTSIDE; where = directives[where].parent) {
        if (directives[where].tail_of == OUTSIDE && directives[where].kind == kind) {
            directives[where].cancel = true;
            return;
        }
    }
}

/* A name that a program could define by itself. */
static bool is_library_name(const std::string &name)
{
    for (const char *own : {"__", "GOMP_", "GOACC_", "omp_", "acc_"}) {
        if (name.compare(0, strlen(own), own) == 0) {
            return false;
        }
    }
    return true;
}

void graph::routine(gimple *statement, context where)
{
    tree callee = gimple_call_fndecl(statement);
    bool known = gimple_call_internal_p(statement) || (callee && fndecl_built_in_p(callee));
    std::string name = callee ? symbol(callee) : "*";
    if (known && !(callee && is_library_name(name))) {
        plain(statement, where);
        return;
    }
    step(add_node(CALL, where));
    nodes[current].callee = name;
    nodes[current].library = known;
    nodes[current].system = callee && DECL_IN_SYSTEM_HEADER(callee);
    add_line(current, gimple_location(statement));
}

}
