/* The shapes that omplower gives to single, master, for, sections and task. */
#include "flow.h"

namespace flow {

context graph::open(directive_kind kind, context where, gimple *statement)
{
    directive opened;
    opened.kind = kind;
    opened.parent = where;
    opened.place = gimple_location(statement);
    directives.push_back(opened);
    step(add_node(OPEN, where));
    nodes[current].of = directives.size() - 1;
    add_line(current, opened.place);
    return directives.size() - 1;
}

context graph::tail_of(context opened)
{
    if (directives[opened].tail == OUTSIDE) {
        directive tail = directives[opened];
        tail.tail_of = opened;
        directives.push_back(tail);
        directives[opened].tail = directives.size() - 1;
    }
    return directives[opened].tail;
}

int graph::close_of(context opened)
{
    if (directives[opened].close < 0) {
        int close = add_node(CLOSE, directives[opened].parent);
        nodes[close].of = opened;
        nodes[close].at = {NULL, NULL};
        directives[opened].close = close;
    }
    return directives[opened].close;
}

/* The body ends at the statement that is being walked over. */
void graph::step_to_close(context opened)
{
    int close = close_of(opened);
    if (!nodes[close].at.block) {
        nodes[close].at = here;
    }
    step(close);
}

/* The way of those who do not enter, or who have left: from the close into the tail. */
void graph::around(context opened, basic_block to)
{
    go(close_of(opened), tail_of(opened), to);
}

/* One edge leads into the body; an abnormal one, to the block with the return, says that the task is
 * put off. The return stands even where the body does not reach it. */
void graph::task(basic_block block, context opened)
{
    edge e;
    edge_iterator i;
    bool several = EDGE_COUNT(block->succs) > 1;
    FOR_EACH_EDGE (e, i, block->succs) {
        if (!(several && e->flags & EDGE_ABNORMAL && ends_with(e->dest, GIMPLE_OMP_RETURN))) {
            go(current, opened, e->dest);
        }
    }
    FOR_EACH_EDGE (e, i, block->succs) {
        if (several && e->flags & EDGE_ABNORMAL) {
            work.push_back(std::make_pair(e->dest, opened));
        }
    }
}

/* Whether a statement asks if this thread is the chosen one. */
static bool asks(gimple *statement, directive_kind kind)
{
    if (kind == MASTER) {
        return gimple_call_builtin_p(statement, BUILT_IN_OMP_GET_THREAD_NUM);
    }
    return gimple_call_builtin_p(statement, BUILT_IN_GOMP_SINGLE_START)
           || gimple_call_builtin_p(statement, BUILT_IN_GOMP_SINGLE_COPY_START);
}

/* Whether a block asks if this thread is the chosen one, branches on it, and does nothing else. */
static bool is_test(basic_block block, directive_kind kind)
{
    if (!single_pred_p(block) || EDGE_COUNT(block->succs) != 2) {
        return false;
    }
    bool asked = false;
    for (gimple_stmt_iterator i = gsi_start_bb(block); !gsi_end_p(i); gsi_next(&i)) {
        gimple *statement = gsi_stmt(i);
        if (gimple_code(statement) == GIMPLE_COND) {
            return asked && gsi_one_before_end_p(i);
        }
        if (asks(statement, kind)) {
            asked = true;
        } else if (!is_gimple_debug(statement) && gimple_code(statement) != GIMPLE_LABEL
                   && !is_gimple_assign(statement)) {
            return false;
        }
    }
    return false;
}

void graph::chosen(basic_block block, context opened)
{
    if (!single_succ_p(block)) {
        give_up("a single or master with several ways");
        return;
    }
    basic_block test = single_succ(block);
    if (!is_test(test, directives[opened].kind)) {
        directives[opened].flat = true;
        follow(block, opened);
        return;
    }
    edge yes, no;
    extract_true_false_edges_from_block(test, &yes, &no);
    context_of[test->index] = opened;
    entry_of[test->index] = current;
    go(current, opened, yes->dest);
    around(opened, no->dest);
    nodes[close_of(opened)].at = {NULL, no->dest};
}

void graph::loop(basic_block block, gimple *statement, context where)
{
    bool shared = gimple_omp_for_kind(statement) == GF_OMP_FOR_KIND_FOR;
    context opened = open(shared ? FOR : LOOP, where, statement);
    if (tree ordered = omp_find_clause(gimple_omp_for_clauses(statement), OMP_CLAUSE_ORDERED)) {
        /* With a number it is a loop of waits and posts, without bodies. */
        directives[opened].ordered = OMP_CLAUSE_ORDERED_EXPR(ordered) == NULL_TREE;
    }
    edge e;
    edge_iterator i;
    bool alone = EDGE_COUNT(block->succs) == 1;
    FOR_EACH_EDGE (e, i, block->succs) {
        if (alone || e->flags & EDGE_FALLTHRU) {
            go(current, opened, e->dest);
        }
    }
    FOR_EACH_EDGE (e, i, block->succs) {
        if (!alone && !(e->flags & EDGE_FALLTHRU)) {
            around(opened, e->dest);
        }
    }
    close_of(opened);
}

/* Whether a block holds its last statement alone. */
static bool is_bare(basic_block block)
{
    gimple *last = last_statement(block);
    for (gimple_stmt_iterator i = gsi_start_bb(block); !gsi_end_p(i); gsi_next(&i)) {
        gimple *statement = gsi_stmt(i);
        if (statement != last && gimple_code(statement) != GIMPLE_LABEL
            && !is_gimple_debug(statement)) {
            return false;
        }
    }
    return true;
}

void graph::sections(basic_block block, gimple *statement, context where)
{
    context opened = open(SECTIONS, where, statement);
    /* reduction(task, ..): GOMP_sections2_start takes a section before the reduction is set up. */
    tree clauses = gimple_omp_sections_clauses(statement);
    directives[opened].early = omp_find_clause(clauses, OMP_CLAUSE__REDUCTEMP_) != NULL_TREE;
    basic_block deal = single_succ_p(block) ? single_succ(block) : NULL;
    if (!deal || !ends_with(deal, GIMPLE_OMP_SECTIONS_SWITCH) || !is_bare(deal)) {
        give_up("a sections without its switch");
        return;
    }
    context_of[deal->index] = opened;
    entry_of[deal->index] = current;
    close_of(opened);
    std::vector<basic_block> outside;
    edge e;
    edge_iterator i;
    FOR_EACH_EDGE (e, i, deal->succs) {
        if (ends_with(e->dest, GIMPLE_OMP_SECTION)) {
            go(current, opened, e->dest);
        } else {
            outside.push_back(e->dest);
        }
    }
    for (basic_block to : outside) {
        around(opened, to);
    }
}

}
