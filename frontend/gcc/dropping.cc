/* A lock is left out by putting a fence in place of GOMP_critical_.._start and of .._end. This is done behind the
 * lowering passes, as decisions hold for a unit whose whole flow is as decided. A start and its end go together. */
#include "dropping.h"

#include "memmodel.h"
#include "output.h"

namespace flow {

void dropping::begin()
{
    path = getenv("BOHRALI_DROP");
    if (path) {
        wrong = all.read(path);
    }
}

void dropping::meet(function *fn, const graph &graph)
{
    if (!path) {
        return;
    }
    int number = 0;
    for (const directive &d : graph.directives) {
        if (d.tail_of != OUTSIDE) {
            continue;
        }
        if (d.kind == CRITICAL) {
            bool whole = d.starts.size() == 1 && d.ends.size() == 1;
            criticals.push_back({word(symbol(fn->decl)), line_of(d.place), word(d.name),
                                 std::to_string(number), d.place, whole ? d.starts[0] : NULL,
                                 whole ? d.ends[0] : NULL});
        }
        number++;
    }
}

void dropping::keep_alive()
{
    for (critical &met : criticals) {
        gt_ggc_mx(met.start);
        gt_ggc_mx(met.end);
    }
}

/* Finds the critical of each decision about this unit; returns why the decisions do not hold, or nothing. */
std::string dropping::match(const std::string &flow)
{
    if (flow.empty()) {
        return "the flow of this unit could not be written";
    }
    if (!all.units.count(flow)) {
        return "this unit's flow is not as decided: its source, a header or an option has changed";
    }
    if (flag_generate_lto) {
        return "with -flto the link cannot hold objects to them";
    }
    for (const decision &decided : all.dropped) {
        if (decided.flow != flow) {
            continue;
        }
        critical *found = NULL;
        for (critical &met : criticals) {
            bool same = met.function == decided.function && met.number == decided.number
                        && met.name == decided.name && met.place == decided.place;
            if (same && (found || !met.start)) {
                return "the critical at " + decided.place + " is not of the shape that is known";
            }
            found = same ? &met : found;
        }
        if (!found) {
            return "there is no critical as it is said to be at " + decided.place;
        }
        found->decided = &decided;
    }
    return "";
}

static const char *shown(const std::string &name)
{
    return name.empty() ? "(unnamed)" : name.c_str();
}

static gimple *fence(bool full, gimple *instead_of)
{
    tree barrier = builtin_decl_explicit(full ? BUILT_IN_SYNC_SYNCHRONIZE : BUILT_IN_ATOMIC_THREAD_FENCE);
    gcall *call = full ? gimple_build_call(barrier, 0)
                       : gimple_build_call(barrier, 1, build_int_cst(integer_type_node, MEMMODEL_ACQ_REL));
    gimple_set_location(call, gimple_location(instead_of));
    gimple_set_block(call, gimple_block(instead_of));
    return call;
}

bool dropping::replace(critical &met, gimple_stmt_iterator start, gimple_stmt_iterator end)
{
    gsi_replace(&start, fence(all.full, met.start), false);
    gsi_replace(&end, fence(all.full, met.end), false);
    met.gone = some_gone = true;
    inform(met.at, "lock of critical %qs left out: nodes never meet, rule %s", shown(met.name), met.decided->rules.c_str());
    return true;
}

/* In one function: a start whose end is not in it keeps its lock. */
bool dropping::replace(function *fn)
{
    std::map<gimple *, gimple_stmt_iterator> calls;
    basic_block block;
    FOR_EACH_BB_FN (block, fn) {
        for (gimple_stmt_iterator i = gsi_start_bb(block); !gsi_end_p(i); gsi_next(&i)) {
            if (is_gimple_call(gsi_stmt(i))) {
                calls.emplace(gsi_stmt(i), i);
            }
        }
    }
    bool changed = false;
    for (critical &met : criticals) {
        std::map<gimple *, gimple_stmt_iterator>::iterator start = calls.find(met.start), end = calls.find(met.end);
        if (met.decided && start != calls.end() && end != calls.end()) {
            changed = replace(met, start->second, end->second);
        }
    }
    return changed;
}

void dropping::drop(const std::string &flow)
{
    if (!path) {
        return;
    }
    if (wrong.empty()) {
        wrong = match(flow);
    }
    if (!wrong.empty()) {
        warning_at(UNKNOWN_LOCATION, 0, "bohrali: all locks stay, the decisions of %qs are not used: %s", path, wrong.c_str());
        return;
    }
    unit = flow;
    cgraph_node *node;
    FOR_EACH_FUNCTION_WITH_GIMPLE_BODY (node) {
        function *fn = DECL_STRUCT_FUNCTION(node->decl);
        if (!fn || !fn->cfg) {
            continue;
        }
        push_cfun(fn);
        if (replace(fn)) {
            cgraph_edge::rebuild_edges();
        }
        pop_cfun();
    }
    for (const critical &met : criticals) {
        if (met.decided && !met.gone) {
            inform(met.at, "lock of critical %qs stays: its start and end are not in one function", shown(met.name));
        }
    }
}

void dropping::mark()
{
    if (unit.empty() || !asm_out_file) {
        return;
    }
    fprintf(asm_out_file, "\t.section " BOHRALI_SECTION ",\"e\",@progbits\n\t.ascii \"unit %s\\n\"\n", unit.c_str());
    if (some_gone) {
        const char *id = all.id.c_str();
        fprintf(asm_out_file, "\t.section " BOHRALI_SECTION ".decided,\"aR\",@progbits\n\t.balign 4\n");
        fprintf(asm_out_file, "\t.hidden " BOHRALI_SYMBOL "%s\n\t.long " BOHRALI_SYMBOL "%s - .\n", id, id);
    }
}

}
