#include "recording.h"

#include "text.h"

#include "cfghooks.h"
#include "cfgloop.h"
#include "gimplify.h"
#include "varasm.h"

namespace recording {

using flow::context;
using flow::directive;
using flow::graph;
using flow::node;
using flow::OUTSIDE;

bool is_wanted()
{
    const char *asked = getenv("BOHRALI_RECORD");
    return asked && *asked;
}

/* What the recorder defines. */
enum symbol { AT, ASIDE, AHEAD, TEAM, SYMBOLS };

static tree declared[SYMBOLS];

/* The collector keeps them. */
static const ggc_root_tab roots[] = {
    {declared, SYMBOLS, sizeof declared[0], gt_ggc_mx_tree_node, gt_pch_nx_tree_node},
    LAST_GGC_ROOT_TAB};

static tree routine(symbol which, const char *name, tree type)
{
    if (!declared[which]) {
        declared[which] = build_fn_decl(name, type);
        /* It throws nothing and calls nothing back. */
        TREE_NOTHROW(declared[which]) = 1;
        DECL_ATTRIBUTES(declared[which]) = tree_cons(get_identifier("leaf"), NULL_TREE, NULL_TREE);
    }
    return declared[which];
}

/* void bohrali_at(uint64_t function, unsigned node) */
static tree at_node()
{
    return routine(AT, "bohrali_at",
                   build_function_type_list(void_type_node, long_long_unsigned_type_node,
                                            unsigned_type_node, NULL_TREE));
}

/* void bohrali_aside(int begins) */
static tree aside()
{
    return routine(ASIDE, "bohrali_aside",
                   build_function_type_list(void_type_node, integer_type_node, NULL_TREE));
}

/* void bohrali_region(const char *name, uint64_t function, unsigned directive) */
static tree region_ahead()
{
    return routine(AHEAD, "bohrali_region",
                   build_function_type_list(void_type_node, const_ptr_type_node,
                                            long_long_unsigned_type_node, unsigned_type_node,
                                            NULL_TREE));
}

/* Code of a target may be for another device, which has no recorder. */
static bool in_target(const graph &graph, const node &n)
{
    context x = n.where;
    while (x != OUTSIDE && graph.directives[x].kind != flow::TARGET) {
        x = graph.directives[x].parent;
    }
    return x != OUTSIDE;
}

/* Whether a node's code is run by the threads of a team that can be recorded: those of the innermost
 * parallel around it, or else those that call its function. */
static bool is_of_team(const graph &graph, const node &n)
{
    if (in_target(graph, n)) {
        return false;
    }
    if (n.kind == flow::CLOSE && graph.directives[n.of].kind == flow::PARALLEL) {
        return true;
    }
    for (context x = n.where; x != OUTSIDE; x = graph.directives[x].parent) {
        const directive &d = graph.directives[x];
        if (d.tail_of == OUTSIDE && d.kind == flow::PARALLEL) {
            return true;
        }
        if (d.tail_of == OUTSIDE && (d.kind == flow::TASK || d.kind == flow::TEAMS)) {
            return false;
        }
    }
    return true;
}

/* What is known of a function's code outside its own regions, which threads of a caller's team run. */
struct routine_facts {
    bool binds = false;              /* has a barrier or a construct of that team */
    std::set<std::string> callees;   /* that may have, here or in another unit */
    std::set<std::string> of_system; /* that the system declares: they may have where they are here */
    std::set<unsigned> nodes;        /* outside its regions */
};

/* The functions of the unit, by symbol and by mark. */
static std::map<std::string, routine_facts> routines;
static std::map<uint64_t, std::string> marked;

static bool is_team_construct(flow::directive_kind kind)
{
    return kind != flow::PARALLEL && kind != flow::TASK && kind != flow::TARGET
           && kind != flow::TEAMS;
}

static routine_facts facts_of(const graph &graph)
{
    routine_facts facts;
    for (const node &n : graph.nodes) {
        if (graph.region_of(n) != OUTSIDE || !is_of_team(graph, n)) {
            continue;
        }
        if (n.kind == flow::BARRIER || n.kind == flow::WEAK
            || (n.kind == flow::OPEN && is_team_construct(graph.directives[n.of].kind))) {
            facts.binds = true;
        }
        if (n.kind == flow::CALL && !n.library && n.callee != "*"
            && n.callee.compare(0, 4, "omp_") != 0) {
            (n.system ? facts.of_system : facts.callees).insert(n.callee);
        }
    }
    return facts;
}

static bool binds_or_else(const std::string &callee, bool where_unknown)
{
    std::map<std::string, routine_facts>::iterator known = routines.find(callee);
    return known == routines.end() ? where_unknown : known->second.binds;
}

/* Lets each function of the unit bind that calls one which binds, or which another unit may have. */
static void settle_routines()
{
    bool changed = true;
    while (changed) {
        changed = false;
        for (std::pair<const std::string, routine_facts> &caller : routines) {
            bool binds = caller.second.binds;
            for (const std::string &callee : caller.second.callees) {
                binds = binds || binds_or_else(callee, true);
            }
            for (const std::string &callee : caller.second.of_system) {
                binds = binds || binds_or_else(callee, false);
            }
            changed = changed || binds != caller.second.binds;
            caller.second.binds = binds;
        }
    }
}

static bool is_recorded(const graph &graph, const node &n, bool is_called)
{
    if (n.kind == flow::ENTRY || n.kind == flow::EXIT || graph.is_mute(n)) {
        return false;
    }
    return is_of_team(graph, n) && (is_called || graph.region_of(n) != OUTSIDE);
}

/* FUNCTION-LINE, as the region's table is called. */
static std::string region_name(function *fn, const directive &parallel)
{
    std::string name;
    for (unsigned char byte : flow::symbol(fn->decl)) {
        bool is_kept = ISALNUM(byte) || byte == '_' || (byte == '.' && !name.empty());
        if (is_kept && name.size() < 100) {
            name += byte;
        }
    }
    return name + "-" + std::to_string(expand_location(parallel.place).line);
}

static void put(gcall *call, const flow::point &at)
{
    if (at.before) {
        gimple_stmt_iterator before = gsi_for_stmt(at.before);
        gsi_insert_before(&before, call, GSI_SAME_STMT);
    } else {
        gimple_stmt_iterator start = gsi_after_labels(at.block);
        gsi_insert_before(&start, call, GSI_NEW_STMT);
    }
}

/* The calls at a node, in their order. */
static std::vector<gcall *> calls_at(function *fn, const graph &graph, uint64_t mark,
                                     const std::vector<int> &named, const node &n, bool is_called)
{
    std::vector<gcall *> calls;
    tree function = build_int_cst(long_long_unsigned_type_node, mark);
    if (is_recorded(graph, n, is_called)) {
        int number = &n - &graph.nodes[0];
        calls.push_back(gimple_build_call(at_node(), 2, function,
                                          build_int_cst(unsigned_type_node, number)));
    }
    if (n.kind == flow::OPEN && graph.directives[n.of].kind == flow::PARALLEL
        && !in_target(graph, n)) {
        std::string name = region_name(fn, graph.directives[n.of]);
        calls.push_back(gimple_build_call(
            region_ahead(), 3, build_string_literal(name.size() + 1, name.c_str()), function,
            build_int_cst(unsigned_type_node, named[n.of])));
    }
    return calls;
}

/* Around the body of each task: behind its opening, and where it ends. */
static void set_tasks_aside(const graph &graph)
{
    for (const node &n : graph.nodes) {
        if (n.kind != flow::OPEN || graph.directives[n.of].kind != flow::TASK
            || !graph.directives[n.of].body_end.block || in_target(graph, n)) {
            continue;
        }
        put(gimple_build_call(aside(), 1, integer_zero_node), graph.directives[n.of].body_end);
        edge e;
        edge_iterator i;
        FOR_EACH_EDGE (e, i, n.at.block->succs) {
            if (!(e->flags & EDGE_ABNORMAL)) {
                put(gimple_build_call(aside(), 1, integer_one_node), {NULL, e->dest});
            }
        }
    }
}

void insert(function *fn, const graph &graph, uint64_t mark)
{
    if (!graph.trouble.empty()) {
        return;
    }
    routine_facts facts = facts_of(graph);
    bool is_called = facts.binds || !facts.callees.empty() || !facts.of_system.empty();
    for (const node &n : graph.nodes) {
        if (graph.region_of(n) == OUTSIDE) {
            facts.nodes.insert(&n - &graph.nodes[0]);
        }
    }
    marked[mark] = flow::symbol(fn->decl);
    routines[marked[mark]] = facts;
    std::vector<int> named = flow::numbers(graph);
    /* What stands before a statement goes there in the order of the nodes; then, backwards, what
     * stands at the start of a block. */
    for (const node &n : graph.nodes) {
        if (n.at.before) {
            for (gcall *call : calls_at(fn, graph, mark, named, n, is_called)) {
                put(call, n.at);
            }
        }
    }
    for (size_t i = graph.nodes.size(); i-- > 0;) {
        const node &n = graph.nodes[i];
        if (n.at.block && !n.at.before) {
            std::vector<gcall *> calls = calls_at(fn, graph, mark, named, n, is_called);
            for (size_t k = calls.size(); k-- > 0;) {
                put(calls[k], n.at);
            }
        }
    }
    set_tasks_aside(graph);
}

/* ---- The test around a call ------------------------------------------------------------------ */

/* _Thread_local void *bohrali_team, which only the start and the end of a region change. */
static tree team()
{
    if (!declared[TEAM]) {
        tree variable = build_decl(UNKNOWN_LOCATION, VAR_DECL, get_identifier("bohrali_team"),
                                   ptr_type_node);
        TREE_PUBLIC(variable) = 1;
        DECL_EXTERNAL(variable) = 1;
        DECL_ARTIFICIAL(variable) = 1;
        set_decl_tls_model(variable, TLS_MODEL_INITIAL_EXEC);
        declared[TEAM] = variable;
    }
    return declared[TEAM];
}

/* Makes a call only where the thread has a team to record. */
static void guard(gimple *call)
{
    basic_block head = gimple_bb(call);
    gimple_stmt_iterator before = gsi_for_stmt(call);
    gsi_prev(&before);
    bool is_first = gsi_end_p(before) || gimple_code(gsi_stmt(before)) == GIMPLE_LABEL;
    edge into = is_first ? split_block_after_labels(head) : split_block(head, gsi_stmt(before));
    edge past = split_block(into->dest, call);
    tree loaded = create_tmp_reg(ptr_type_node, "bohrali_team");
    gimple_stmt_iterator end = gsi_last_bb(head);
    gsi_insert_after(&end, gimple_build_assign(loaded, team()), GSI_NEW_STMT);
    gsi_insert_after(&end, gimple_build_cond(NE_EXPR, loaded, null_pointer_node, NULL, NULL),
                     GSI_NEW_STMT);
    into->flags = (into->flags & ~EDGE_FALLTHRU) | EDGE_TRUE_VALUE;
    into->probability = profile_probability::unlikely();
    edge around = make_edge(head, past->dest, EDGE_FALSE_VALUE);
    around->probability = into->probability.invert();
}

const pass_data description = {
    GIMPLE_PASS, "record", OPTGROUP_NONE, TV_NONE, PROP_gimple_any | PROP_cfg, 0, 0, 0, 0};

class guards : public gimple_opt_pass {
public:
    guards() : gimple_opt_pass(description, g) {}

    bool gate(function *) final override { return !seen_error(); }

    unsigned execute(function *fn) final override
    {
        /* All functions of the unit have been lowered by now. */
        settle_routines();
        std::vector<gimple *> calls;
        basic_block block;
        FOR_EACH_BB_FN (block, fn) {
            gimple_stmt_iterator i = gsi_start_bb(block);
            while (!gsi_end_p(i)) {
                gimple *statement = gsi_stmt(i);
                if (is_call_of(statement, at_node()) && says_nothing(statement)) {
                    gsi_remove(&i, true);
                    continue;
                }
                if (is_call_of(statement, at_node()) || is_call_of(statement, aside())) {
                    calls.push_back(statement);
                }
                gsi_next(&i);
            }
        }
        for (gimple *call : calls) {
            guard(call);
        }
        free_dominance_info(fn, CDI_DOMINATORS);
        return 0;
    }

private:
    static bool is_call_of(gimple *statement, tree routine)
    {
        return is_gimple_call(statement) && gimple_call_fndecl(statement) == routine;
    }

    /* Whether a call is outside all regions, in a function that no chart opens. */
    static bool says_nothing(gimple *call)
    {
        uint64_t mark = tree_to_uhwi(gimple_call_arg(call, 0));
        unsigned number = tree_to_uhwi(gimple_call_arg(call, 1));
        const routine_facts &facts = routines[marked[mark]];
        return !facts.binds && facts.nodes.count(number);
    }
};

void register_guards(const char *plugin)
{
    register_pass_info place;
    place.pass = new guards();
    place.reference_pass_name = "ssa";
    place.ref_pass_instance_number = 1;
    place.pos_op = PASS_POS_INSERT_BEFORE;
    register_callback(plugin, PLUGIN_PASS_MANAGER_SETUP, NULL, &place);
    register_callback(plugin, PLUGIN_REGISTER_GGC_ROOTS, NULL, const_cast<ggc_root_tab *>(roots));
}

}
