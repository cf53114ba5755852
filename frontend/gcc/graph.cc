/* The graph as a whole: blocks in the order in which they are reached, then the edges. */
#include "flow.h"

namespace flow {

std::string number(tree value)
{
    if (TREE_CODE(value) == INTEGER_CST && tree_fits_shwi_p(value)) {
        return std::to_string(tree_to_shwi(value));
    }
    return "?";
}

std::string symbol(tree declaration)
{
    const char *name = IDENTIFIER_POINTER(DECL_ASSEMBLER_NAME(declaration));
    /* A star in front says that the name was given by asm. */
    return *name == '*' ? name + 1 : name;
}

std::string line_of(location_t place)
{
    expanded_location at = expand_location(place);
    return at.file ? word(at.file) + ":" + std::to_string(at.line) : "";
}

void graph::give_up(const char *why)
{
    if (trouble.empty()) {
        trouble = why;
    }
}

int graph::add_node(node_kind kind, context where)
{
    node added;
    added.kind = kind;
    added.where = where;
    added.at = here;
    nodes.push_back(added);
    return nodes.size() - 1;
}

void graph::add_line(int node, location_t place)
{
    if (LOCATION_LOCUS(place) <= BUILTINS_LOCATION) {
        return;
    }
    expanded_location at = expand_location(place);
    if (at.file && at.line > 0) {
        nodes[node].lines.insert(std::make_pair(std::string(at.file), at.line));
    }
}

/* The flow goes on at this node. */
void graph::step(int node)
{
    edges.insert(std::make_pair(current, node));
    current = node;
}

void graph::go(int from, context leaving, basic_block to)
{
    ways.push_back({from, leaving, to});
    work.push_back(std::make_pair(to, leaving));
}

void graph::follow(basic_block block, context where)
{
    edge e;
    edge_iterator i;
    FOR_EACH_EDGE (e, i, block->succs) {
        go(current, where, e->dest);
    }
}

bool graph::encloses(context outer, context inner) const
{
    while (inner != OUTSIDE && inner != outer) {
        inner = directives[inner].parent;
    }
    return inner == outer;
}

context graph::region_of(const node &n) const
{
    bool is_end = n.kind == CLOSE && directives[n.of].kind == PARALLEL;
    for (context x = is_end ? n.of : n.where; x != OUTSIDE; x = directives[x].parent) {
        if (directives[x].tail_of == OUTSIDE && directives[x].kind == PARALLEL) {
            return x;
        }
    }
    return OUTSIDE;
}

bool graph::is_mute(const node &n) const
{
    if (n.kind == ENTRY || n.kind == EXIT) {
        return false;
    }
    /* The switch of a sections stands first behind its begin, and between the halves of an atomic
     * there is nothing but what they compute. */
    bool in_sections = n.kind == PLAIN && n.where != OUTSIDE && directives[n.where].kind == SECTIONS
                       && directives[n.where].tail_of == OUTSIDE;
    return !n.at.block || in_sections
           || (single_pred_p(n.at.block)
               && ends_with(single_pred(n.at.block), GIMPLE_OMP_ATOMIC_LOAD));
}

void graph::build()
{
    int entry = add_node(ENTRY, OUTSIDE), exit = add_node(EXIT, OUTSIDE);
    context_of[ENTRY_BLOCK] = context_of[EXIT_BLOCK] = OUTSIDE;
    entry_of[ENTRY_BLOCK] = entry;
    entry_of[EXIT_BLOCK] = exit;
    current = entry;
    add_line(entry, DECL_SOURCE_LOCATION(fn->decl));
    follow(ENTRY_BLOCK_PTR_FOR_FN(fn), OUTSIDE);
    while (!work.empty() && trouble.empty()) {
        std::pair<basic_block, context> next = work.back();
        work.pop_back();
        if (context_of.emplace(next.first->index, next.second).second) {
            walk(next.first, next.second);
        }
    }
    if (trouble.empty()) {
        lay_edges();
    }
}

void graph::lay_edges()
{
    for (const way &way : ways) {
        if (!lay_edge(way)) {
            return;
        }
    }
    basic_block block;
    FOR_EACH_BB_FN (block, fn) {
        if (context_of.count(block->index) && ends_with(block, GIMPLE_OMP_ATOMIC_LOAD)) {
            retry_atomic(block);
        }
    }
}

bool graph::lay_edge(const way &way)
{
    context arriving = context_of[way.to->index];
    int to = entry_of[way.to->index];
    if (way.to->index == EXIT_BLOCK && way.leaving != OUTSIDE) {
        give_up("a way out of a directive to the end of the function");
        return false;
    }
    /* Out of a directive's body to its tail leads through the closes. */
    if (arriving != way.leaving && arriving != OUTSIDE && directives[arriving].tail_of != OUTSIDE
        && encloses(directives[arriving].tail_of, way.leaving)) {
        int from = way.from;
        for (context x = way.leaving;; x = directives[x].parent) {
            if (directives[x].tail_of == OUTSIDE) {
                edges.insert(std::make_pair(from, close_of(x)));
                from = close_of(x);
            }
            if (x == directives[arriving].tail_of) {
                break;
            }
        }
        edges.insert(std::make_pair(from, to));
        return true;
    }
    /* A scope and a taskgroup are left anywhere. */
    context x = way.leaving;
    while (x != arriving && x != OUTSIDE && directives[x].kind == THROUGH) {
        x = directives[x].parent;
    }
    if (x != arriving) {
        give_up("a way between two directives");
        return false;
    }
    edges.insert(std::make_pair(way.from, to));
    return true;
}

/* An atomic that is no single instruction becomes a loop: read, compute, try to store, again. */
void graph::retry_atomic(basic_block load)
{
    std::set<int> seen;
    std::vector<basic_block> todo(1, load);
    edge e;
    edge_iterator i;
    while (!todo.empty()) {
        basic_block block = todo.back();
        todo.pop_back();
        if (block != load && ends_with(block, GIMPLE_OMP_ATOMIC_STORE)) {
            FOR_EACH_EDGE (e, i, load->succs) {
                edges.insert(std::make_pair(entry_of[block->index], entry_of[e->dest->index]));
            }
            continue;
        }
        FOR_EACH_EDGE (e, i, block->succs) {
            std::map<int, context>::iterator to = context_of.find(e->dest->index);
            if (to != context_of.end() && to->second == context_of[load->index]
                && seen.insert(e->dest->index).second) {
                todo.push_back(e->dest);
            }
        }
    }
}

}
