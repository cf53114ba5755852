#include "text.h"

#include "decisions.h"

namespace flow {

static const char *const directive_names[] = {"parallel", "single",  "master",   "critical", "for",
                                              "ordered",  "sections", "section", "task",     "target",
                                              "teams",    "through", "loop"};

static const char *const node_names[] = {"plain", "call",  "barrier", "weak",
                                         "open",  "close", "entry",   "exit"};

std::string word(const std::string &text)
{
    std::string escaped;
    for (unsigned char byte : text) {
        if (ISALNUM(byte) || strchr("_-+./@~#=*", byte)) {
            escaped += byte;
        } else {
            char hex[4];
            snprintf(hex, sizeof hex, "%%%02X", byte);
            escaped += hex;
        }
    }
    return escaped;
}

bool text::begin(const std::string &path, const char *unit)
{
    file = fopen(path.c_str(), "w");
    out = file ? open_memstream(&bytes, &length) : NULL;
    if (!out) {
        return false;
    }
    std::string row = "unit " + word(unit) + "\n";
    fprintf(out, "bohrali-flow 1\n%s", row.c_str());
    own = hash_on(no_bytes, row.data(), row.size());
    return true;
}

/* A source line as FILE:LINE; the file is numbered where it is met first. */
std::string text::place(const std::string &file, int line)
{
    std::pair<std::map<std::string, int>::iterator, bool> at = files.emplace(file, files.size());
    if (at.second) {
        fprintf(out, "file %d %s\n", at.first->second, word(file).c_str());
    }
    return std::to_string(at.first->second) + ":" + std::to_string(line);
}

std::vector<int> numbers(const graph &graph)
{
    std::vector<int> named;
    int count = 0;
    for (const directive &d : graph.directives) {
        if (d.tail_of == OUTSIDE) {
            named.push_back(count++);
        } else {
            named.push_back(d.parent == OUTSIDE ? OUTSIDE : named[d.parent]);
        }
    }
    return named;
}

static int number_of(const std::vector<int> &named, context where)
{
    return where == OUTSIDE ? OUTSIDE : named[where];
}

uint64_t text::write(function *fn, const graph &graph)
{
    expanded_location at = expand_location(DECL_SOURCE_LOCATION(fn->decl));
    if (!at.file) {
        at.file = main_input_filename;
    }
    std::string rows = "function " + std::to_string(functions++) + " " + word(symbol(fn->decl)) + " "
                       + place(at.file, at.line) + (TREE_PUBLIC(fn->decl) ? " public\n" : "\n");
    if (graph.trouble.empty()) {
        std::vector<int> named = numbers(graph);
        rows += directive_rows(graph, named, at);
        rows += node_rows(graph, named);
        for (const std::pair<int, int> &edge : graph.edges) {
            rows += "edge " + std::to_string(edge.first) + " " + std::to_string(edge.second) + "\n";
        }
    } else {
        rows += "trouble " + graph.trouble + "\n";
    }
    rows += "end\n";
    fputs(rows.c_str(), out);
    return hash_on(own, rows.data(), rows.size());
}

std::string text::directive_rows(const graph &graph, const std::vector<int> &named,
                                 const expanded_location &fallback)
{
    std::string rows;
    for (const directive &d : graph.directives) {
        if (d.tail_of != OUTSIDE) {
            continue;
        }
        expanded_location at = expand_location(d.place);
        std::string where = at.file ? place(at.file, at.line) : place(fallback.file, fallback.line);
        rows += "dir " + std::to_string(named[&d - &graph.directives[0]]) + " "
                + directive_names[d.kind] + " " + std::to_string(number_of(named, d.parent)) + " "
                + where;
        const std::pair<bool, const char *> flags[] = {
            {d.flat, "flat"}, {d.ordered, "ordered"}, {d.cancel, "cancel"}, {d.early, "early"}};
        for (const std::pair<bool, const char *> &flag : flags) {
            if (flag.first) {
                rows += std::string(" ") + flag.second;
            }
        }
        if (!d.name.empty()) {
            rows += " name=" + word(d.name);
        }
        if (d.kind == MASTER) {
            rows += " filter=" + (d.filter.empty() ? "0" : d.filter);
        }
        if (!d.threads.empty()) {
            rows += " threads=" + d.threads;
        }
        rows += "\n";
    }
    return rows;
}

std::string text::node_rows(const graph &graph, const std::vector<int> &named)
{
    std::string rows;
    for (const node &n : graph.nodes) {
        std::string row = "node " + std::to_string(&n - &graph.nodes[0]) + " " + node_names[n.kind]
                          + " " + std::to_string(number_of(named, n.where));
        if (n.of != OUTSIDE) {
            row += " of=" + std::to_string(named[n.of]);
        }
        if (n.stop) {
            row += " stop";
        }
        if (graph.is_mute(n)) {
            row += " mute";
        }
        if (n.library) {
            row += " library";
        }
        if (!n.callee.empty()) {
            row += " callee=" + word(n.callee);
        }
        for (const std::pair<std::string, int> &line : n.lines) {
            row += " " + place(line.first, line.second);
        }
        rows += row + "\n";
    }
    return rows;
}

void text::alias(tree name, tree target)
{
    fprintf(out, "alias %s %s%s\n", word(symbol(name)).c_str(), word(symbol(target)).c_str(),
            TREE_PUBLIC(name) ? " public" : "");
}

std::string text::seal()
{
    if (fflush(out) != 0) {
        return "";
    }
    std::string sum = hash(bytes, length);
    fprintf(out, "hash %s\n", sum.c_str());
    return sum;
}

bool text::end()
{
    fprintf(out, "complete %d\n", functions);
    bool written = fclose(out) == 0;
    written = written && fwrite(bytes, 1, length, file) == length;
    written = fclose(file) == 0 && written;
    free(bytes);
    file = out = NULL;
    return written;
}

}
