/* GCC plugin: writes the control flow of each function, for each unit a file beside the object. */
#include "dropping.h"
#include "recording.h"
#include "text.h"

int plugin_is_GPL_compatible;

namespace {

flow::text unit;
flow::dropping locks;
bool begun, failed;

/* Whether the command links: GCC's names for what it writes then begin with the program's, as p-,
 * and the last part of a source's path follows. */
bool links()
{
    size_t length = dump_dir_name ? strlen(dump_dir_name) : 0;
    return length && !IS_DIR_SEPARATOR(dump_dir_name[length - 1]);
}

/* A path as a part of a file's name, for each path another. */
std::string in_name(const std::string &path)
{
    std::string name;
    for (char byte : path) {
        switch (byte) {
        case '/': name += '#'; break;
        case '#': name += "%23"; break;
        case '%': name += "%25"; break;
        default: name += byte;
        }
    }
    return name;
}

/* Beside the object, as GCC names its own: obj/a.o gives obj/a.flow. Sources of a command that links
 * have none, and may be of one base name: dir/a.c in the program p gives p-dir#a.c.flow. */
std::string path()
{
    std::string base = aux_base_name;
    if (links()) {
        base = dump_dir_name + in_name(main_input_filename);
    }
    return base + ".flow";
}

/* A build goes on without the flow; the reader then knows the unit's routines by name alone. */
void begin()
{
    if (begun) {
        return;
    }
    begun = true;
    failed = !unit.begin(path(), main_input_filename);
    if (failed) {
        inform(UNKNOWN_LOCATION, "bohrali: cannot write %s: %m", path().c_str());
    }
}

const pass_data description = {
    GIMPLE_PASS, "flow", OPTGROUP_NONE, TV_NONE, PROP_gimple_any | PROP_cfg, 0, 0, 0, 0};

class pass : public gimple_opt_pass {
public:
    pass() : gimple_opt_pass(description, g) {}

    bool gate(function *) final override { return !seen_error(); }

    unsigned execute(function *fn) final override
    {
        begin();
        flow::graph graph(fn);
        if (!failed) {
            uint64_t mark = unit.write(fn, graph);
            if (recording::is_wanted()) {
                recording::insert(fn, graph, mark);
            }
        }
        locks.meet(fn, graph);
        return 0;
    }
};

/* Other names of a routine: constructors that are one, and the attribute alias. */
void write_aliases()
{
    symtab_node *node;
    FOR_EACH_SYMBOL (node) {
        if (failed || !node->alias || TREE_CODE(node->decl) != FUNCTION_DECL) {
            continue;
        }
        symtab_node *target = node->ultimate_alias_target();
        if (target && target != node) {
            unit.alias(node->decl, target->decl);
        }
    }
}

/* All functions of the unit are lowered. */
void lowered(void *, void *)
{
    /* At link time the flows are there already. */
    if (in_lto_p) {
        return;
    }
    begin();
    write_aliases();
    locks.drop(failed ? "" : unit.seal());
}

void keep_alive(void *, void *)
{
    locks.keep_alive();
}

void finish(void *, void *)
{
    locks.mark();
    if (!begun || failed) {
        return;
    }
    if (!unit.end() || seen_error()) {
        remove(path().c_str());
    }
}

}

int plugin_init(plugin_name_args *info, plugin_gcc_version *version)
{
    if (!plugin_default_version_check(version, &gcc_version)) {
        error("bohrali: this plugin is built for gcc %s, the compiler is %s", gcc_version.basever,
              version->basever);
        return 1;
    }
    register_pass_info place;
    place.pass = new pass();
    place.reference_pass_name = "ompexp";
    place.ref_pass_instance_number = 1;
    place.pos_op = PASS_POS_INSERT_BEFORE;
    register_callback(info->base_name, PLUGIN_PASS_MANAGER_SETUP, NULL, &place);
    if (recording::is_wanted()) {
        recording::register_guards(info->base_name);
    }
    register_callback(info->base_name, PLUGIN_ALL_IPA_PASSES_START, lowered, NULL);
    locks.begin();
    register_callback(info->base_name, PLUGIN_GGC_MARKING, keep_alive, NULL);
    register_callback(info->base_name, PLUGIN_FINISH_UNIT, finish, NULL);
    return 0;
}
