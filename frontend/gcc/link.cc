/* bohrali-link: gcc runs it in front of each of its programs (-wrapper). In front of the linker it holds everything that
 * is linked to the decisions that BOHRALI_DROP names; all other programs are run as they are.
 *
 * Decisions are about a whole program. Objects that have lost locks name a symbol of their decisions, which is defined
 * here and nowhere else: no other link takes them. */
#include "decisions.h"
#include "objects.h"

#include <climits>
#include <cstdio>
#include <cstdlib>
#include <cstring>
#include <fstream>
#include <sys/wait.h>
#include <unistd.h>

namespace {

typedef std::vector<std::string> words;

std::string real(const std::string &path)
{
    char full[PATH_MAX];
    return realpath(path.c_str(), full) ? full : path;
}

std::string folder(const std::string &path)
{
    size_t slash = path.rfind('/');
    return slash == std::string::npos ? "." : path.substr(0, slash);
}

bool is_inside(const std::string &path, const std::string &folder)
{
    return path.compare(0, folder.size() + 1, folder + "/") == 0;
}

/* Runs a command, with its standard output in a file if one is named; returns its status. */
int run(const words &command, const char *out)
{
    pid_t child = fork();
    if (child == 0) {
        if (out && !freopen(out, "w", stdout)) {
            _exit(1);
        }
        std::vector<char *> arguments;
        for (const std::string &word : command) {
            arguments.push_back(const_cast<char *>(word.c_str()));
        }
        arguments.push_back(NULL);
        execvp(arguments[0], arguments.data());
        fprintf(stderr, "bohrali-link: %s cannot be run: %s\n", arguments[0], strerror(errno));
        _exit(1);
    }
    int status = 1;
    return child > 0 && waitpid(child, &status, 0) == child && WIFEXITED(status) ? WEXITSTATUS(status) : 1;
}

/* The name of a critical as the assembler has it, out of that of a flow. */
std::string unescaped(const std::string &name)
{
    std::string text;
    for (size_t i = 0; i < name.size(); i++) {
        bool is_escape = name[i] == '%' && i + 2 < name.size();
        text += is_escape ? (char)strtoul(name.substr(i + 1, 2).c_str(), NULL, 16) : name[i];
        i += is_escape ? 2 : 0;
    }
    return text;
}

/* Whether an object takes the lock of a name: gcc's symbols for it, and LLVM's. */
bool takes(const flow::object &object, const std::string &name)
{
    const std::string lock = ".gomp_critical_user_" + unescaped(name);
    for (const std::set<std::string> *symbols : {&object.symbols, &object.undefined}) {
        std::set<std::string>::const_iterator longer = symbols->lower_bound(lock + ".");
        bool is_longer = longer != symbols->end() && longer->compare(0, lock.size() + 1, lock + ".") == 0;
        if (is_longer || (!name.empty() && symbols->count(lock))) {
            return true;
        }
    }
    return name.empty() && object.undefined.count("GOMP_critical_start");
}

class checking {
public:
    words problems;
    bool some_gone = false; /* whether an object has lost locks */

    checking(const flow::decisions &decided, const std::string &linker) : decided(decided)
    {
        for (const flow::decision &dropped : decided.dropped) {
            names.insert(dropped.name);
        }
        /* Where a compiler and the system keep their own. */
        outside = {"/usr/lib", "/lib", "/usr/lib64", "/lib64", real(folder(linker))};
        size_t programs = outside.back().find("/libexec/");
        if (programs != std::string::npos) {
            outside.push_back(std::string(outside.back()).replace(programs, 9, "/lib/"));
        }
        if (const char *vouched = getenv("BOHRALI_OUTSIDE")) {
            std::string paths = std::string(vouched) + ":";
            for (size_t at = 0, end; (end = paths.find(':', at)) != std::string::npos; at = end + 1) {
                named.insert(real(paths.substr(at, end - at)));
            }
        }
    }

    void input(const std::string &path)
    {
        bool is_outside = named.count(real(path));
        for (const std::string &folder : outside) {
            is_outside = is_outside || is_inside(real(path), folder);
        }
        for (const flow::object &object : flow::objects(path)) {
            some_gone = some_gone || object.undefined.count(BOHRALI_SYMBOL + decided.id);
            if (is_as_decided(object)) {
                continue;
            }
            if (!is_outside) {
                problems.push_back(object.name + " is not as decided: it was compiled without --drop, or has changed since");
            }
            for (const std::string &name : names) {
                if (is_outside && takes(object, name)) {
                    problems.push_back(object.name + " has a critical '" + name + "', and locks of that name are left out");
                }
            }
        }
    }

private:
    const flow::decisions &decided;
    std::set<std::string> names, named;
    words outside;

    bool is_as_decided(const flow::object &object) const
    {
        for (const std::string &unit : object.units) {
            if (!decided.units.count(unit)) {
                return false;
            }
        }
        return !object.units.empty();
    }
};

/* An object that defines the decisions' symbol. */
bool define(const std::string &id, const std::string &path)
{
    const std::string symbol = BOHRALI_SYMBOL + id;
    std::ofstream(path + ".s") << "\t.globl " << symbol << "\n\t.hidden " << symbol << "\n\t.section .rodata\n"
                               << symbol << ":\t.byte 0\n\t.section .note.GNU-stack,\"\",@progbits\n";
    return run({"as", "-o", path, path + ".s"}, NULL) == 0;
}

std::string output(const words &command)
{
    for (size_t i = 1; i + 1 < command.size(); i++) {
        if (command[i] == "-o") {
            return command[i + 1];
        }
    }
    return "a.out";
}

int report(const checking &checked, const char *path, const std::string &out)
{
    const char *kind = checked.some_gone ? "error" : "warning";
    for (const std::string &problem : checked.problems) {
        fprintf(stderr, "bohrali-link: %s: %s\n", kind, problem.c_str());
    }
    if (checked.problems.empty() || !checked.some_gone) {
        return 0;
    }
    fprintf(stderr, "bohrali-link: error: %s is not linked: locks were left out by %s, which is about another program; compile"
                    " all units, decide again and compile with that\n", out.c_str(), path);
    remove(out.c_str());
    return 1;
}

/* Links, in a folder for what is needed meanwhile, and checks what the linker says it has read. */
int link(words command, const flow::decisions &decided, const char *path, const std::string &temporary)
{
    const std::string defined = temporary + "/decided.o", read = temporary + "/read";
    checking checked(decided, command[0]);
    if (!define(decided.id, defined)) {
        return 1;
    }
    command.insert(command.end(), {defined, "-t"});
    int status = run(command, read.c_str());
    std::ifstream inputs(read);
    std::set<std::string> seen;
    for (std::string line; std::getline(inputs, line);) {
        if (access(line.c_str(), F_OK) != 0) {
            puts(line.c_str());
        } else if (seen.insert(line).second && line != defined) {
            checked.input(line);
        }
    }
    if (!seen.count(defined)) {
        checked.some_gone = true;
        checked.problems.push_back("the linker does not say what it reads, by -t");
    }
    return status != 0 ? status : report(checked, path, output(command));
}

/* One whose output is linked again: there it is checked. */
bool is_partial(const words &command)
{
    for (const std::string &word : command) {
        if (word == "-r" || word == "-Ur" || word == "-i" || word == "--relocatable") {
            return true;
        }
    }
    return false;
}

}

int main(int count, char **arguments)
{
    words command(arguments + 1, arguments + count);
    const char *path = getenv("BOHRALI_DROP");
    if (command.empty() || !path) {
        fprintf(stderr, "bohrali-link: gcc runs it, by the option --drop of bohrali-gcc\n");
        return 2;
    }
    flow::decisions decided;
    std::string why, program = command[0].substr(folder(command[0]).size());
    bool links = (program == "/collect2" || command[0] == "collect2") && !is_partial(command);
    if (links && !(why = decided.read(path)).empty()) {
        fprintf(stderr, "bohrali-link: warning: the decisions of '%s' are not used: %s\n", path, why.c_str());
    }
    if (!links || !why.empty()) {
        return run(command, NULL);
    }
    const char *below = getenv("TMPDIR");
    std::string temporary = std::string(below ? below : "/tmp") + "/bohrali-XXXXXX";
    if (!mkdtemp(&temporary[0])) {
        fprintf(stderr, "bohrali-link: no folder for temporary files: %s\n", strerror(errno));
        return 1;
    }
    int status = link(command, decided, path, temporary);
    for (const char *left : {"/decided.o", "/decided.o.s", "/read"}) {
        remove((temporary + left).c_str());
    }
    rmdir(temporary.c_str());
    return status;
}
