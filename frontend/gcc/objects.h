/* What a link takes in, as far as decisions go: marks and symbols of objects, archives and shared libraries. */
#ifndef BOHRALI_OBJECTS_H
#define BOHRALI_OBJECTS_H

#include <set>
#include <string>
#include <vector>

namespace flow {

/* An object, or a member of an archive. */
struct object {
    std::string name;
    std::vector<std::string> units; /* the hashes of the flows that it says it was made of */
    std::set<std::string> symbols, undefined;
};

/* The objects of a file; one without a mark and symbols where it is no ELF of this machine. */
std::vector<object> objects(const std::string &path);

}

#endif
