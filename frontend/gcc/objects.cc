#include "objects.h"

#include "decisions.h"

#include <cstring>
#include <elf.h>
#include <sstream>

namespace flow {

/* A record at a place of some bytes; false where it is not inside them. */
template <class record> static bool take(const std::string &bytes, size_t at, record &taken)
{
    if (at > bytes.size() || bytes.size() - at < sizeof taken) {
        return false;
    }
    memcpy(&taken, bytes.data() + at, sizeof taken);
    return true;
}

static std::string text(const std::string &bytes, size_t at)
{
    size_t end = at < bytes.size() ? bytes.find('\0', at) : std::string::npos;
    return end == std::string::npos ? "" : bytes.substr(at, end - at);
}

static std::string content(const std::string &bytes, const Elf64_Shdr &section)
{
    if (section.sh_type == SHT_NOBITS || section.sh_offset > bytes.size()) {
        return "";
    }
    return bytes.substr(section.sh_offset, section.sh_size);
}

static void read_symbols(const std::string &table, const std::string &names, object &read)
{
    Elf64_Sym symbol;
    for (size_t at = 0; take(table, at, symbol); at += sizeof symbol) {
        std::set<std::string> &kind = symbol.st_shndx == SHN_UNDEF ? read.undefined : read.symbols;
        kind.insert(text(names, symbol.st_name));
    }
}

static void read_mark(const std::string &mark, object &read)
{
    std::istringstream rows(mark);
    for (std::string word, unit; rows >> word >> unit;) {
        read.units.push_back(word == "unit" ? unit : "");
    }
}

static void read_elf(const std::string &bytes, object &read)
{
    Elf64_Ehdr header;
    if (!take(bytes, 0, header) || memcmp(header.e_ident, ELFMAG, SELFMAG) != 0
        || header.e_ident[EI_CLASS] != ELFCLASS64 || header.e_ident[EI_DATA] != ELFDATA2LSB) {
        return;
    }
    std::vector<Elf64_Shdr> sections;
    Elf64_Shdr section;
    size_t count = header.e_shnum;
    /* With very many sections the first one has their number. */
    if (count == 0 && header.e_shoff && take(bytes, header.e_shoff, section)) {
        count = section.sh_size;
    }
    for (size_t i = 0; i < count && take(bytes, header.e_shoff + i * sizeof section, section); i++) {
        sections.push_back(section);
    }
    size_t named = header.e_shstrndx == SHN_XINDEX && !sections.empty() ? sections[0].sh_link : header.e_shstrndx;
    const std::string names = named < sections.size() ? content(bytes, sections[named]) : "";
    for (const Elf64_Shdr &found : sections) {
        if (found.sh_type == SHT_SYMTAB || found.sh_type == SHT_DYNSYM) {
            const std::string strings = found.sh_link < sections.size() ? content(bytes, sections[found.sh_link]) : "";
            read_symbols(content(bytes, found), strings, read);
        } else if (text(names, found.sh_name) == BOHRALI_SECTION) {
            read_mark(content(bytes, found), read);
        }
    }
}

/* The members of an archive, past its index and its table of long names. */
static std::vector<object> members(const std::string &path, const std::string &bytes)
{
    const size_t header = 60, size_at = 48, size_length = 10;
    std::vector<object> read;
    for (size_t at = 8; at + header <= bytes.size();) {
        size_t length = strtoul(bytes.substr(at + size_at, size_length).c_str(), NULL, 10);
        if (bytes[at] != '/' || (bytes[at + 1] >= '0' && bytes[at + 1] <= '9')) {
            read.push_back({path + ", member " + std::to_string(read.size() + 1), {}, {}, {}});
            read_elf(bytes.substr(at + header, length), read.back());
        }
        at += header + length + length % 2;
    }
    return read;
}

std::vector<object> objects(const std::string &path)
{
    std::string bytes;
    contents(path.c_str(), bytes);
    if (bytes.compare(0, 8, "!<arch>\n") == 0) {
        return members(path, bytes);
    }
    std::vector<object> read(1, object{path, {}, {}, {}});
    read_elf(bytes, read.back());
    return read;
}

}
