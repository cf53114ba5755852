#include "decisions.h"

#include <cerrno>
#include <cstdio>
#include <cstring>
#include <sstream>

namespace flow {

uint64_t hash_on(uint64_t from, const char *bytes, size_t length)
{
    for (size_t i = 0; i < length; i++) {
        from = (from ^ (unsigned char)bytes[i]) * 0x100000001b3;
    }
    return from;
}

std::string hash(const char *bytes, size_t length)
{
    char digits[17];
    snprintf(digits, sizeof digits, "%016llx", (unsigned long long)hash_on(no_bytes, bytes, length));
    return digits;
}

bool contents(const char *path, std::string &bytes)
{
    FILE *in = fopen(path, "rb");
    if (!in) {
        return false;
    }
    char part[65536];
    for (size_t read; (read = fread(part, 1, sizeof part, in)) > 0;) {
        bytes.append(part, read);
    }
    bool whole = !ferror(in);
    int why = errno;
    fclose(in);
    errno = why;
    return whole;
}

static std::vector<std::string> split(const std::string &row)
{
    std::istringstream in(row);
    std::vector<std::string> words;
    for (std::string word; in >> word;) {
        words.push_back(word);
    }
    return words;
}

/* The value behind KEY= among the words of a row. */
static std::string value(const std::vector<std::string> &words, const std::string &key)
{
    for (const std::string &word : words) {
        if (word.compare(0, key.size() + 1, key + "=") == 0) {
            return word.substr(key.size() + 1);
        }
    }
    return "";
}

std::string decisions::drop(const std::vector<std::string> &words)
{
    decision found;
    if (words.size() < 5) {
        return "a drop without its unit, function and place";
    }
    found.function = words[2];
    found.place = words[3];
    found.name = value(words, "name");
    found.number = value(words, "number");
    found.flow = value(words, "flow");
    found.rules = value(words, "rules");
    if (found.number.empty() || found.rules.empty() || !units.count(found.flow)) {
        return "a drop without its number, its rules or its unit's flow";
    }
    dropped.push_back(found);
    return "";
}

std::string decisions::row(const std::vector<std::string> &words)
{
    const std::string first = words.empty() ? "" : words[0];
    if (first == "fence" && words.size() == 2 && (words[1] == "full" || words[1] == "light")) {
        full = words[1] == "full";
        return "";
    }
    if (first == "unit" && words.size() == 3) {
        units.insert(words[1]);
        return "";
    }
    if (first == "drop") {
        return drop(words);
    }
    return first == "assumed" ? "" : "'" + first + "' is no row of it";
}

std::string decisions::read(const char *path)
{
    std::string text;
    if (!contents(path, text)) {
        return std::string("it cannot be read: ") + strerror(errno);
    }
    const std::string header = "bohrali-decisions 1\n";
    if (text.compare(0, header.size(), header) != 0) {
        return "it does not begin with 'bohrali-decisions 1'";
    }
    size_t last = text.rfind("\ncomplete ");
    if (last == std::string::npos || text.find('\n', last + 1) != text.size() - 1) {
        return "it is cut off: its last row is not 'complete'";
    }
    id = hash(text.data(), last + 1);
    if (split(text.substr(last + 1)) != std::vector<std::string>{"complete", id}) {
        return "it was changed after it was written";
    }
    std::istringstream rows(text.substr(header.size(), last + 1 - header.size()));
    for (std::string line; std::getline(rows, line);) {
        std::string why = row(split(line));
        if (!why.empty()) {
            return why;
        }
    }
    return "";
}

}
