#include <cstdlib>
#include <cstring>
#include <exception>
#include <unistd.h>
#include "ended.h"

namespace {

const char *const PLAIN[][2] = {{"i", "int"}, {"j", "unsigned int"}, {"l", "long"}, {"m", "unsigned long"}, {"c", "char"},
                                {"b", "bool"}, {"d", "double"}, {"f", "float"}, {"PKc", "char const*"}};
const char UNNAMED[] = "_GLOBAL__N_1"; // how the namespace without a name is encoded

void tell(const char *text, std::size_t size) {
    write(STDERR_FILENO, text, size);
}

void tell(const char *text) {
    tell(text, std::strlen(text));
}

void tell_part(const char *part, std::size_t size) {
    if (size == sizeof UNNAMED - 1 && std::memcmp(part, UNNAMED, size) == 0)
        tell("(anonymous namespace)");
    else
        tell(part, size);
}

// Whether a type's encoded name has nothing but names, each after its length, with those of namespaces first. If asked to,
// tells them.
bool has_parts_alone(const char *name, bool is_told) {
    bool is_nested = *name == 'N';
    name += is_nested;
    bool is_std = std::strncmp(name, "St", 2) == 0;
    name += 2 * is_std;
    for (const char *before = is_std ? "std::" : ""; *name >= '1' && *name <= '9'; before = "::") {
        char *part;
        std::size_t size = std::strtoul(name, &part, 10);
        if (is_told) {
            tell(before);
            tell_part(part, size);
        }
        name = part + size;
    }
    return std::strcmp(name, is_nested ? "E" : "") == 0;
}

// Tells a type as it is written where that takes no more than the above, and else as it is encoded.
void tell_type(const char *name) {
    for (const auto &[encoded, written] : PLAIN)
        if (std::strcmp(name, encoded) == 0)
            return tell(written);
    if (has_parts_alone(name, false))
        has_parts_alone(name, true);
    else
        tell(name);
}

} // namespace

void sandbox::ended(const std::type_info &type, void *object) {
    tell("terminate called after throwing an instance of '");
    tell_type(type.name());
    tell("'\n");
    if (typeid(std::exception).__do_catch(&type, &object, 1)) {
        tell("  what():  ");
        tell(static_cast<std::exception *>(object)->what());
        tell("\n");
    }
    std::abort();
}

void sandbox::ended() {
    tell("terminate called without an active exception\n");
    std::abort();
}
