// What ends a program whose exception nothing catches.
#include <typeinfo>

namespace sandbox {

// Says what a host's library says of an exception that nothing catches, by its type and the object, and aborts.
[[noreturn]] void ended(const std::type_info &type, void *object);

// The same where there is none.
[[noreturn]] void ended();

} // namespace sandbox
