// Throws and catches: through frames with objects to destroy, through the C library, by bases, again, and out of std's own functions.
#include <algorithm>
#include <any>
#include <cstdio>
#include <cstdlib>
#include <exception>
#include <functional>
#include <map>
#include <memory>
#include <new>
#include <optional>
#include <stdexcept>
#include <string>
#include <typeinfo>
#include <variant>
#include <vector>

namespace {

struct Told {
    explicit Told(std::string text) : text(std::move(text)) {}
    Told(const Told &other) : text(other.text + "'") {}
    ~Told() { std::printf("  gone: %s\n", text.c_str()); }
    std::string text;
};

struct Marked {
    virtual ~Marked() = default;
    int mark = 7;
};

struct Failure : Marked, std::runtime_error {
    explicit Failure(int number) : std::runtime_error("failure " + std::to_string(number)), number(number) {}
    int number;
};

// What is called when something is thrown, as the functions of std and the language throw it.
struct Case {
    const char *name;
    std::function<void()> act;
};

int depth(int levels, int from) {
    Told told("level " + std::to_string(levels));
    if (levels == 0)
        throw Failure(from);
    return depth(levels - 1, from) + 1;
}

// The registers that a compiler keeps across calls hold their values where an exception leads to.
long mixed(const std::vector<int> &numbers) {
    long sum = 0, caught = 0, product = 1;
    for (std::size_t at = 0; at < numbers.size() + 2; at++) {
        try {
            sum += numbers.at(at);
            product = product * 3 + numbers[at] % 5;
            if (numbers[at] % 3 == 0)
                throw numbers[at];
            caught += 1000;
        } catch (int number) {
            caught += number;
        } catch (const std::out_of_range &) {
            product ^= static_cast<long>(at);
        }
    }
    return sum * 1000003 + caught * 31 + product;
}

int compared(const void *left, const void *right) {
    int one = *static_cast<const int *>(left), other = *static_cast<const int *>(right);
    if (one == 4 || other == 4)
        throw std::string("qsort met a 4");
    return one - other;
}

void sort_by_c() {
    int numbers[] = {3, 9, 4, 1};
    Told told("around qsort");
    std::qsort(numbers, 4, sizeof *numbers, compared);
}

void throw_again() {
    try {
        depth(1, 5);
    } catch (Failure &failure) {
        failure.number *= 2;
        std::printf("  once: %s\n", failure.what());
        throw;
    }
}

void nest() {
    try {
        depth(0, 6);
    } catch (...) {
        std::throw_with_nested(std::logic_error("around it"));
    }
}

void tell_nested(const std::exception &given) {
    std::printf("  nested: %s\n", given.what());
    try {
        std::rethrow_if_nested(given);
    } catch (const std::exception &inner) {
        tell_nested(inner);
    }
}

struct Member {
    explicit Member(int number) : told("a member"), number(number) {
        if (number > 2)
            throw Failure(number);
    }
    Told told;
    int number;
};

struct Owner {
    explicit Owner(int number) try : first("first"), member(number) {
    } catch (const Failure &failure) {
        std::printf("  of the constructor: %s\n", failure.what());
    }
    Told first;
    Member member;
};

const std::vector<Case> &cases() {
    static const std::vector<Case> all{
        {"at", [] { std::vector<int>(3).at(5); }},
        {"string", [] { std::string("ab").substr(4); }},
        {"map", [] { std::map<int, int>().at(1); }},
        {"stoi", [] { std::stoi("none"); }},
        {"stoi's range", [] { std::stoi("99999999999"); }},
        {"new", [] { ::operator delete(::operator new(~std::size_t{0} / 2)); }},
        {"length", [] { std::vector<int>().reserve(~std::size_t{0} / 2); }},
        {"cast", [] { Marked marked; (void)dynamic_cast<Failure &>(marked); }},
        {"typeid", [] { Marked *none = nullptr; (void)typeid(*none).name(); }},
        {"variant", [] { std::variant<int, char> held = 'a'; (void)std::get<int>(held); }},
        {"optional", [] { (void)std::optional<int>().value(); }},
        {"any", [] { (void)std::any_cast<int>(std::any(2.0)); }},
        {"function", [] { std::function<void()>()(); }},
        {"weak", [] { std::shared_ptr<int>(std::weak_ptr<int>()); }},
        {"deep", [] { depth(4, 1); }},
        {"owner", [] { Owner(5); }},
        {"by C", sort_by_c},
        {"again", throw_again},
        {"nested", nest},
        {"text", [] { throw "a text"; }},
        {"pointer", [] { static Failure kept(9); throw &kept; }},
        {"number", [] { throw 5ll; }},
    };
    return all;
}

void catch_each() {
    for (const Case &each : cases()) {
        std::printf("%s\n", each.name);
        try {
            each.act();
            std::printf("  nothing\n");
        } catch (const Marked &marked) {
            std::printf("  marked %d, %d\n", marked.mark, dynamic_cast<const Failure &>(marked).number);
        } catch (const std::logic_error &error) {
            std::printf("  logic: %s\n", error.what());
            tell_nested(error);
        } catch (const std::exception &error) {
            std::printf("  other: %s\n", error.what());
        } catch (const std::string &text) {
            std::printf("  string: %s\n", text.c_str());
        } catch (const char *text) {
            std::printf("  text: %s\n", text);
        } catch (const Marked *marked) {
            std::printf("  pointer: %d\n", marked->mark);
        } catch (...) {
            std::printf("  something\n");
        }
    }
}

std::exception_ptr kept() {
    try {
        depth(1, 3);
    } catch (...) {
        return std::current_exception();
    }
    return nullptr;
}

} // namespace

int main(int argc, char **) {
    catch_each();
    std::exception_ptr later = kept();
    for (int round = 0; round < 2; round++)
        try {
            std::rethrow_exception(later);
        } catch (const std::runtime_error &error) {
            std::printf("later: %s, %d\n", error.what(), std::uncaught_exceptions());
        }
    std::printf("%ld\n", mixed({4, 9, 12, 7, 30, 2, 2, 5, 27}));
    std::vector<std::unique_ptr<Told>> all;
    for (const char *text : {"one", "two"})
        all.push_back(std::make_unique<Told>(text));
    if (argc > 0) // nothing catches it, and nothing is destroyed
        throw Failure(static_cast<int>(all.size()));
    return 0;
}
