// What of the standard library is more than containers: types that hold others, numbers and run-time types.
#include <algorithm>
#include <any>
#include <atomic>
#include <bitset>
#include <charconv>
#include <chrono>
#include <complex>
#include <cstdio>
#include <memory>
#include <new>
#include <optional>
#include <queue>
#include <random>
#include <string>
#include <string_view>
#include <system_error>
#include <tuple>
#include <typeinfo>
#include <utility>
#include <valarray>
#include <variant>
#include <vector>

namespace {

struct Named {
    virtual ~Named() = default;
};

struct Counted {
    virtual ~Counted() = default;
    int count = 4;
};

struct Both : Named, Counted {};

struct alignas(64) Wide {
    char bytes[64];
};

void hold() {
    std::variant<int, std::string> held = "a text that has no room within";
    std::printf("%zu %s\n", held.index(), std::get<std::string>(held).c_str());
    std::visit([](const auto &value) { std::printf("%zu bytes\n", sizeof value > 4 ? std::size_t{5} : sizeof value); }, held);
    std::optional<std::pair<int, char>> none, some = std::make_pair(5, 'x');
    std::printf("%d %d %c\n", none.has_value(), some->first, some->second);
    std::any any = 3.5;
    std::printf("%g %d\n", std::any_cast<double>(any), std::any_cast<int>(&any) == nullptr);
    auto [first, second] = std::tuple(1, std::string_view("two words").substr(4));
    std::printf("%d %s\n", first, std::string(second).c_str());
}

void number() {
    std::mt19937 random(7);
    std::vector<unsigned> numbers(5);
    std::generate(numbers.begin(), numbers.end(), [&] { return static_cast<unsigned>(random() % 1000); });
    for (unsigned each : numbers)
        std::printf("%u ", each);
    char text[12] = {};
    std::to_chars(text, text + sizeof text, -12345);
    int back = 0;
    std::from_chars(text, text + 4, back);
    std::complex<double> square = std::complex<double>(1, 2) * std::complex<double>(1, 2);
    std::valarray<int> many{1, 2, 3};
    std::printf("%s %d %g%+gi %d\n", text, back, square.real(), square.imag(), (many * many).sum());
    std::atomic<long long> atomic{1ll << 40};
    atomic += 5;
    std::printf("%lld %d\n", atomic.load(), static_cast<int>(std::chrono::milliseconds(std::chrono::hours(1)).count()));
    std::printf("%zu %s\n", std::bitset<40>(0x5555).count(), std::make_error_code(std::errc::invalid_argument).message().c_str());
    std::priority_queue<int> queue(std::less<int>(), {3, 9, 2});
    std::printf("%d %zu\n", queue.top(), std::wstring(L"wide").size());
}

void tell_types() {
    std::unique_ptr<Named> named = std::make_unique<Both>();
    std::printf("%d %d\n", dynamic_cast<Counted *>(named.get())->count, dynamic_cast<Both *>(named.get()) != nullptr);
    std::printf("%d %d\n", typeid(*named) == typeid(Both), typeid(*named) == typeid(Named));
    std::shared_ptr<int> shared(new int(6), [](int *number) { std::printf("deleted %d\n", *number), delete number; });
    std::shared_ptr<void> erased = shared;
    named = std::make_unique<Named>();
    std::printf("%d\n", dynamic_cast<Both *>(named.get()) == nullptr);
}

void allocate() {
    Wide *wide = new Wide;
    std::printf("%u\n", static_cast<unsigned>(reinterpret_cast<std::size_t>(wide) % 64));
    delete wide;
    std::size_t most = ~std::size_t{0} / 4;
    char *none = new (std::nothrow) char[most];
    std::printf("%d\n", none == nullptr);
    delete[] none;
}

} // namespace

int main() {
    hold();
    number();
    tell_types();
    allocate();
    std::vector<int> numbers;
    numbers.reserve(~std::size_t{0} / 2);
    return 0;
}
