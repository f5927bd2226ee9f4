// Counts the words of standard input by containers, and shows what of the standard library a sandboxed program may have.
#include <algorithm>
#include <array>
#include <cstdio>
#include <deque>
#include <functional>
#include <list>
#include <map>
#include <memory>
#include <numeric>
#include <set>
#include <stdexcept>
#include <string>
#include <unordered_map>
#include <vector>

namespace {

struct Shape {
    virtual ~Shape() = default;
    virtual std::string name() const = 0;
    virtual double area() const = 0;
};

struct Square : Shape {
    explicit Square(double side) : side(side) {}
    ~Square() override { std::printf("gone: %s\n", name().c_str()); }
    std::string name() const override { return "square of " + std::to_string(side); }
    double area() const override { return side * side; }
    double side;
};

struct Circle : Shape {
    explicit Circle(double radius) : radius(radius) {}
    ~Circle() override { std::printf("gone: %s\n", name().c_str()); }
    std::string name() const override { return "circle of " + std::to_string(radius); }
    double area() const override { return 3.25 * radius * radius; }
    double radius;
};

// Made before main, and gone after it.
struct Told {
    explicit Told(std::string text) : text(std::move(text)) { std::printf("begins: %s\n", this->text.c_str()); }
    ~Told() { std::printf("ends: %s\n", text.c_str()); }
    std::string text;
};

const Told first("the first of two objects of this file"), second("the second");

std::string input() {
    std::string text;
    for (int letter = std::getchar(); letter != EOF; letter = std::getchar())
        text += static_cast<char>(letter);
    return text;
}

std::vector<std::string> words_of(const std::string &text) {
    std::vector<std::string> words;
    for (std::size_t at = 0; (at = text.find_first_not_of(" \n", at)) != std::string::npos;) {
        std::size_t end = std::min(text.find_first_of(" \n", at), text.size());
        words.push_back(text.substr(at, end - at));
        at = end;
    }
    return words;
}

void count(const std::vector<std::string> &words) {
    std::unordered_map<std::string, int> counts;
    std::map<std::size_t, std::set<std::string>> by_length;
    for (const std::string &word : words) {
        counts[word]++;
        by_length[word.size()].insert(word);
    }
    std::vector<std::pair<std::string, int>> sorted(counts.begin(), counts.end());
    std::sort(sorted.begin(), sorted.end(), [](const auto &left, const auto &right) {
        return left.second != right.second ? left.second > right.second : left.first < right.first;
    });
    for (std::size_t at = 0; at < std::min<std::size_t>(sorted.size(), 5); at++)
        std::printf("%d %s\n", sorted[at].second, sorted[at].first.c_str());
    for (const auto &entry : by_length)
        std::printf("%zu: %zu, %s\n", entry.first, entry.second.size(), entry.second.begin()->c_str());
}

void share() {
    std::vector<std::unique_ptr<Shape>> own;
    own.push_back(std::make_unique<Square>(1.5));
    own.push_back(std::make_unique<Circle>(2));
    std::shared_ptr<Shape> shared = std::make_shared<Square>(4);
    std::weak_ptr<Shape> watched = shared;
    std::vector<std::shared_ptr<Shape>> holders(3, shared);
    std::printf("%ld holders\n", shared.use_count());
    double area = std::accumulate(own.begin(), own.end(), 0.0, [](double sum, const auto &shape) { return sum + shape->area(); });
    std::printf("%.3f\n", area);
    shared.reset();
    holders.clear();
    std::printf("expired: %d\n", watched.expired());
}

void arrange() {
    std::deque<int> queue;
    std::list<int> list{5, 3, 9, 1};
    for (int number : list)
        number % 2 ? queue.push_front(number) : queue.push_back(number);
    list.sort();
    list.splice(list.begin(), std::list<int>{8, 7});
    std::array<int, 6> numbers{};
    std::copy(list.begin(), list.end(), numbers.begin());
    std::function<int(int)> twice = [](int number) { return 2 * number; };
    std::transform(numbers.begin(), numbers.end(), numbers.begin(), twice);
    std::stable_sort(numbers.begin(), numbers.end(), std::greater<int>());
    for (int number : numbers)
        std::printf("%d ", number);
    std::printf("| %d %d\n", queue.front(), queue.back());
    std::printf("%d %.2f %s\n", std::stoi("-42"), std::stod("2.5e3"), std::runtime_error("an error's text").what());
}

} // namespace

int main() {
    std::vector<std::string> words = words_of(input());
    std::printf("%zu words\n", words.size());
    count(words);
    share();
    arrange();
    if (words.empty())
        std::printf("%s\n", words.at(3).c_str());
    return static_cast<int>(words.size() % 100);
}
