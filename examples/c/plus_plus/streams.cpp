// Text by streams: numbers, words and lines in and out, manipulators, strings as streams, and regular expressions.
#include <algorithm>
#include <iomanip>
#include <iostream>
#include <iterator>
#include <limits>
#include <locale>
#include <map>
#include <memory>
#include <regex>
#include <sstream>
#include <stdexcept>
#include <string>
#include <vector>

namespace {

struct Shape {
    virtual ~Shape() = default;
    virtual double area() const = 0;
    virtual void tell(std::ostream &out) const = 0;
};

std::ostream &operator<<(std::ostream &out, const Shape &shape) {
    shape.tell(out);
    return out << " of " << shape.area();
}

struct Circle : Shape {
    explicit Circle(double radius) : radius(radius) {}
    double area() const override { return 3.14159265358979 * radius * radius; }
    void tell(std::ostream &out) const override { out << "circle " << radius; }
    double radius;
};

struct Box : Shape {
    Box(double width, double height) : width(width), height(height) {}
    double area() const override { return width * height; }
    void tell(std::ostream &out) const override { out << "box " << width << 'x' << height; }
    double width, height;
};

struct Point {
    int x = 0, y = 0;
};

std::istream &operator>>(std::istream &in, Point &point) {
    char open = 0, comma = 0, close = 0;
    if (in >> open >> point.x >> comma >> point.y >> close && (open != '(' || comma != ',' || close != ')'))
        in.setstate(std::ios::failbit);
    return in;
}

void tell_shapes() {
    std::vector<std::unique_ptr<Shape>> shapes;
    shapes.push_back(std::make_unique<Circle>(1.5));
    shapes.push_back(std::make_unique<Box>(2, 0.125));
    shapes.push_back(std::make_unique<Box>(1e7, 1e-3));
    std::sort(shapes.begin(), shapes.end(), [](const auto &one, const auto &other) { return one->area() < other->area(); });
    for (const auto &shape : shapes)
        std::cout << *shape << '\n';
    auto shared = std::make_shared<Circle>(2);
    std::shared_ptr<const Shape> other = shared;
    std::cout << *other << ", " << shared.use_count() << " owners" << std::endl;
}

void tell_numbers() {
    std::cout << std::hex << std::showbase << 255 << ' ' << std::oct << 8u << ' ' << std::dec << -9223372036854775807ll - 1 << ' '
              << 18446744073709551615ull << ' ' << std::uppercase << std::hex << 0xabcdefu << std::dec << std::nouppercase << '\n';
    std::cout << std::setw(8) << 42 << '|' << std::left << std::setw(8) << -42 << '|' << std::internal << std::setfill('0')
              << std::setw(8) << -42 << '|' << std::right << std::setfill(' ') << std::setw(6) << "ab" << '|' << '\n';
    for (double value : {0.0, -0.0, 1.0 / 3, 1e100, 6.02214076e23, 2.5e-10, 123456789.0})
        std::cout << value << ' ' << std::fixed << std::setprecision(3) << value << ' ' << std::scientific << value << ' '
                  << std::hexfloat << value << std::defaultfloat << std::setprecision(6) << '\n';
    std::cout << std::numeric_limits<double>::infinity() << ' ' << std::showpos << 1 << ' ' << 1.5f << std::noshowpos << ' '
              << std::boolalpha << true << false << std::noboolalpha << true << ' ' << std::showpoint << 2.0 << std::noshowpoint << '\n';
    std::cout << std::quoted("a \"quoted\" \\ text") << ' ' << static_cast<const void *>(nullptr) << ' ' << 'c' << '\n';
}

void read_numbers() {
    std::istringstream in("12 -7 0x1f 3.25e2 true (3, -4) word 99999999999 rest of it");
    int one = 0, other = 0, far = 0;
    unsigned hexadecimal = 0;
    double real = 0;
    bool flag = false;
    Point point;
    std::string word, rest;
    in >> one >> other >> std::hex >> hexadecimal >> std::dec >> real >> std::boolalpha >> flag >> point >> word;
    std::cout << one << ' ' << other << ' ' << hexadecimal << ' ' << real << ' ' << flag << ' ' << point.x << ',' << point.y << ' '
              << word << ' ' << in.good() << '\n';
    in >> far;
    std::cout << far << ' ' << in.fail() << in.eof() << in.bad() << '\n';
    in.clear();
    std::getline(in >> std::ws, rest);
    std::cout << '[' << rest << "] " << in.eof() << '\n';
}

void move_about() {
    std::stringstream both;
    both << "one,two,,three";
    for (std::string part; std::getline(both, part, ',');)
        std::cout << '<' << part << '>';
    both.clear();
    both.seekg(4);
    std::cout << ' ' << static_cast<char>(both.peek()) << ' ' << both.tellg();
    both.seekp(0);
    both << "ONE";
    std::cout << ' ' << both.str() << ' ' << both.str().size() << '\n';
    std::istringstream numbers("5 3 9 1");
    std::vector<int> sorted{std::istream_iterator<int>(numbers), std::istream_iterator<int>()};
    std::sort(sorted.begin(), sorted.end());
    std::copy(sorted.begin(), sorted.end(), std::ostream_iterator<int>(std::cout, ";"));
    std::cout << '\n';
}

// What std's number facet asks for.
struct Grouped : std::numpunct<char> {
    char do_decimal_point() const override { return ','; }
    char do_thousands_sep() const override { return '.'; }
    std::string do_grouping() const override { return "\3"; }
    std::string do_truename() const override { return "yes"; }
};

void tell_locales() {
    std::ostringstream out;
    out.imbue(std::locale(std::locale::classic(), new Grouped));
    out << 1234567 << ' ' << 9876.5 << ' ' << std::boolalpha << true;
    std::istringstream in("7.654.321");
    in.imbue(out.getloc());
    int number = 0;
    in >> number;
    std::cout << out.str() << ' ' << number << ' ' << std::locale().name() << ' ' << std::locale("C").name() << ' '
              << std::toupper('q', std::locale()) << std::isdigit('7', std::locale()) << '\n';
    try {
        std::locale none("xx_YY");
    } catch (const std::runtime_error &) {
        std::cout << "no such locale\n";
    }
}

void throw_by_streams() {
    std::istringstream in("text");
    in.exceptions(std::ios::failbit);
    int number = 0;
    try {
        in >> number;
    } catch (const std::ios_base::failure &failure) {
        std::cout << "failure: " << failure.what() << ", " << failure.code().category().name() << '\n';
    }
}

void find_pairs() {
    const std::string text = "key=value; other = thing; none";
    const std::regex pair("(\\w+) *= *(\\w+)");
    for (std::sregex_iterator found(text.begin(), text.end(), pair), end; found != end; ++found)
        std::cout << (*found)[1] << "->" << (*found)[2] << '\n';
    try {
        std::regex broken("(");
    } catch (const std::regex_error &error) {
        std::cout << (error.code() == std::regex_constants::error_paren) << '\n';
    }
}

void count_words() {
    std::map<std::string, int> counts;
    std::size_t lines = 0;
    for (std::string line, word; std::getline(std::cin, line); lines++)
        for (std::istringstream words(line); words >> word;)
            counts[word]++;
    std::vector<std::pair<std::string, int>> most(counts.begin(), counts.end());
    std::stable_sort(most.begin(), most.end(), [](const auto &one, const auto &other) { return one.second > other.second; });
    std::cout << lines << " lines, " << counts.size() << " words\n";
    for (std::size_t at = 0; at < most.size() && at < 5; at++)
        std::cout << std::setw(5) << most[at].second << "  " << most[at].first << '\n';
    std::clog << "read all" << std::endl;
}

} // namespace

int main() {
    tell_shapes();
    tell_numbers();
    read_numbers();
    move_about();
    tell_locales();
    throw_by_streams();
    find_pairs();
    count_words();
    std::cerr << "done " << 1 << '\n';
    return std::cin.eof() ? 0 : 1;
}
