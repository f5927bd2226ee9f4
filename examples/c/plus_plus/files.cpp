// Files by streams: written, read by words and lines, appended to, read at places, in bytes, and those that aren't there.
#include <fstream>
#include <iomanip>
#include <iostream>
#include <iterator>
#include <string>
#include <vector>

namespace {

void write_rows(const std::string &name, int count) {
    std::ofstream out(name);
    for (int row = 0; row < count; row++)
        out << row << ' ' << std::setprecision(9) << row / 7.0 << " row" << row << '\n';
    out.flush();
    std::cout << name << ' ' << out.good() << ' ' << out.tellp() << '\n';
}

void read_rows(const std::string &name) {
    std::ifstream in(name);
    long numbers = 0;
    double sum = 0;
    std::string last;
    for (int number; in >> number;) {
        double value = 0;
        in >> value >> last;
        numbers += number;
        sum += value;
    }
    std::cout << numbers << ' ' << std::setprecision(12) << sum << ' ' << last << ' ' << in.eof() << '\n';
}

void read_at_places(const std::string &name) {
    std::fstream both(name, std::ios::in | std::ios::out);
    both.seekg(-40, std::ios::end);
    std::string line;
    std::getline(both, line);
    std::getline(both, line);
    std::cout << line << ' ' << both.tellg() << '\n';
    both.seekp(5);
    both << "changed";
    both.seekg(0);
    std::getline(both, line);
    std::cout << line << '\n';
    std::getline(both, line);
    std::cout << line << ' ' << both.good() << '\n';
}

void append(const std::string &name) {
    std::ofstream(name, std::ios::app) << "appended\n";
    std::ifstream in(name, std::ios::ate);
    std::cout << in.tellg() << ' ';
    in.seekg(0);
    int lines = 0;
    for (std::string line; std::getline(in, line);)
        lines++;
    std::cout << lines << '\n';
}

void copy_bytes(const std::string &from, const std::string &to) {
    std::ifstream in(from, std::ios::binary);
    std::ofstream(to, std::ios::binary) << in.rdbuf() << '\0' << '\xff';
    std::ifstream again(to, std::ios::binary);
    const std::vector<char> bytes{std::istreambuf_iterator<char>(again), std::istreambuf_iterator<char>()};
    unsigned sum = 0;
    for (const char byte : bytes)
        sum = sum * 31 + static_cast<unsigned char>(byte);
    std::cout << bytes.size() << ' ' << sum << '\n';
}

void try_missing() {
    std::ifstream missing("missing");
    std::cout << missing.is_open() << missing.fail() << '\n';
    missing.clear();
    missing.exceptions(std::ios::failbit);
    try {
        missing.open("missing");
    } catch (const std::ios_base::failure &) {
        std::cout << "failure\n";
    }
    std::ofstream below("no/such/folder");
    below << 1;
    std::cout << below.fail() << '\n';
}

} // namespace

int main(int count, char **words) {
    for (int index = 1; index < count; index++)
        std::cout << words[index] << '\n';
    write_rows("rows", 3000);
    read_rows("rows");
    read_at_places("rows");
    append("rows");
    copy_bytes("rows", "copy");
    try_missing();
}
