// JSON for Modern C++: parses standard input, changes it, and writes it as text and in bytes.
#include <cstdint>
#include <cstdio>
#include <string>
#include <vector>
#include <nlohmann/json.hpp>

using nlohmann::json;

int main() {
    std::string text;
    for (int letter = std::getchar(); letter != EOF; letter = std::getchar())
        text += static_cast<char>(letter);
    json read = json::parse(text, nullptr, false);
    if (read.is_discarded())
        return 1;
    std::printf("%s\n", read.dump(2).c_str());
    json changed = read;
    changed["added"] = {1, 2.5, "text", nullptr, true};
    for (const auto &entry : changed.items())
        std::printf("%s: %s\n", entry.key().c_str(), entry.value().type_name());
    const std::vector<std::uint8_t> packed = json::to_cbor(changed);
    std::printf("%zu %d\n", packed.size(), json::from_cbor(packed) == changed);
    std::printf("%s\n", json::diff(read, changed).dump().c_str());
    return 0;
}
