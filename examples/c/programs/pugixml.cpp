// pugixml: parses standard input, prints it, and evaluates XPath.
#include <cstdio>
#include <string>
#include "pugixml.hpp"

static char text[20000];

struct Output : pugi::xml_writer {
    void write(const void *bytes, std::size_t size) override { std::fwrite(bytes, 1, size, stdout); }
};

int main() {
    pugi::xml_document document;
    pugi::xml_parse_result result = document.load_buffer(text, std::fread(text, 1, sizeof text, stdin));
    std::printf("%s at %d\n", result.description(), static_cast<int>(result.offset));
    Output output;
    document.save(output, "  ");
    for (pugi::xpath_node found : document.select_nodes("//item[@price > 1.5]"))
        std::printf("%s: %g\n", found.node().child_value(), found.node().attribute("price").as_double());
    const std::string told = pugi::xpath_query("concat(count(//item), ' of ', /list/@kind, ', ', sum(//@price))").evaluate_string(document);
    std::printf("%s\n", told.c_str());
    document.child("list").append_child("last").append_attribute("half") = 0.5;
    document.save(output, "", pugi::format_raw);
    return !result;
}
