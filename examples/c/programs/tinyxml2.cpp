// TinyXML-2: parses standard input, prints it in both ways, and looks for elements.
#include <cstdio>
#include "tinyxml2.h"

static char text[20000];

int main() {
    std::size_t size = std::fread(text, 1, sizeof text - 1, stdin);
    tinyxml2::XMLDocument document;
    if (document.Parse(text, size) != tinyxml2::XML_SUCCESS) {
        std::printf("%s\n", document.ErrorStr());
        return 1;
    }
    for (int is_compact = 0; is_compact < 2; is_compact++) {
        tinyxml2::XMLPrinter printer(nullptr, is_compact);
        document.Print(&printer);
        std::printf("%s\n", printer.CStr());
    }
    tinyxml2::XMLElement *list = document.RootElement();
    double sum = 0;
    for (tinyxml2::XMLElement *item = list->FirstChildElement("item"); item; item = item->NextSiblingElement("item"))
        sum += item->DoubleAttribute("price");
    list->DeleteChild(list->FirstChildElement("item"));
    list->InsertNewChildElement("sum")->SetText(sum);
    tinyxml2::XMLPrinter printer;
    document.Print(&printer);
    std::printf("%s", printer.CStr());
    return 0;
}
