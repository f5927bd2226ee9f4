/* Reads each XML file that is named, and prints its elements, by their depth, and how much text it has. */
#include <stdio.h>
#include <string.h>

#include "expat.h"

struct found {
    int depth;
    unsigned long text;
};

static void begin(void *context, const XML_Char *name, const XML_Char **attributes) {
    struct found *found = context;
    printf("%*s%s", found->depth++ * 2, "", name);
    for (; attributes[0]; attributes += 2)
        printf(" %s=%s", attributes[0], attributes[1]);
    printf("\n");
}

static void end(void *context, const XML_Char *name) {
    (void)name;
    ((struct found *)context)->depth--;
}

static void text(void *context, const XML_Char *bytes, int count) {
    (void)bytes;
    ((struct found *)context)->text += count;
}

static int read_file(const char *path) {
    char block[4096];
    struct found found = {0, 0};
    size_t count;
    FILE *file = fopen(path, "rb");
    XML_Parser parser = XML_ParserCreate(NULL);
    int is_right = file != NULL && parser != NULL;
    XML_SetUserData(parser, &found);
    XML_SetElementHandler(parser, begin, end);
    XML_SetCharacterDataHandler(parser, text);
    while (is_right && (count = fread(block, 1, sizeof block, file)) > 0)
        is_right = XML_Parse(parser, block, (int)count, 0) == XML_STATUS_OK;
    is_right = is_right && XML_Parse(parser, "", 0, 1) == XML_STATUS_OK;
    printf("%s: %lu bytes of text, %s\n", path, found.text, is_right ? "right" : XML_ErrorString(XML_GetErrorCode(parser)));
    XML_ParserFree(parser);
    if (file)
        fclose(file);
    return !is_right;
}

int main(int count, char **paths) {
    int wrong = 0;
    for (int index = 1; index < count; index++)
        wrong |= read_file(paths[index]);
    return wrong;
}
