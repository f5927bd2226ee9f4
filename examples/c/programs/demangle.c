/* The demangler of libiberty: each line of the input, demangled. */
#include <stdio.h>
#include <stdlib.h>
#include <string.h>
#include "demangle.h"

static void *sure(void *room) {
    if (room == NULL)
        abort();
    return room;
}

void *xmalloc(size_t size) {
    return sure(malloc(size));
}

void *xrealloc(void *old, size_t size) {
    return sure(realloc(old, size));
}

char *xstrdup(const char *text) {
    return strcpy(xmalloc(strlen(text) + 1), text);
}

void *xmemdup(const void *from, size_t size, size_t room) {
    return memcpy(memset(xmalloc(room), 0, room), from, size);
}

int main(void) {
    static char line[4096];
    while (fgets(line, sizeof line, stdin)) {
        line[strcspn(line, "\n")] = 0;
        char *plain = cplus_demangle(line, DMGL_PARAMS | DMGL_ANSI | DMGL_AUTO | DMGL_DLANG | DMGL_RUST);
        puts(plain ? plain : line);
        free(plain);
    }
    return 0;
}
