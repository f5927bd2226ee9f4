/* Ends as the first character of standard input says: by abort, exit, a failed assertion, or main's return. */
#include <assert.h>
#include <stdio.h>
#include <stdlib.h>

static int leave(int code) {
    if (code != 0)
        exit(code);
    return 1;
}

int main(int argc, char **argv) {
    int first = getchar();
    if (first == 'b')
        abort();
    if (first == 'e')
        leave(EXIT_FAILURE);
    assert(first != 'a');
    return argc == 1 && argv[0] && argv[1] == NULL ? 5 : 6;
}
