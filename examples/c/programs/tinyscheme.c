/* TinyScheme: runs standard input as a program, whose first lines are TinyScheme's own init.scm. */
#include <stdio.h>
#include "scheme.h"

static char text[60000];

int main(void) {
    text[fread(text, 1, sizeof text - 1, stdin)] = 0;
    scheme *interpreter = scheme_init_new();
    if (interpreter == NULL)
        return 1;
    scheme_set_output_port_file(interpreter, stdout);
    scheme_load_string(interpreter, text);
    scheme_deinit(interpreter);
    return 0;
}
