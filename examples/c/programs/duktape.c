/* Duktape: runs standard input as a script of ECMAScript, with a function `print`. */
#include <stdio.h>
#include "duktape.h"

static char script[40000];

static duk_ret_t print(duk_context *context) {
    duk_push_string(context, " ");
    duk_insert(context, 0);
    duk_join(context, duk_get_top(context) - 1);
    puts(duk_safe_to_string(context, -1));
    return 0;
}

int main(void) {
    size_t length = fread(script, 1, sizeof script, stdin);
    duk_context *context = duk_create_heap_default();
    if (context == NULL)
        return 1;
    duk_push_c_function(context, print, DUK_VARARGS);
    duk_put_global_string(context, "print");
    int failed = duk_peval_lstring(context, script, length);
    puts(duk_safe_to_string(context, -1));
    duk_destroy_heap(context);
    return failed;
}
