/* MuJS: runs standard input as a script of ECMAScript, with a function `print`. */
#include <stdio.h>
#include "mujs.h"

static char script[20000];

static void print(js_State *state) {
    for (int at = 1; at < js_gettop(state); at++)
        printf(at > 1 ? " %s" : "%s", js_tostring(state, at));
    puts("");
    js_pushundefined(state);
}

static void report(js_State *state, const char *fault) {
    (void)state;
    puts(fault);
}

int main(void) {
    script[fread(script, 1, sizeof script - 1, stdin)] = 0;
    js_State *state = js_newstate(NULL, NULL, JS_STRICT);
    if (state == NULL)
        return 1;
    js_setreport(state, report);
    js_newcfunction(state, print, "print", 0);
    js_setglobal(state, "print");
    int failed = js_dostring(state, script);
    js_freestate(state);
    return failed;
}
