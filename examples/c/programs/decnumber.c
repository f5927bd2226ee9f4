/* libdecnumber: square root, exponential, logarithm, power and quotient at 50 digits. */
#include <stdio.h>
#include "decNumber.h"

static decContext context;

static void show(const char *name, const decNumber *number) {
    char text[DECNUMDIGITS + 14];
    decNumberToString(number, text);
    printf("%s %s %08x\n", name, text, (unsigned)context.status);
}

int main(void) {
    decNumber two, seven, result;
    decContextDefault(&context, DEC_INIT_BASE);
    context.traps = 0;
    context.digits = DECNUMDIGITS;
    context.emax = 999999; /* more is refused by exp, ln and power */
    context.emin = -999999;
    decNumberFromString(&two, "2", &context);
    decNumberFromString(&seven, "-7.25e3", &context);
    show("sqrt", decNumberSquareRoot(&result, &two, &context));
    show("exp", decNumberExp(&result, &two, &context));
    show("ln", decNumberLn(&result, &two, &context));
    show("power", decNumberPower(&result, &seven, &two, &context));
    show("divide", decNumberDivide(&result, &two, &seven, &context));
    decNumberZero(&result);
    show("by zero", decNumberDivide(&result, &two, &result, &context));
    return 0;
}
