/* pow and powf, which set errno. Newlib's own do so only in a mode where three of their results have the wrong sign: a power
   of 0 by a number below 0, and those of a number below 0 that are too large or too small. */
#include <errno.h>
#include <math.h>

double __ieee754_pow(double base, double exponent);
float __ieee754_powf(float base, float exponent);

static void tell_of(int has_no_power, int is_too_large, int is_too_small) {
    if (has_no_power)
        errno = EDOM;
    else if (is_too_large || is_too_small)
        errno = ERANGE;
}

double pow(double base, double exponent) {
    double power = __ieee754_pow(base, exponent);
    if (isfinite(base) && isfinite(exponent))
        tell_of(isnan(power), isinf(power), power == 0 && base != 0);
    return power;
}

float powf(float base, float exponent) {
    float power = __ieee754_powf(base, exponent);
    if (isfinite(base) && isfinite(exponent))
        tell_of(isnan(power), isinf(power), power == 0 && base != 0);
    return power;
}
