/* assert.h: the message goes to the output, since there is no other. */
#include "library.h"
#include <assert.h>
#include <stdio.h>
#include <stdlib.h>

OWN_GOES_FIRST void assertion_failed(const char *message) {
    puts(message);
    abort();
}
