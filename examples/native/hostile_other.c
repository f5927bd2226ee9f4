#define _GNU_SOURCE
#include "hostile.h"
#include "hostile_other.h"

int is_other_right(const uint8_t *bytes, size_t size, uint32_t rounds, int ending) {
    if (code.text == NULL && !sfi_map_code(bytes, size, sandbox, 1, &code))
        return 0;
    try_run(rounds, ending, 1000000, "the other copy's run");
    return failures == 0;
}
