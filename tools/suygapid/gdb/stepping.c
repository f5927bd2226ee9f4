/* Single steps of a sandbox, over the calls of libsfi_run that Python hands over: some million a second, where Python makes
   thirty thousand. tools/suygapid/gdb/stepping.py says what they are for. Nothing here is proved, or trusted with more than what
   the calls themselves let through. */
#include <stdbool.h>
#include <stddef.h>
#include <stdint.h>
#include <string.h>

struct event {
    uint32_t kind, number, gate, pc, a[8];
}; /* struct sfi_run_event */

enum { READY = 1 };

typedef uint32_t turn(void *world, uint32_t sandbox, uint32_t steps, struct event *event);
typedef bool read_bytes(void *world, uint32_t sandbox, uint32_t at, size_t length, uint8_t *bytes, size_t room);

struct place {
    uint32_t at, count;
    uint8_t *before, *now; /* as they were, and room for as many */
};

struct stops {
    size_t count;
    const uint32_t *at; /* in rising order */
    uint32_t first, end; /* the range of addresses that pc is not to leave, if end isn't 0 */
    size_t places;
    const struct place *place;
};

static bool has_changed(void *world, uint32_t sandbox, read_bytes *read, const struct stops *stops) {
    for (size_t k = 0; k < stops->places; k++) {
        const struct place *place = &stops->place[k];
        if (read(world, sandbox, place->at, place->count, place->now, place->count) &&
            memcmp(place->before, place->now, place->count) != 0)
            return true;
    }
    return false;
}

static bool is_stop(const struct stops *stops, uint32_t pc) {
    size_t low = 0, high = stops->count;
    while (low < high) {
        const size_t middle = low + (high - low) / 2;
        if (stops->at[middle] < pc)
            low = middle + 1;
        else
            high = middle;
    }
    return low < stops->count && stops->at[low] == pc;
}

/* Makes at most `steps` steps, up to one after which the sandbox isn't ready, pc is a stop or out of the range, or a place has
   changed. */
void suygapid_step(void *world, uint32_t sandbox, turn *turn, read_bytes *read, const struct stops *stops, uint32_t steps) {
    struct event event;
    for (uint32_t k = 0; k < steps; k++) {
        if (turn(world, sandbox, 1, &event) != READY || is_stop(stops, event.pc))
            return;
        if (stops->end && (event.pc < stops->first || event.pc >= stops->end))
            return;
        if (has_changed(world, sandbox, read, stops))
            return;
    }
}
