/* What sfi_run.h says of single calls, tried on a plug-in that calls service 4 with 5 and the address of a function, and loops
 * for ever once it is answered. The function returns the sum of its arguments, and the first one again as a second word.
 *
 *     calls IMAGE    # prints "all is so", or what isn't
 */
#include "host.h"
#include <string.h>

static void wanted(bool is_so, const char *what) {
    if (is_so)
        return;
    printf("not so: %s\n", what);
    exit(1);
}

static uint32_t sum; /* the function's address */

static bool is_event(struct sfi_run_world *world, uint32_t kind, uint32_t number, uint32_t a0, uint32_t a1) {
    struct sfi_run_event event;
    return sfi_run_event(world, 0, &event) == kind && event.kind == kind && event.number == number && event.a0 == a0 &&
           event.a1 == a1;
}

/* Whether the event of a call has what the registers have. */
static bool has_registers(struct sfi_run_world *world, const struct sfi_run_event *event) {
    struct sfi_run_registers at;
    return sfi_run_registers(world, 0, &at) && event->pc == at.pc && !memcmp(&event->a0, at.x + 10, 8 * sizeof *at.x);
}

static void no_world(void) {
    static const uint32_t arguments[8];
    struct sfi_run_world world = SFI_RUN_NO_WORLD;
    struct sfi_run_event event = {9, 9, 9, 9, 9, 9, 9, 9, 9, 9, 9, 9};
    uint8_t byte = 7;
    sfi_run_free(&world);
    sfi_run_free(&world);
    wanted(sfi_run_count(&world) == 0 && sfi_run_steps(&world, 0) == 0, "no world has no sandbox");
    wanted(sfi_run_turn(&world, 0, 1, &event) == SFI_RUN_NONE && is_event(&world, SFI_RUN_NONE, 0, 0, 0), "nor an event");
    event.kind = event.a1 = 9;
    wanted(!sfi_run_call(&world, 0, 0, arguments, 1, &event) && event.kind == SFI_RUN_NONE && event.a1 == 0, "nor a function");
    wanted(sfi_run_until(&world, 0, arguments, 1, 1, &event) == SFI_RUN_NONE, "nor a turn up to a stop");
    wanted(!sfi_run_stop(&world, 0) && !sfi_run_reset(&world, 0) && !sfi_run_enter(&world, 0, 0, arguments) && !sfi_run_reply(&world, 0, 1, 1) &&
               !sfi_run_read(&world, 0, 0, 0, &byte, 1) && !sfi_run_write(&world, 0, 0, &byte, 0),
           "each call says so");
}

static void consoles(struct sfi_run_world *world) {
    struct sfi_run_world none = SFI_RUN_NO_WORLD;
    struct sfi_run_console console = SFI_RUN_NO_CONSOLE;
    struct sfi_run_registers registers;
    uint8_t byte = 7;
    sfi_run_console_free(&console);
    wanted(!sfi_run_console_turn(&console, world, 0, 100) && sfi_run_steps(world, 0) == 0, "without a console no turn is taken");
    wanted(sfi_run_console_written(&console, 0) == 0 && !sfi_run_console_read(&console, 0, 0, &byte, 0), "nor is there an output");
    wanted(sfi_run_console_new(1, NULL, 0, &console) && !sfi_run_console_turn(&console, &none, 0, 100), "nor without a world");
    wanted(sfi_run_console_read(&console, 0, 0, &byte, 0) && !sfi_run_console_read(&console, 0, 0, &byte, 1) &&
               !sfi_run_console_read(&console, 0, 1, &byte, 0) && !sfi_run_console_read(&console, 1, 0, &byte, 0) && byte == 7,
           "nothing is read that isn't put");
    wanted(sfi_run_console_turn(&console, world, 0, 100) && sfi_run_registers(world, 0, &registers) && registers.x[10] == UINT32_MAX,
           "a post to who isn't there is refused");
    wanted(sfi_run_steps(world, 0) == 100, "a turn has its steps");
    sfi_run_console_free(&console);
    wanted(sfi_run_reset(world, 0), "it begins anew");
}

static void reads(struct sfi_run_world *world) {
    struct sfi_run_region data;
    uint8_t bytes[8], nines[8];
    memset(nines, 9, sizeof nines);
    memset(bytes, 9, sizeof bytes);
    wanted(sfi_run_data(world, 0, &data) && sfi_run_write(world, 0, data.base, (const uint8_t *)"abcdef", 6), "data are written");
    wanted(!sfi_run_read(world, 0, data.base, 5, bytes, 4) && !memcmp(bytes, nines, 8), "5 bytes have no room in 4");
    wanted(!sfi_run_read(world, 0, data.base, UINT32_MAX, bytes, 8) && !memcmp(bytes, nines, 8), "nor have 2^32 - 1 in 8");
    wanted(!sfi_run_read(world, 0, data.base + data.size - 1, 2, bytes, 8) && !memcmp(bytes, nines, 8),
           "a byte beyond the data isn't read, and then none is");
    wanted(sfi_run_read(world, 0, data.base, 3, bytes, 8) && !memcmp(bytes, "abc\t\t\t\t\t", 8), "what follows 3 bytes stays");
    wanted(sfi_run_read(world, 0, 0, 0, bytes, 0), "no bytes are read from any address");
}

static void stops(struct sfi_run_world *world) {
    struct sfi_run_registers before, after;
    struct sfi_run_event event;
    uint8_t byte = 0;
    struct sfi_run_region data;
    sfi_run_registers(world, 0, &before);
    const uint32_t start = before.pc, arguments[8] = {1, 2, 3, 4, 5, 6, 7, 8};
    wanted(!sfi_run_enter(world, 0, start, arguments), "what is ready can't be entered");
    wanted(sfi_run_turn(world, 0, 1000, &event) == SFI_RUN_CALL && is_event(world, SFI_RUN_CALL, 4, 5, event.a1), "it calls");
    sum = event.a1;
    wanted(sfi_run_reply(world, 0, 0, 0) && sfi_run_turn(world, 0, 1000, &event) == SFI_RUN_READY, "it loops");
    uint64_t steps = sfi_run_steps(world, 0);
    sfi_run_data(world, 0, &data);
    sfi_run_registers(world, 0, &before);
    wanted(sfi_run_stop(world, 0) && is_event(world, SFI_RUN_STOPPED, 0, 0, 0), "what loops is stopped");
    wanted(!sfi_run_stop(world, 0) && !sfi_run_reply(world, 0, 0, 0) && !sfi_run_exit(world, 0, 0), "once, and takes no reply");
    wanted(sfi_run_turn(world, 0, 1000, &event) == SFI_RUN_STOPPED && sfi_run_steps(world, 0) == steps, "no turn runs it");
    wanted(sfi_run_registers(world, 0, &after) && !memcmp(&before, &after, sizeof before), "its registers stay");
    wanted(sfi_run_read(world, 0, data.base + 2, 1, &byte, 1) && byte == 'c', "its data stay");
    wanted(!sfi_run_enter(world, 0, data.base, arguments) && sfi_run_enter(world, 0, start, arguments), "it is entered again");
    wanted(sfi_run_turn(world, 0, 1000, &event) == SFI_RUN_CALL && sfi_run_stop(world, 0) && !sfi_run_reply(world, 0, 0, 0),
           "it is stopped at a call, and the call gets no reply");
}

/* `first` are the registers of the start, and `data` the data then. */
static void resets(struct sfi_run_world *world, const struct sfi_run_registers *first, const uint8_t data[256]) {
    struct sfi_run_registers now;
    struct sfi_run_region region;
    uint8_t bytes[256];
    sfi_run_data(world, 0, &region);
    sfi_run_write(world, 0, region.base + 255, (const uint8_t *)"z", 1);
    wanted(sfi_run_reset(world, 0) && is_event(world, SFI_RUN_READY, 0, 0, 0) && sfi_run_steps(world, 0) == 0, "it is reset");
    wanted(sfi_run_registers(world, 0, &now) && !memcmp(&now, first, sizeof now), "its registers are the first ones");
    wanted(sfi_run_read(world, 0, region.base, 256, bytes, 256) && !memcmp(bytes, data, 256), "its data are the first ones");
    wanted(!sfi_run_reset(world, 1) && !sfi_run_reset(world, UINT32_MAX), "who isn't there isn't reset");
}

struct served {
    int calls;
    bool is_replied, goes_on;
    uint32_t more; /* steps that the handler has the sandbox do itself */
};

static bool serve(struct sfi_run_world *world, uint32_t sandbox, const struct sfi_run_event *call, void *context) {
    struct served *it = context;
    struct sfi_run_event event;
    it->calls++;
    if (it->is_replied)
        wanted(sfi_run_reply(world, sandbox, call->a0, call->a1), "the call is the one that waits");
    sfi_run_turn(world, sandbox, it->more, &event);
    return it->goes_on;
}

/* How many steps a run of at most `steps` steps takes from the start, and how often it calls. */
static uint64_t steps_of(struct sfi_run_world *world, uint64_t steps, struct served *it, uint32_t kind) {
    struct sfi_run_event event;
    sfi_run_reset(world, 0);
    wanted(sfi_run_serve(world, 0, steps, serve, it, &event) == kind && event.kind == kind, "a run says how the sandbox stands");
    return sfi_run_steps(world, 0);
}

static void serves(struct sfi_run_world *world) {
    struct served never = {0, false, true, 0}, once = {0, true, true, 0}, last = {0, true, false, 0}, more = {0, true, true, 500};
    struct sfi_run_event event;
    const uint64_t before = steps_of(world, 100, &never, SFI_RUN_CALL);
    wanted(never.calls == 1 && before < 100, "a call without a reply ends the run");
    wanted(steps_of(world, 0, &once, SFI_RUN_READY) == 0, "a run of no steps does none");
    wanted(steps_of(world, before, &once, SFI_RUN_CALL) == before && once.calls == 0, "a call at the end is left for the next run");
    wanted(sfi_run_serve(world, 0, 1, serve, &once, &event) == SFI_RUN_READY && once.calls == 1 && sfi_run_steps(world, 0) == before + 1,
           "where its reply is a step");
    wanted(steps_of(world, 1000, &once, SFI_RUN_READY) == 1000 && once.calls == 2, "a run takes all of its steps, and no more");
    wanted(steps_of(world, 1000, &last, SFI_RUN_READY) == before + 1 && last.calls == 1, "the handler ends a run");
    sfi_run_reset(world, 0);
    wanted(sfi_run_serve(world, 0, 1000, serve, &more, &event) == SFI_RUN_GONE && event.kind == SFI_RUN_READY && more.calls == 1 &&
               sfi_run_steps(world, 0) == before + 501,
           "a handler that has it run on ends a run");
    wanted(sfi_run_serve(world, 1, 100, serve, &more, &event) == SFI_RUN_NONE, "nobody runs who isn't there");
}

static void functions(struct sfi_run_world *world) {
    const uint32_t arguments[8] = {2, 3, 4, 5, 6, 7, 8, 9};
    struct sfi_run_event event = {9, 9, 9, 9, 9, 9, 9, 9, 9, 9, 9, 9};
    wanted(sfi_run_call(world, 0, sum, arguments, 1000, &event) && event.kind == SFI_RUN_CALL && event.number == 0 &&
               event.a0 == 5 && event.a1 == 2 && is_event(world, SFI_RUN_CALL, 0, 5, 2),
           "a function returns its result and a second word");
    wanted(event.a2 == 4 && event.a7 == 9 && event.gate == 1 && has_registers(world, &event), "a call tells all its words");
    wanted(!sfi_run_call(world, 0, sum, arguments, 1000, &event) && is_event(world, event.kind, 0, 5, 2), "it is called once");
    wanted(sfi_run_exit(world, 0, event.a0) && is_event(world, SFI_RUN_EXITED, 5, 0, 0), "it ends by exit");
    wanted(!sfi_run_call(world, 0, sum + 1, arguments, 1000, &event) && event.kind == SFI_RUN_EXITED && event.number == 5,
           "none begins within a word");
    wanted(sfi_run_call(world, 0, sum, arguments, 1, &event) && event.kind == SFI_RUN_READY && sfi_run_stop(world, 0),
           "it has the steps that it is given");
}

static void exits_by_console(struct sfi_run_world *world) {
    const uint32_t arguments[8] = {2, 3};
    struct sfi_run_console console = SFI_RUN_NO_CONSOLE;
    struct sfi_run_registers registers;
    wanted(sfi_run_console_new(1, NULL, 0, &console) && sfi_run_enter(world, 0, sum, arguments) &&
               sfi_run_console_turn(&console, world, 0, 1000) && is_event(world, SFI_RUN_EXITED, 5, 0, 0),
           "a console ends a function by its exit");
    wanted(sfi_run_registers(world, 0, &registers) && registers.x[10] == 5 && registers.x[11] == 2, "and keeps a1");
    sfi_run_console_free(&console);
}

static void stops_at(struct sfi_run_world *world) {
    const uint32_t arguments[8] = {2, 3};
    struct sfi_run_event event;
    uint64_t steps = sfi_run_steps(world, 0);
    wanted(sfi_run_enter(world, 0, sum, arguments) && sfi_run_until(world, 0, &sum, 1, 1, &event) == SFI_RUN_READY && event.pc != sum,
           "a turn makes a step from a stop");
    const uint32_t stops[] = {0, event.pc, UINT32_MAX};
    wanted(sfi_run_stop(world, 0) && sfi_run_enter(world, 0, sum, arguments) &&
               sfi_run_until(world, 0, stops, 3, 1000, &event) == SFI_RUN_READY && event.pc == stops[1] &&
               sfi_run_steps(world, 0) == steps + 2,
           "and ends at the next one");
    wanted(sfi_run_until(world, 0, stops, 3, 1000, &event) == SFI_RUN_CALL && event.a0 == 5, "it goes on from there to its call");
    wanted(sfi_run_until(world, 0, stops, 0, 1000, &event) == SFI_RUN_CALL, "and no further");
}

/* Calls a function of a sandbox that stands at a call, and leaves it at that call: its result. */
static uint32_t called_back(struct sfi_run_world *world, uint32_t pc, const uint32_t arguments[8]) {
    struct sfi_run_registers kept, there;
    struct sfi_run_event event;
    wanted(sfi_run_call_back(world, 0, pc, arguments, &kept) && sfi_run_registers(world, 0, &there) && there.pc == pc &&
               there.x[2] == kept.x[2] && there.x[10] == arguments[0] && there.x[17] == arguments[7],
           "a function is called while a call waits, on its stack");
    wanted(sfi_run_turn(world, 0, 1000, &event) == SFI_RUN_CALL && event.number == 0 && sfi_run_exit(world, 0, event.a0) &&
               sfi_run_set_registers(world, 0, &kept),
           "it returns, and the call that waited is there again");
    return event.a0;
}

static void calls_back(struct sfi_run_world *world) {
    const uint32_t arguments[8] = {2, 3}, others[8] = {20, 30};
    struct sfi_run_registers kept, inner = {7, {7}};
    struct sfi_run_event event;
    wanted(!sfi_run_call_back(world, 0, sum + 2, arguments, &inner) && !sfi_run_call_back(world, 1, sum, arguments, &inner) &&
               inner.pc == 7 && inner.x[0] == 7 && is_event(world, SFI_RUN_CALL, 0, 7, 2),
           "nothing is called within a word, or where no sandbox is");
    wanted(called_back(world, sum, arguments) == 5 && is_event(world, SFI_RUN_CALL, 0, 7, 2), "it is called back");
    wanted(sfi_run_call_back(world, 0, sum, arguments, &kept) && !sfi_run_call_back(world, 0, sum, arguments, &inner) &&
               sfi_run_turn(world, 0, 1000, &event) == SFI_RUN_CALL && sfi_run_call_back(world, 0, sum, others, &inner) &&
               inner.x[10] == 5 && sfi_run_turn(world, 0, 1000, &event) == SFI_RUN_CALL && event.a0 == 50 &&
               sfi_run_exit(world, 0, 0) && sfi_run_set_registers(world, 0, &inner) && is_event(world, SFI_RUN_CALL, 0, 5, 2) &&
               sfi_run_exit(world, 0, 0) && sfi_run_set_registers(world, 0, &kept) && is_event(world, SFI_RUN_CALL, 0, 7, 2),
           "a callback is called back, too, once it calls");
    wanted(sfi_run_call_back(world, 0, sum, arguments, &kept) && sfi_run_stop(world, 0) && sfi_run_set_registers(world, 0, &kept) &&
               is_event(world, SFI_RUN_CALL, 0, 7, 2),
           "one is stopped");
}

static void has_set(struct sfi_run_world *world) {
    const uint32_t arguments[8] = {2, 3};
    struct sfi_run_registers at, other;
    struct sfi_run_event event;
    wanted(sfi_run_registers(world, 0, &at) && at.x[10] == 5, "it stands at its call");
    at.x[10] = 7;
    wanted(sfi_run_set_registers(world, 0, &at) && is_event(world, SFI_RUN_CALL, 0, 7, 2), "a0 is set");
    for (int number = 24; number < 28; number++) {
        other = at;
        other.x[number]++;
        wanted(!sfi_run_set_registers(world, 0, &other) && is_event(world, SFI_RUN_CALL, 0, 7, 2), "a reserved register isn't");
    }
    other = at;
    other.pc += 2;
    wanted(!sfi_run_set_registers(world, 0, &other), "nor is a pc at which nothing begins");
    calls_back(world);
    wanted(sfi_run_exit(world, 0, 7) && sfi_run_event(world, 0, &event) == SFI_RUN_EXITED &&
               !sfi_run_call_back(world, 0, sum, arguments, &other),
           "the call is replied to then, and nothing that has stopped is called back");
}

int main(int count, char **words) {
    struct sfi_run_world world = SFI_RUN_NO_WORLD;
    if (count < 2)
        return 3;
    no_world();
    load_file(words[1], &world);
    struct sfi_run_registers first;
    struct sfi_run_region region;
    uint8_t data[256];
    sfi_run_registers(&world, 0, &first);
    sfi_run_data(&world, 0, &region);
    wanted(sfi_run_read(&world, 0, region.base, sizeof data, data, sizeof data), "the first data are read");
    consoles(&world);
    reads(&world);
    stops(&world);
    functions(&world);
    exits_by_console(&world);
    stops_at(&world);
    has_set(&world);
    resets(&world, &first, data);
    serves(&world);
    wanted(!sfi_run_stop(&world, 1) && !sfi_run_stop(&world, UINT32_MAX), "who isn't there isn't stopped");
    sfi_run_free(&world);
    sfi_run_free(&world);
    wanted(sfi_run_count(&world) == 0, "a world is freed once, and its struct as often as one likes");
    printf("all is so\n");
    return 0;
}
