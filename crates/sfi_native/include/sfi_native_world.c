/* Worlds of sandboxes that run by native code, and the calls of sfi_run.h on those that are there: a part of sfi_run_native.c and of
   sfi-exec's host (tools/suygapid/native/exec.c), which make worlds. Nothing of this file is proved. */
#include "sfi_run.h"

#include "sfi_native_console.c"

/* What answers a call for a world that is of another kind, in a library that has two. */
#ifndef SFI_OTHERWISE
#define SFI_OTHERWISE(call)
#endif

enum { WORD_SIZE = 4, CALL_SIZE = 4, SLACK = 1020 }; /* SLACK: docs/IMAGE.md, typed registers */
enum { MAGIC_SIZE = 4, STACK = '2' }; /* docs/IMAGE.md, the layout and the second format */
enum { ECALL = 0x73 }; /* the instruction */
enum { WRITTEN_MOST = 1 << 17, PAGES_ASKED = 4096 }; /* up to so many bytes zeros are just written; so many pages are asked for at once */
/* `module` is the includer's, and so are `entered`, the 32 registers of a function that is called, but for x30 in words. `number` and
   `address` are those of an exit or trap; of a call `number` is the gate's. */
struct native_sandbox {
    const struct sfi_sandbox *text;
    void *module;
    const uint32_t *entered;
    struct sfi_hart hart;
    uint64_t steps;
    uint32_t kind, number, address;
    bool has_code; /* it runs by native code, not by steps alone */
};

struct native_world {
    size_t count;
    struct native_sandbox all[];
};

/* ---- what the includer has */

/* Runs up to a call or a trap, as sfi_native_turn does. */
static int native_turn(struct native_sandbox *it, sfi_u32 *at);
/* Where the image has the code of a sandbox, and the last byte of its magic, which says the format. */
static const uint8_t *code_of(const struct native_sandbox *it);
static uint8_t format_of(const struct native_sandbox *it);

static uint32_t word_at(const uint8_t *bytes) {
    uint32_t word;
    memcpy(&word, bytes, sizeof word);
    return word;
}

/* ---- a sandbox */

static struct native_sandbox *sandbox_at(struct sfi_run_world *world, uint32_t number) {
    struct native_world *const it = world->at;
    return world->held != 0 && number < it->count ? &it->all[number] : NULL;
}

static bool is_unit(const struct sfi_sandbox *s, uint32_t pc) {
    return pc - s->code < s->code_size && ((pc - s->code) & (s->unit - 1)) == 0;
}

static void end(struct native_sandbox *it, uint32_t kind, uint32_t number, uint32_t address) {
    it->kind = kind;
    it->number = number;
    it->address = address;
}

/* Says of one that is ready whether it stands at a call: at an `ecall` of a listed gate. In words a gate may list other code, which calls
   nobody: were it stepped over as by a reply, a register could come to hold what its type forbids. */
static void settle(struct native_sandbox *it) {
    const struct sfi_sandbox *s = it->text;
    const uint32_t place = it->hart.pc - s->code;
    uint32_t gate = 0;
    it->kind = SFI_RUN_READY;
    if (place >= s->code_size || place % WORD_SIZE != 0 || word_at(code_of(it) + place) != ECALL)
        return;
    while (gate < s->gates && s->gate[gate].address != it->hart.pc)
        gate++;
    if (gate < s->gates)
        end(it, SFI_RUN_CALL, gate, 0);
}

static void count_steps(struct native_sandbox *it, uint32_t steps) {
    it->steps = steps > UINT64_MAX - it->steps ? UINT64_MAX : it->steps + steps;
}

static void take_turn(struct native_sandbox *it, uint32_t steps) {
    static const uint32_t causes[] = {[SFI_LOAD] = SFI_RUN_LOAD, [SFI_STORE] = SFI_RUN_STORE, [SFI_BREAK] = SFI_RUN_BREAK,
                                      [SFI_FETCH] = SFI_RUN_FETCH};
    uint32_t address = 0;
    if (it->kind != SFI_RUN_READY)
        return;
    it->hart.left = steps;
    const int how = native_turn(it, &address);
    count_steps(it, steps - it->hart.left);
    if (how == SFI_NEXT || how == SFI_CALL)
        settle(it);
    else
        end(it, SFI_RUN_TRAPPED, causes[how], address);
}

/* Whether it hasn't stopped. */
static bool is_running(const struct native_sandbox *it) {
    return it->kind == SFI_RUN_READY || it->kind == SFI_RUN_CALL;
}

static uint32_t tell(const struct native_sandbox *it, struct sfi_run_event *event) {
    memset(event, 0, sizeof *event);
    event->kind = it->kind;
    event->pc = it->hart.pc;
    if (it->kind == SFI_RUN_CALL) {
        event->gate = it->number;
        event->number = it->text->gate[it->number].service;
        memcpy(&event->a0, it->hart.x + 10, 8 * sizeof *it->hart.x);
    } else if (it->kind == SFI_RUN_EXITED || it->kind == SFI_RUN_TRAPPED) {
        event->number = it->number;
        event->a0 = it->address;
    }
    return event->kind;
}

/* ---- a world */

/* Makes pages zeros. Where a quarter is in memory, all are written; else those are, and the others handed back, whose next touch finds
   zeros. False where it can't be told which are in memory. */
static bool clear_pages(uint8_t *pages, size_t count) {
    unsigned char found[PAGES_ASKED];
    size_t there = 0;
    if (mincore(pages, count * SFI_ZONE, found))
        return false;
    const bool is_none = memchr(found, 1, count) == NULL; /* told soonest */
    for (size_t page = 0; page < count && !is_none; page++)
        there += found[page] & 1;
    const bool are_alike = is_none || there >= count / 4;
    for (size_t first = 0, end; first < count; first = end) {
        const bool is_written = there >= count / 4 || found[first] & 1;
        for (end = are_alike ? count : first + 1; end < count && (found[end] & 1) == is_written; end++)
            ;
        const size_t size = (end - first) * SFI_ZONE;
        if (is_written || madvise(pages + first * SFI_ZONE, size, MADV_DONTNEED))
            memset(pages + first * SFI_ZONE, 0, size);
    }
    return true;
}

/* Makes all data zeros. Of large data, pages that nobody touched cost nothing. */
static void clear_data(struct native_sandbox *it) {
    const size_t size = it->text->data_size, most = (size_t)PAGES_ASKED * SFI_ZONE;
    size_t done = 0;
    while (size > WRITTEN_MOST && done < size) {
        const size_t piece = size - done < most ? size - done : most;
        if (!clear_pages(it->hart.data + done, piece / SFI_ZONE))
            break;
        done += piece;
    }
    memset(it->hart.data + done, 0, size - done);
}

/* As at first, over data of zeros. */
static void make_first(struct native_sandbox *it) {
    const struct sfi_sandbox *s = it->text;
    memcpy(it->hart.data, s->first_data, s->init);
    sfi_begin(s, &it->hart, s->start);
    settle(it);
    it->steps = 0;
}

/* Makes a sandbox where nothing is, by native code or not. Whether there was memory. */
static bool make_sandbox(const struct sfi_sandbox *s, bool has_code, struct native_sandbox *it) {
    memset(it, 0, sizeof *it);
    it->text = s;
    it->has_code = has_code;
    it->hart.data = sfi_new_data(s, has_code);
    if (it->hart.data == NULL)
        return false;
    make_first(it);
    return true;
}

static void free_sandboxes(struct native_sandbox *all, size_t count) {
    while (count-- > 0)
        sfi_free_data(all[count].text, all[count].has_code, all[count].hart.data);
}

/* Makes sandboxes where nothing is: all of them, or none. */
static bool make_sandboxes(const struct sfi_sandbox *s, size_t count, bool has_code, struct native_sandbox *all) {
    for (size_t k = 0; k < count; k++)
        if (!make_sandbox(&s[k], has_code, &all[k])) {
            free_sandboxes(all, k);
            return false;
        }
    return true;
}

static struct native_world *new_world(size_t count) {
    struct native_world *const it = malloc(sizeof *it + count * sizeof *it->all);
    if (it != NULL)
        it->count = count;
    return it;
}

/* ---- turns and replies */

uint32_t sfi_run_event(struct sfi_run_world *world, uint32_t sandbox, struct sfi_run_event *event) {
    SFI_OTHERWISE(event(world, sandbox, event))
    const struct native_sandbox *it = sandbox_at(world, sandbox);
    if (it != NULL)
        return tell(it, event);
    memset(event, 0, sizeof *event);
    return SFI_RUN_NONE;
}

uint32_t sfi_run_turn(struct sfi_run_world *world, uint32_t sandbox, uint32_t steps, struct sfi_run_event *event) {
    SFI_OTHERWISE(turn(world, sandbox, steps, event))
    struct native_sandbox *it = sandbox_at(world, sandbox);
    if (it == NULL)
        return sfi_run_event(world, sandbox, event);
    take_turn(it, steps);
    return tell(it, event);
}

static bool is_among(uint32_t address, const uint32_t *stops, size_t count) {
    while (count > 0 && stops[count - 1] != address)
        count--;
    return count > 0;
}

uint32_t sfi_run_until(struct sfi_run_world *world, uint32_t sandbox, const uint32_t *stops, size_t count, uint32_t steps,
                       struct sfi_run_event *event) {
    SFI_OTHERWISE(until(world, sandbox, stops, count, steps, event))
    struct native_sandbox *it = sandbox_at(world, sandbox);
    if (it == NULL)
        return sfi_run_event(world, sandbox, event);
    for (uint32_t done = 0; done < steps && it->kind == SFI_RUN_READY; done++) {
        if (done > 0 && is_among(it->hart.pc, stops, count))
            break;
        take_turn(it, 1);
    }
    return tell(it, event);
}

/* Ends the call at which it stands, with these words and a step. Whether it stands at one. */
static bool end_call(struct native_sandbox *it, uint32_t a0, uint32_t a1) {
    if (it == NULL || it->kind != SFI_RUN_CALL)
        return false;
    it->hart.x[10] = a0;
    it->hart.x[11] = a1;
    count_steps(it, 1);
    return true;
}

bool sfi_run_reply(struct sfi_run_world *world, uint32_t sandbox, uint32_t a0, uint32_t a1) {
    SFI_OTHERWISE(reply(world, sandbox, a0, a1))
    struct native_sandbox *it = sandbox_at(world, sandbox);
    const bool is_done = end_call(it, a0, a1);
    if (is_done) {
        it->hart.pc += CALL_SIZE;
        settle(it);
    }
    return is_done;
}

static bool exit_with(struct sfi_run_world *world, uint32_t sandbox, uint32_t number, uint32_t a1) {
    struct native_sandbox *it = sandbox_at(world, sandbox);
    const bool is_done = end_call(it, number, a1);
    if (is_done)
        end(it, SFI_RUN_EXITED, number, 0);
    return is_done;
}

bool sfi_run_exit(struct sfi_run_world *world, uint32_t sandbox, uint32_t number) {
    SFI_OTHERWISE(exit(world, sandbox, number))
    return exit_with(world, sandbox, number, 0);
}

bool sfi_run_stop(struct sfi_run_world *world, uint32_t sandbox) {
    SFI_OTHERWISE(stop(world, sandbox))
    struct native_sandbox *it = sandbox_at(world, sandbox);
    if (it == NULL || !is_running(it))
        return false;
    end(it, SFI_RUN_STOPPED, 0, 0);
    return true;
}

bool sfi_run_reset(struct sfi_run_world *world, uint32_t sandbox) {
    SFI_OTHERWISE(reset(world, sandbox))
    struct native_sandbox *it = sandbox_at(world, sandbox);
    if (it == NULL)
        return false;
    clear_data(it);
    make_first(it);
    return true;
}

/* ---- between turns */

/* Where these data are; NULL where they aren't all the sandbox's. */
static uint8_t *data_of(struct sfi_run_world *world, uint32_t sandbox, uint32_t at, size_t length) {
    struct native_sandbox *it = sandbox_at(world, sandbox);
    if (it == NULL)
        return NULL;
    const struct sfi_sandbox *s = it->text;
    const uint32_t place = at - s->data;
    if (length == 0)
        return it->hart.data;
    return place < s->data_size && length <= s->data_size - place ? it->hart.data + place : NULL;
}

bool sfi_run_read(struct sfi_run_world *world, uint32_t sandbox, uint32_t at, size_t length, uint8_t *bytes, size_t room) {
    SFI_OTHERWISE(read(world, sandbox, at, length, bytes, room))
    const uint8_t *const data = length <= room ? data_of(world, sandbox, at, length) : NULL;
    if (data != NULL)
        memcpy(bytes, data, length);
    return data != NULL;
}

bool sfi_run_write(struct sfi_run_world *world, uint32_t sandbox, uint32_t at, const uint8_t *bytes, size_t length) {
    SFI_OTHERWISE(write(world, sandbox, at, bytes, length))
    uint8_t *const data = data_of(world, sandbox, at, length);
    if (data != NULL)
        memcpy(data, bytes, length);
    return data != NULL;
}

bool sfi_run_enter(struct sfi_run_world *world, uint32_t sandbox, uint32_t pc, const uint32_t arguments[8]) {
    SFI_OTHERWISE(enter(world, sandbox, pc, arguments))
    struct native_sandbox *it = sandbox_at(world, sandbox);
    if (it == NULL || is_running(it) || !is_unit(it->text, pc))
        return false;
    memcpy(it->hart.x, it->entered, sizeof it->hart.x);
    memcpy(it->hart.x + 10, arguments, 8 * sizeof *arguments);
    if (it->text->unit == WORD_SIZE)
        it->hart.x[30] = pc;
    it->hart.pc = pc;
    settle(it);
    return true;
}

bool sfi_run_call(struct sfi_run_world *world, uint32_t sandbox, uint32_t pc, const uint32_t arguments[8], uint32_t steps,
                  struct sfi_run_event *event) {
    SFI_OTHERWISE(call(world, sandbox, pc, arguments, steps, event))
    if (sfi_run_enter(world, sandbox, pc, arguments)) {
        sfi_run_turn(world, sandbox, steps, event);
        return true;
    }
    sfi_run_event(world, sandbox, event);
    return false;
}

uint64_t sfi_run_steps(struct sfi_run_world *world, uint32_t sandbox) {
    SFI_OTHERWISE(steps(world, sandbox))
    const struct native_sandbox *it = sandbox_at(world, sandbox);
    return it == NULL ? 0 : it->steps;
}

bool sfi_run_registers(struct sfi_run_world *world, uint32_t sandbox, struct sfi_run_registers *registers) {
    SFI_OTHERWISE(registers(world, sandbox, registers))
    const struct native_sandbox *it = sandbox_at(world, sandbox);
    if (it == NULL)
        return false;
    registers->pc = it->hart.pc;
    memcpy(registers->x, it->hart.x, sizeof registers->x);
    return true;
}

bool sfi_run_data(struct sfi_run_world *world, uint32_t sandbox, struct sfi_run_region *region) {
    SFI_OTHERWISE(data(world, sandbox, region))
    const struct native_sandbox *it = sandbox_at(world, sandbox);
    if (it == NULL)
        return false;
    region->base = it->text->data;
    region->size = it->text->data_size;
    return true;
}

/* Whether the address lies in the data, or at most `far` bytes outside. */
static bool is_near(const struct sfi_sandbox *s, uint64_t far, uint32_t address) {
    return s->data <= address + far && address < s->data + far + s->data_size;
}

/* Whether a data register may hold it: with single masks also an address at most SLACK bytes beside those below the data's size. */
static bool may_be_data(const struct sfi_sandbox *s, uint32_t address) {
    return is_near(s, SLACK, address) || (s->single && address + SLACK < s->data_size + 2 * SLACK);
}

/* Whether the reserved registers hold what is there, and the typed registers of the format what their types say (docs/IMAGE.md). */
static bool may_hold(const struct native_sandbox *it, const uint32_t x[32]) {
    const struct sfi_sandbox *const s = it->text;
    const uint32_t *const own = it->hart.x;
    if (x[24] != own[24] || x[25] != own[25] || x[27] != own[27])
        return false;
    if (s->unit != WORD_SIZE)
        return x[26] == own[26] && (format_of(it) != STACK || is_near(s, 0, x[2]));
    if (!may_be_data(s, x[2]) || !may_be_data(s, x[3]) || !may_be_data(s, x[4]) || !may_be_data(s, x[29]) || !is_unit(s, x[30]))
        return false;
    return s->single ? may_be_data(s, x[26]) && may_be_data(s, x[31]) : x[26] == own[26] && x[31] < s->data_size;
}

bool sfi_run_set_registers(struct sfi_run_world *world, uint32_t sandbox, const struct sfi_run_registers *registers) {
    SFI_OTHERWISE(set_registers(world, sandbox, registers))
    struct native_sandbox *it = sandbox_at(world, sandbox);
    if (it == NULL)
        return false;
    const struct sfi_sandbox *s = it->text;
    if (!is_unit(s, registers->pc) || !may_hold(it, registers->x))
        return false;
    memcpy(it->hart.x, registers->x, sizeof registers->x);
    it->hart.x[0] = 0;
    it->hart.pc = registers->pc;
    settle(it);
    return true;
}

bool sfi_run_call_back(struct sfi_run_world *world, uint32_t sandbox, uint32_t pc, const uint32_t arguments[8],
                       struct sfi_run_registers *kept) {
    SFI_OTHERWISE(call_back(world, sandbox, pc, arguments, kept))
    const struct native_sandbox *it = sandbox_at(world, sandbox);
    if (it == NULL || it->kind != SFI_RUN_CALL)
        return false;
    struct sfi_run_registers waiting, entered;
    sfi_run_registers(world, sandbox, &waiting);
    entered = waiting;
    entered.pc = pc;
    entered.x[1] = it->entered[1];
    memcpy(entered.x + 10, arguments, 8 * sizeof *arguments);
    if (!sfi_run_set_registers(world, sandbox, &entered))
        return false;
    *kept = waiting;
    return true;
}
