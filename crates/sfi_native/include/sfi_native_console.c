/* The calls of a console of sfi_run.h over its other calls: a part of sfi_native_world.c. Nothing of this file is proved. */
#include "sfi_run_serve.h"

#include <stdlib.h>
#include <string.h>

#include "sfi_services.h"

/* Memory of zeros, or NULL. */
static void *zeros(size_t size) {
    void *const it = malloc(size);
    if (it != NULL)
        memset(it, 0, size);
    return it;
}

struct console {
    struct sfi_console of;
    uint8_t *input;
    bool is_short; /* a put had no memory */
};

void sfi_run_console_free(struct sfi_run_console *console) {
    struct console *it = (struct console *)console->at;
    for (uint32_t i = 0; console->held && i < it->of.count; i++)
        free(it->of.sessions[i].output);
    if (console->held) {
        free(it->of.sessions);
        free(it->input);
        free(it);
    }
    console->held = 0;
    console->at = NULL;
}

bool sfi_run_console_new(uint32_t sandboxes, const uint8_t *input, size_t length, struct sfi_run_console *console) {
    sfi_run_console_free(console);
    struct console *it = (struct console *)zeros(sizeof *it);
    if (it == NULL)
        return false;
    console->held = 1;
    console->at = it;
    it->of.sessions = (struct sfi_session *)zeros(((size_t)sandboxes + 1) * sizeof *it->of.sessions);
    it->of.input = it->input = (uint8_t *)malloc(length + 1);
    if (it->of.sessions == NULL || it->input == NULL) {
        sfi_run_console_free(console);
        return false;
    }
    it->of.count = sandboxes;
    it->of.input_length = length;
    it->of.output_most = SFI_OUTPUT_MOST;
    if (length)
        memcpy(it->input, input, length);
    return true;
}

/* Makes room for the bytes that a put appends. Whether there was memory for them. */
static bool has_room(struct console *it, const struct sfi_console_call *call) {
    if (call->service != SFI_PUT_SERVICE || call->caller >= it->of.count || call->a1 == 0 || !sfi_may_put(&it->of, call))
        return true;
    struct sfi_session *own = &it->of.sessions[call->caller];
    const size_t size = own->written + call->a1;
    uint8_t *longer = (uint8_t *)(own->output != NULL ? realloc(own->output, size) : malloc(size));
    if (longer != NULL)
        own->output = longer;
    return longer != NULL;
}

/* sfi_run_exit, with an a1: here it stays what it was at the call. It is in sfi_native_world.c, with the place of the data. */
static bool exit_with(struct sfi_run_world *world, uint32_t sandbox, uint32_t number, uint32_t a1);
static uint8_t *data_of(struct sfi_run_world *world, uint32_t sandbox, uint32_t at, size_t length);

static bool console_serve(struct sfi_run_world *world, uint32_t i, const struct sfi_run_event *event, void *context) {
    struct console *it = (struct console *)context;
    struct sfi_run_region data = {0, 0};
    sfi_run_data(world, i, &data);
    struct sfi_console_call call = {i, event->number, event->a0, event->a1, data_of(world, i, 0, 0), data.base, data.size};
    if (call.service == SFI_EXIT_SERVICE)
        return exit_with(world, i, call.a0, call.a1);
    if (call.service == SFI_YIELD_SERVICE) {
        sfi_run_reply(world, i, call.a0, call.a1);
        return false;
    }
    if (!has_room(it, &call)) {
        it->is_short = true;
        return false;
    }
    sfi_console_reply(&it->of, &call);
    return sfi_run_reply(world, i, call.a0, call.a1);
}

bool sfi_run_console_turn(struct sfi_run_console *console, struct sfi_run_world *world, uint32_t sandbox, uint32_t steps) {
    struct console *it = (struct console *)console->at;
    struct sfi_run_event event;
    if (!console->held || !world->held)
        return false;
    it->is_short = false;
    sfi_run_serve(world, sandbox, steps, console_serve, it, &event);
    return !it->is_short;
}

size_t sfi_run_console_written(struct sfi_run_console *console, uint32_t sandbox) {
    const struct console *it = (const struct console *)console->at;
    return console->held && sandbox < it->of.count ? it->of.sessions[sandbox].written : 0;
}

bool sfi_run_console_read(struct sfi_run_console *console, uint32_t sandbox, size_t from, uint8_t *bytes, size_t room) {
    const struct console *it = (const struct console *)console->at;
    if (!console->held || sandbox >= it->of.count)
        return false;
    const struct sfi_session *own = &it->of.sessions[sandbox];
    if (from > own->written || room > own->written - from)
        return false;
    if (room)
        memcpy(bytes, own->output + from, room);
    return true;
}
