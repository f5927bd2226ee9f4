/* A small preemptive kernel on a chip without paging: two tasks of the host beside two plug-ins, which are tasks
   too. The timer ends a slice wherever it finds the processor: in a plug-in, which sfi_device_turn comes back from, or in
   a task of the host, whose trap entry.S takes. A plug-in's task has interrupts off while it is in the host. */
#include "../host.h"

enum task { COUNTER, CONSOLE, FIRST_PLUGIN, TASKS = FIRST_PLUGIN + 2 };
enum { STACK_WORDS = 256, CONTEXT_WORDS = 32, CONTEXT_PC = 0, CONTEXT_STATUS = 2, CONTEXT_A0 = 10 };

/* entry.S */
_Noreturn void start_task(uint32_t *context);
uint32_t *next_task(uint32_t *context, uint32_t cause);

static struct world world;
static uint32_t stacks[TASKS][STACK_WORDS] __attribute__((aligned(16)));
static uint32_t *contexts[TASKS]; /* of those that don't run */
static enum task running;
static uint32_t slices[TASKS], preempted; /* preempted: how often a task of the host was */
static volatile uint32_t plugins_left, counted;

void judge(void) {
    read_image(&world, FLASH_ARGUMENTS, FLASH_IMAGE, FLASH_INPUT);
}

/* The tasks take turns. A plug-in's sets the timer itself. */
uint32_t *next_task(uint32_t *context, uint32_t cause) {
    if (cause == CAUSE_TIMER)
        preempted++;
    else if (cause == CAUSE_ECALL)
        context[CONTEXT_PC] += 4;
    else
        host_fault(cause, context[CONTEXT_PC]);
    contexts[running] = context;
    running = (running + 1) % TASKS;
    slices[running]++;
    interrupt_after(world.arguments->turn_ticks);
    return contexts[running];
}

/* Ends the task's slice. The tasks call the kernel as plug-ins call their gates. */
static void yield(void) {
    __asm__ volatile("ecall" ::: "memory");
}

static void make_task(enum task task, void (*function)(uint32_t), uint32_t argument, uint32_t status) {
    uint32_t *context = stacks[task] + STACK_WORDS - CONTEXT_WORDS;
    context[CONTEXT_PC] = (uint32_t)function;
    context[CONTEXT_A0] = argument;
    context[CONTEXT_STATUS] = MSTATUS_MPP_MACHINE | status;
    contexts[task] = context;
}

/* ---- The tasks */

/* Has as many turns as it is asked for, and stops where the plug-in does. */
static void run_plugin(uint32_t number) {
    const struct sfi_device_sandbox *sandbox = &world.plugins[number].sandbox;
    for (uint32_t round = 0; round < world.arguments->rounds && sandbox->state == SFI_DEVICE_READY; round++) {
        turn(&world, number);
        yield();
    }
    plugins_left--;
    for (;;)
        yield();
}

/* Never ends a slice by itself. */
static void count(uint32_t none) {
    (void)none;
    for (;;)
        counted++;
}

static void print_item(const char *what, uint32_t number) {
    print(what);
    print_decimal(number);
}

/* Ends the run when the plug-ins have stopped, and the other task was seen to go on once more. */
static void wait_for_plugins(uint32_t none) {
    uint32_t before = counted;
    (void)none;
    while (plugins_left > 0 || counted == before)
        yield();
    __asm__ volatile("csrci mstatus, 8"); /* MIE */
    print_world(&world);
    for (uint32_t task = 0; task < TASKS; task++)
        print_item(task == 0 ? "slices=" : ",", slices[task]);
    print_item(" preempted=", preempted);
    print("\n");
    finish();
}

void run_host(void) {
    for (uint32_t number = 0; number < world.count; number++)
        place(number, &world.plugins[number].sandbox.part);
    refuse_fault(0, sfi_device_write_protection());
    __asm__ volatile("fence.i");
    test_guards(&world);
    plugins_left = TASKS - FIRST_PLUGIN;
    make_task(COUNTER, count, 0, MSTATUS_MPIE);
    make_task(CONSOLE, wait_for_plugins, 0, MSTATUS_MPIE);
    make_task(FIRST_PLUGIN, run_plugin, 0, 0);
    make_task(FIRST_PLUGIN + 1, run_plugin, 1, 0);
    running = COUNTER;
    slices[COUNTER]++;
    interrupt_after(world.arguments->turn_ticks);
    start_task(contexts[COUNTER]);
}
