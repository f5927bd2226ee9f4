
/* ---- The calls of sfi_run.h */

void wasm_rt_trap(wasm_rt_trap_t cause) {
    (void)cause;
    abort();
}

/* The module calls no function by a table. */
uint32_t wasm_rt_register_func_type(uint32_t parameters, uint32_t results, ...) {
    return 0 * (parameters + results);
}

/* A world, module or console as the module has it, with an address of 64 bits. */
struct held {
    uint32_t held, none;
    uint64_t at;
};

/* A call has a stack of its own, as deep as any call of the module's needs. Its bytes are as they were: to the compiler the
   empty instruction in `begin` may have written them. */
struct call {
    Z_sfi_run_instance_t module;
    _Alignas(16) uint8_t stack[MODULE_STACK];
};

static void begin(struct call *call) {
    Z_sfi_run_instantiate(&call->module, NULL);
    __asm__ volatile("" : : "r"(call->stack) : "memory");
    *Z_sfi_runZ___stack_pointer(&call->module) = at_of(call->stack + sizeof call->stack);
}

