# What both hosts are built with. Debian's package gcc-riscv64-unknown-elf has the compiler. CHECKER is
# what checker.sh made; SERVICES and INTERRUPTS are a vendor's own files; OUT is where the host goes.
RISCV ?= riscv64-unknown-elf-gcc
SERVICES ?= $(SHARED)services.c
INTERRUPTS ?= $(SHARED)interrupts.c
DEVICE = $(SHARED)../../device/
FLAGS = -std=c11 -O2 -Wall -Wextra -Wconversion -Wshadow -Wmissing-prototypes -Werror \
	-march=rv32im_zicsr_zifencei -mabi=ilp32 -mcmodel=medany -msmall-data-limit=0 -ffreestanding \
	-fno-builtin -fno-tree-loop-distribute-patterns -nostdlib -I$(SHARED). -I$(DEVICE) -I$(SHARED)../../crates/sfi_c/include \
	-I$(SHARED)../../crates/sfi_slots/include
FILES = image.c rounds.c console.c verdict.c memory.c fault.S
LIBRARY = switch.S entry.c turns.c gates.c trap.c names.c mirrors.c $(if $(NO_PMP),ports/none.c,ports/pmp.S ports/pmp.c guards.c)
SOURCES = $(LIBRARY:%=$(DEVICE)%) $(FILES:%=$(SHARED)%) $(SERVICES) $(INTERRUPTS)
NEEDED = $(wildcard $(DEVICE)*.h $(SHARED)*.h) $(SHARED)common.mk Makefile

# The bytes of CHECKER decide, not its time: it may name an older file than before.
$(OUT)/linked.o: force
	@mkdir -p $(OUT)
	@cmp -s $(CHECKER) $@ || cp $(CHECKER) $@
.PHONY: force
force:
