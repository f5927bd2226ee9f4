/* The calls of sfi_slots.h on the device, in moving.o. */
#ifndef SFI_DEVICE_DECISIONS_H
#define SFI_DEVICE_DECISIONS_H

#include "sfi_slots.h"

void sfi_device_slots_clear(struct sfi_slot *slots, size_t count);
bool sfi_device_slots_begin(struct sfi_slot *slots, size_t count, uint32_t number);
bool sfi_device_slots_accept(struct sfi_slot *slots, size_t count, uint32_t number, const struct sfi_bounds *bounds);
bool sfi_device_slots_refuse(struct sfi_slot *slots, size_t count, uint32_t number);
bool sfi_device_slots_try(struct sfi_slot *slots, size_t count, uint32_t number, uint32_t turns);
bool sfi_device_slots_place(struct sfi_slot *slots, size_t count, uint32_t number);
bool sfi_device_slots_write(struct sfi_slot *slots, size_t count, uint32_t number, uint32_t bytes);
bool sfi_device_slots_turn(struct sfi_slot *slots, size_t count, uint32_t number);
bool sfi_device_slots_confirm(struct sfi_slot *slots, size_t count, uint32_t number);
bool sfi_device_slots_roll_back(struct sfi_slot *slots, size_t count, uint32_t number);
bool sfi_device_slots_remove(struct sfi_slot *slots, size_t count, uint32_t number);
bool sfi_device_slots_may_enter(const struct sfi_slot *slots, size_t count, uint32_t number, uint32_t pc);

#endif
