/* What the files of a firmware with a store share. */
#ifndef FIRMWARE_H
#define FIRMWARE_H

#include "../host.h"
#include "cfi_flash.h"

#endif
