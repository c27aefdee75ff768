/* The disk of the example: memory, with a switch for its power. A real driver has these three
 * calls too. What is written is safe only once it is flushed; until then it may reach the disk in
 * any order, or never, which tests/cuts.c plays out under the same firmware. */
#ifndef DISK_H
#define DISK_H

#include <stdbool.h>
#include <string.h>

#include "sumbilak.h"

/* Backing units from byte 0, and after them the metadata's region: the image is at its end. */
enum {
    DISK_UNITS = 20,
    DISK_META = DISK_UNITS * SUMBILAK_UNIT_BYTES,
    DISK_END = DISK_META + SUMBILAK_MAX_IMAGE2_BYTES
};

static uint8_t disk[DISK_END];
static int disk_power = -1; /* at which write or flush from now the power goes; -1: it stays */

static bool disk_powered(void)
{
    if (disk_power > 0)
        disk_power--;
    return disk_power != 0;
}

static void disk_read(size_t at, void *to, size_t bytes)
{
    memcpy(to, disk + at, bytes);
}

static bool disk_write(size_t at, const void *from, size_t bytes)
{
    if (!disk_powered())
        return false;
    memcpy(disk + at, from, bytes);
    return true;
}

static bool disk_flush(void)
{
    return disk_powered();
}

#endif
