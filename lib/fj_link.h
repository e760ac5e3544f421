/* One Fortran unit that is held in memory: the calls of libfj_link.a, which crates/fj_link/src/exports.rt proves, and docs/LINK.md
   speaks of. A program calls lukhtame.h in their place.

   A handle is FJ_LINK_ROOM bytes of the caller's, aligned to 16. fj_link_begin makes it and fj_link_end ends it; in between it is not
   copied or moved, and is given to one call at a time, on whatever thread. A slice is a pointer, which is never null, and the number
   of its elements. */
#ifndef FJ_LINK_H
#define FJ_LINK_H

#include <stddef.h>
#include <stdint.h>

#define FJ_LINK_ROOM 512

/* Above the numbers of conditions. */
#define FJ_LINK_UNORDERED 1001 /* no name, connected already, not connected, something is pending, no such identifier: nothing was changed */
#define FJ_LINK_NO_MEMORY 1002 /* memory was refused */
#define FJ_LINK_NO_TEXT 1003   /* not a name or a format: nothing was changed */

void fj_link_begin(uint8_t *at);
uint32_t fj_link_end(uint8_t *at);

/* OPEN with ASYNCHRONOUS='YES' and STATUS='UNKNOWN' of a file that holds these bytes. */
uint32_t fj_link_name(uint8_t *at, const uint8_t *text, size_t length);
uint32_t fj_link_open_unformatted(uint8_t *at, const uint8_t *found, size_t length);
uint32_t fj_link_open_formatted(uint8_t *at, const uint8_t *found, size_t length);

/* CLOSE where nothing is pending, and the bytes that the file is to hold then: their number, and a copy where `length` is just that. */
uint32_t fj_link_close(uint8_t *at);
uint64_t fj_link_left(uint8_t *at, uint8_t *out, size_t length);

/* READ and WRITE of integers of 4 and of 8 bytes, pending, under the format that was set; no text is an unformatted one. */
uint32_t fj_link_format(uint8_t *at, const uint8_t *text, size_t length);
uint32_t fj_link_write_4(uint8_t *at, const int32_t *numbers, size_t count);
uint32_t fj_link_write_8(uint8_t *at, const int64_t *numbers, size_t count);
uint32_t fj_link_read_4(uint8_t *at, uint64_t count);
uint32_t fj_link_read_8(uint8_t *at, uint64_t count);
uint32_t fj_link_last(uint8_t *at);

/* WAIT, and the numbers of a READ that it told. */
uint32_t fj_link_wait_all(uint8_t *at);
uint32_t fj_link_wait_one(uint8_t *at, uint32_t id);
uint32_t fj_link_values(uint8_t *at, uint32_t id, int64_t *out, size_t count);

/* Carries out one transfer on the thread that calls: 1 where there was one. */
uint32_t fj_link_work(uint8_t *at);

#endif
