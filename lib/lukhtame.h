/* Units for C, and for what calls C: docs/LINK.md. Each call may come from any thread; two calls on one unit go one after the other.

   An answer is what IOSTAT= gets: 0, -1 at the end of the file, -2 at the end of a record, a condition below 1000 (docs/DECKS.md), 1001 to
   1004 as below, or LK_SYSTEM and the errno of the operating system. */
#ifndef LUKHTAME_H
#define LUKHTAME_H

#include <stddef.h>
#include <stdint.h>

#define LK_UNITS 100              /* units that are connected at one time */
#define LK_FILE 268435456         /* bytes of a file */
#define LK_ARRAY 16777216         /* elements of an array */

#define LK_UNORDERED 1001         /* a call out of order, or no transfer with that identifier is pending */
#define LK_NO_MEMORY 1002         /* memory was refused: nothing was told, and the call may be tried again */
#define LK_NO_TEXT 1003           /* a word or a format that is none */
#define LK_NOT_HERE 1004          /* a READ into an array with gaps */
#define LK_SYSTEM 2000

/* Integers of 4 and of 8 bytes. */
enum lk_kind { LK_INTEGER4 = 4, LK_INTEGER8 = 8 };

/* OPEN with STATUS='UNKNOWN' and ASYNCHRONOUS='YES'; `form` is "FORMATTED" or "UNFORMATTED"; *unit is 1 to LK_UNITS, or 0. */
int32_t lk_open(const char *path, const char *form, int32_t *unit);

/* WRITE of an array, pending: its values are those at the call. `format` is "" for an unformatted one. */
int32_t lk_write(int32_t unit, const char *format, enum lk_kind kind, const void *values, size_t count, int32_t *id);

/* READ into an array, pending: the array gets its values at the call that waits for it, and has to be there until then. */
int32_t lk_read(int32_t unit, const char *format, enum lk_kind kind, void *values, size_t count, int32_t *id);

/* WAIT for one transfer, or with 0 for all of the unit. */
int32_t lk_wait(int32_t unit, int32_t id);

/* CLOSE. It waits for all transfers of the unit and writes the file; *unit becomes 0. Where the file cannot be written the bytes are
   kept, the unit stays as it is, and CLOSE may be tried again. */
int32_t lk_close(int32_t *unit);

/* What an answer says, in words. */
void lk_message(int32_t answer, char *text, size_t room);

#endif
