/* The instrument for C. The archive is made by `bindings/run` (target/staticlib/libinstrument.a, for x86-64), which copies what `rt lib` builds in crates/instrument_c. */
#ifndef ROSTBLUME_H
#define ROSTBLUME_H

#include <stddef.h>
#include <stdint.h>

/* How many characters a report line has, and how many a text may have. */
#define ROSTBLUME_REPORT 209
#define ROSTBLUME_TEXT 180000

#ifdef __cplusplus
extern "C" {
#endif

/* Judges one text, of any length and any bytes: a ship, its rows and up to 24 conditions. Returns the number of document 01 and
   request 4, 0 to 10: 0 where every condition is judged, 9 where the buffer has no room; else the number of the whole text, 1 to 6 or
   10 (a row of the KN table with a typing slip), or the first number among its conditions that is not 0, 2 to 8. One report line of
   209 characters is written for each condition, in order, or a single one for a text that is refused as a whole; bytes beyond keep
   their values, and a report holds no byte 0, so that in a buffer of zeros the first 0 ends what was written. With 9 nothing is
   written. The caller answers for two slices that can be read and written for their lengths and do not overlap, and for 64 KiB of
   stack (docs/TRUST.md). */
uint8_t rostblume_judge(const uint8_t *text, size_t text_length, uint8_t *report, size_t report_length);

/* How many bytes of room a text asks for: 209, or 209 for each of its condition lines, 5,016 at most. rostblume_judge returns 9 exactly
   where the buffer is shorter. */
size_t rostblume_room(const uint8_t *text, size_t text_length);

#ifdef __cplusplus
}
#endif

#endif
