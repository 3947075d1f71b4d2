/* Pulse streams in compound files: the C interface, in the same library as that of cfb.h, whose words on images, work
 * buffers, paths and pointers hold here too. Every function is proved.
 *
 * A pulse stream is a stream that keeps which valve was open for how long. All its numbers are little-endian:
 *
 *     a preamble        any number of bytes, which may hold anything
 *     records           8 bytes each: the valve (2), zero (2), the ticks of 0.1 ms that it was open, at least 1 (4)
 *     a trailer         16 bytes: the distance from the stream's end back to the first record, which is 16 + 8 x count (4),
 *                       the count of records (4), the total of all their ticks (8)
 *
 * So a stream that ends with the trailer 16, 0, 0 (PULSE_NO_RECORDS) is one of no records, whatever stands before it.
 *
 * No call requires anything of the bytes that it is given: each call ends and answers. It looks at the whole image and at all
 * records, so the time is linear in the image's length. The answers of cfb_validate come first, then those about the path (20
 * to 23), then those of this file, and CFB_TOO_FEW_FREE (26) last. After any answer but 0 the image is as it was, and every
 * valve, ticks, count and total is 0. The work buffer is left as by every call of cfb.h. Only pulse_add changes the image.
 */
#ifndef PULSE_H
#define PULSE_H

#include "cfb.h"

#ifdef __cplusplus
extern "C" {
#endif

/* Answers, beside those of cfb.h. */
#define PULSE_NOT_PULSES 40u /* the stream has fewer than 16 bytes; its trailer disagrees with itself, with the stream's length
                              * or with the records; or a record has no ticks, or a zero field that is not zero */
#define PULSE_NO_TICKS 41u   /* a pulse of no ticks is not added */
#define PULSE_NO_RECORD 42u  /* there is no record of that number */

/* The trailer of no records, as the bytes of an array. */
#define PULSE_NO_RECORDS {16, 0, 0, 0, 0, 0, 0, 0, 0, 0, 0, 0, 0, 0, 0, 0}

/* How many records a pulse stream has, and the total of their ticks. Answers 20 to 23, and 40. */
uint32_t pulse_summary(const uint8_t *image, size_t image_len, uint32_t *work, size_t work_len, const uint16_t *path,
                       size_t path_len, uint32_t *count, uint64_t *total);

/* The valve and the ticks of a record by its number, from 0. All of the stream is looked at first, as by pulse_summary. Answers
 * 20 to 23, and 40; then 42. */
uint32_t pulse_record(const uint8_t *image, size_t image_len, uint32_t *work, size_t work_len, const uint16_t *path,
                      size_t path_len, uint32_t number, uint16_t *valve, uint32_t *ticks);

/* Adds a record behind the others. The stream is 8 bytes longer then, as after cfb_set_len, with the record where the trailer
 * was and a new trailer behind it; all else of the stream is as it was. It is done whole or not at all. However often it is
 * called, and whatever is done to other streams in between, the total is that found at the start and the ticks of every call
 * that answered 0, if nothing else edits the stream. Answers 20 to 23, and 40; then 41; then 26, where the image has no room
 * for 8 bytes more. */
uint32_t pulse_add(uint8_t *image, size_t image_len, uint32_t *work, size_t work_len, const uint16_t *path, size_t path_len,
                   uint16_t valve, uint32_t ticks);

#ifdef __cplusplus
}
#endif

#endif
