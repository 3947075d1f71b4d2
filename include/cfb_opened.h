/* What the caller must keep from cfb_open to cfb_close: nobody but the calls of this file writes to the image, the work buffer
 * or the volume, and every call is given these three, with the same lengths. Otherwise a call may read or write OUT OF BOUNDS.
 * The interface without any such duty is cfb.h.
 *
 * Compound files opened once, for many calls. Every call of cfb.h validates the whole image; here cfb_open does, once. Each
 * cfb_opened_X then has exactly the answer of cfb_X with the same arguments, its values, and its bytes in the image and the out
 * buffer; only the work buffer differs, which stays the volume's. Answers 1, 2 and 10 to 18 come from cfb_open alone.
 * Two have no such form, as they do not begin with a validation: cfb_format and cfb_repair, after which an image is opened.
 *
 * Of pointers the same is asked as in cfb.h. No pointer is kept, and nothing is allocated. cfb_opened_find, cfb_opened_read and
 * cfb_opened_read_at write to none of the three.
 */
#ifndef CFB_OPENED_H
#define CFB_OPENED_H

#include "cfb.h"

#ifdef __cplusplus
extern "C" {
#endif

/* What opening found: for the calls alone. It never changes while the volume is open. */
typedef struct cfb_volume {
    uint64_t numbers[9];
} cfb_volume;

/* Validates an image and opens it. The answer is that of cfb_validate. After 0 the first CFB_WORK_NEED(image_len) numbers of
 * the work buffer are the volume's until it is closed, and the rest is as it was. After any other the work buffer is as
 * cfb_validate leaves it, the volume is as it was, and there is nothing to close. */
uint32_t cfb_open(const uint8_t *image, size_t image_len, uint32_t *work, size_t work_len, cfb_volume *volume);

/* Closes a volume: the first CFB_WORK_NEED(image_len) numbers of the work buffer become zero, as a call of cfb.h leaves them,
 * and the rest is as it was. No other call may be given the volume from then on. The image needs no closing: it is valid after
 * every call. */
void cfb_close(const uint8_t *image, size_t image_len, uint32_t *work, size_t work_len, const cfb_volume *volume);

/* cfb_find. Only the values are written. Answers 20, 21 and 22. */
uint32_t cfb_opened_find(const uint8_t *image, size_t image_len, const uint32_t *work, size_t work_len,
                         const cfb_volume *volume, const uint16_t *path, size_t path_len, uint32_t *entry, uint32_t *type,
                         uint64_t *size);

/* cfb_read. Only the out buffer and the count are written. Answers 20 to 24. */
uint32_t cfb_opened_read(const uint8_t *image, size_t image_len, const uint32_t *work, size_t work_len,
                         const cfb_volume *volume, const uint16_t *path, size_t path_len, uint64_t offset, uint8_t *out,
                         size_t out_len, uint64_t *count);

/* cfb_read_at. Only the out buffer and the count are written. Answers 33 and 24. */
uint32_t cfb_opened_read_at(const uint8_t *image, size_t image_len, const uint32_t *work, size_t work_len,
                            const cfb_volume *volume, uint32_t entry, uint64_t position, uint8_t *out, size_t out_len,
                            uint64_t *count);

/* cfb_overwrite. Answers 20 to 24. */
uint32_t cfb_opened_overwrite(uint8_t *image, size_t image_len, uint32_t *work, size_t work_len, const cfb_volume *volume,
                              const uint16_t *path, size_t path_len, uint64_t offset, const uint8_t *bytes,
                              size_t bytes_len);

/* cfb_set_len. Answers 20 to 23, and 26. */
uint32_t cfb_opened_set_len(uint8_t *image, size_t image_len, uint32_t *work, size_t work_len, const cfb_volume *volume,
                            const uint16_t *path, size_t path_len, uint64_t new_len);

/* cfb_create_stream and cfb_create_storage. Only the image is written. Answers 20 to 22, 29 and 30. */
uint32_t cfb_opened_create_stream(uint8_t *image, size_t image_len, const uint32_t *work, size_t work_len,
                                  const cfb_volume *volume, const uint16_t *path, size_t path_len);
uint32_t cfb_opened_create_storage(uint8_t *image, size_t image_len, const uint32_t *work, size_t work_len,
                                   const cfb_volume *volume, const uint16_t *path, size_t path_len);

/* cfb_remove. Answers 20 to 22, 28 and 31. */
uint32_t cfb_opened_remove(uint8_t *image, size_t image_len, uint32_t *work, size_t work_len, const cfb_volume *volume,
                           const uint16_t *path, size_t path_len);

/* cfb_list. Answers 27. */
uint32_t cfb_opened_list(const uint8_t *image, size_t image_len, uint32_t *work, size_t work_len, const cfb_volume *volume,
                         uint8_t *out, size_t out_len, uint64_t *count);

#ifdef __cplusplus
}
#endif

#endif
