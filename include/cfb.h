/* Compound files (MS-CFB, versions 3 and 4): the C interface of a library in which every function is proved.
 *
 * An image is a whole file in memory. Its header names its version, and every call goes by it: a version 3 image is cut into
 * sectors of 512 bytes and has 1,536 bytes at least, a version 4 image into sectors of 4,096 bytes and has 12,288 at least.
 * Its length is a multiple of its sectors' and at most CFB_GREATEST_IMAGE.
 *
 * No call requires anything of the bytes that it is given: each call ends and answers. A pointer must point to as many
 * elements as its length says (where the length is 0, to anything but NULL; where it has no length, to one), and what a call
 * writes to must overlap nothing else that it is given.
 *
 * Every call but cfb_format and cfb_repair looks at the whole image first and answers as cfb_validate does where it breaks a
 * rule. Only cfb_overwrite, cfb_set_len, cfb_create_stream, cfb_create_storage, cfb_remove, cfb_format and cfb_repair change
 * the image. After answers 1 and 2 the work buffer is as it was; after any other its first CFB_WORK_NEED(image_len) numbers are
 * zero and the rest is as it was. After any answer but 0 the image and an out buffer are as they were, and every count, entry,
 * type and size is 0.
 *
 * A path is given in 16-bit units (UTF-16, in the machine's byte order) with their number, and no zero behind them. Its names
 * are parted by '/', with none at either end; the empty path is the root. Small and capital letters are the same: a to z,
 * U+00E0 to U+00FF but U+00F7, U+03B1 to U+03C9 but U+03C2, U+0430 to U+045F, and their capitals. No other units are.
 *
 * cfb_opened.h has the same calls on an image that is validated once for all of them, and asks something of the caller for it.
 * pulse.h has calls on streams that keep pulses of valves, and add them up.
 */
#ifndef CFB_H
#define CFB_H

#include <stddef.h>
#include <stdint.h>

#ifdef __cplusplus
extern "C" {
#endif

/* Answers. */
#define CFB_DONE 0u
#define CFB_BAD_LENGTH 1u  /* the length is no multiple of 512 from 1,536 to 67,108,864; in version 4 of 4,096 from 12,288;
                            * or it is another one than a fresh image's number of sectors says */
#define CFB_SHORT_WORK 2u  /* the work buffer has fewer numbers than CFB_WORK_NEED says, or a repair's spare buffer fewer bytes
                            * than the image */
#define CFB_HEADER 10u     /* 10 to 18: the first group of rules that the image breaks, or that a repair leaves broken */
#define CFB_TABLES 11u
#define CFB_CELLS 12u
#define CFB_DIRECTORY 13u
#define CFB_ENTRIES 14u
#define CFB_TREES 15u
#define CFB_MINI 16u
#define CFB_STREAMS 17u
#define CFB_OWNERS 18u
#define CFB_BAD_PATH 20u           /* a name of the path is empty, longer than 31 units, or has a unit 0, '\', ':' or '!' */
#define CFB_NOT_FOUND 21u          /* a storage on the way has no child of that name */
#define CFB_STREAM_ON_THE_WAY 22u  /* a stream stands where a storage is needed */
#define CFB_NOT_A_STREAM 23u       /* the path ends at a storage or the root, and a stream is needed */
#define CFB_BEYOND 24u             /* a read would start, or a write end, behind the stream's end */
#define CFB_TOO_FEW_FREE 26u       /* there are too few free sectors, or mini sectors */
#define CFB_OUT_TOO_SHORT 27u      /* the listing is longer than the out buffer */
#define CFB_NOT_EMPTY 28u          /* the storage to be removed has something in it */
#define CFB_ALREADY_THERE 29u      /* the path of a new object leads to something already; the empty one to the root */
#define CFB_NO_BLANK_ENTRY 30u     /* no entry of the directory is blank */
#define CFB_ROOT_REMOVED 31u       /* the root cannot be removed */
#define CFB_PLAN_DOES_NOT_FIT 32u  /* a fresh image cannot have the version or the parts that are asked for */
#define CFB_BAD_ENTRY 33u          /* the entry number is beyond the directory, or of an entry that is no stream */

/* Types of an entry. */
#define CFB_STORAGE 1u
#define CFB_STREAM 2u
#define CFB_ROOT 5u

/* The longest image, in bytes, of either version. */
#define CFB_GREATEST_IMAGE 67108864u

/* How many 32-bit numbers the work buffer needs for an image of n bytes, of either version. */
#define CFB_WORK_NEED(n) (13u * ((size_t)(n) / 512u))

/* Whether an image keeps every rule: 0, or the number of the first group that it breaks. The time is linear in the image's
 * length, whatever its bytes. */
uint32_t cfb_validate(const uint8_t *image, size_t image_len, uint32_t *work, size_t work_len);

/* The entry that a path leads to: its number in the directory, its type and its size in bytes (of the root, the size of the
 * stream that holds all small streams; of a storage 0). In version 3 a size is the lower half of the eight bytes that the file
 * has for it: older programs left anything in the upper one. In version 4 all eight count. Answers 20, 21 and 22; of 21 and 22
 * the first name that fails decides. */
uint32_t cfb_find(const uint8_t *image, size_t image_len, uint32_t *work, size_t work_len, const uint16_t *path,
                  size_t path_len, uint32_t *entry, uint32_t *type, uint64_t *size);

/* Copies the bytes of a stream from an offset on to the out buffer: as many as are left of the stream, and as the buffer
 * holds. Their number goes to count, and the out buffer's bytes behind them stay. An offset equal to the stream's length
 * gives 0 bytes. Answers 20 to 24. */
uint32_t cfb_read(const uint8_t *image, size_t image_len, uint32_t *work, size_t work_len, const uint16_t *path,
                  size_t path_len, uint64_t offset, uint8_t *out, size_t out_len, uint64_t *count);

/* cfb_read of the stream that has an entry number, as cfb_find gives it, from a position on. To page through a stream, keep
 * the two numbers and add the count to the position after each call: a refusal counts 0, and so leaves it. Read so to its end,
 * where the count is 0, in any pieces of a byte and more, the stream gives its bytes in order, each once, if the image stays
 * as it is meanwhile. Answers 33 where the entry is blank, a storage or the root, or the directory has none of that number;
 * then 24. */
uint32_t cfb_read_at(const uint8_t *image, size_t image_len, uint32_t *work, size_t work_len, uint32_t entry,
                     uint64_t position, uint8_t *out, size_t out_len, uint64_t *count);

/* Puts bytes into a stream from an offset on. They have to end within it: offset + bytes_len, however large, is at most its
 * length. Nothing else of the image changes. Answers 20 to 24. */
uint32_t cfb_overwrite(uint8_t *image, size_t image_len, uint32_t *work, size_t work_len, const uint16_t *path,
                       size_t path_len, uint64_t offset, const uint8_t *bytes, size_t bytes_len);

/* Gives a stream another length. A shorter one keeps its first bytes, a longer one has zero bytes behind the old ones. The
 * lowest free units are taken, and what a stream no longer needs becomes free; other streams stay as they are. A stream of
 * 4,096 bytes and more lies in sectors, a smaller one in mini sectors of 64 bytes: a length on the other side of that line
 * takes all its units anew, and only free ones of the new kind are room for it. So it may be refused (26) though it is
 * shorter. The upper half of the size becomes zero. The same length again changes nothing, also not that half. The image
 * itself never grows. Answers 20 to 23, and 26. */
uint32_t cfb_set_len(uint8_t *image, size_t image_len, uint32_t *work, size_t work_len, const uint16_t *path, size_t path_len,
                     uint64_t new_len);

/* Creates a stream of no bytes, or a storage with nothing in it. The names before the last lead to the storage that it is put
 * in, or to the root where there is only one name; of 21 and 22 the first of them that fails decides. The last name is kept as
 * it is spelled here. The object gets the directory's lowest blank entry, and takes no sector: the directory itself never
 * grows. All other objects keep their entries. Answers 20 to 22; 29 where the path leads to something already, also in other
 * letters; then 30. */
uint32_t cfb_create_stream(uint8_t *image, size_t image_len, uint32_t *work, size_t work_len, const uint16_t *path,
                           size_t path_len);
uint32_t cfb_create_storage(uint8_t *image, size_t image_len, uint32_t *work, size_t work_len, const uint16_t *path,
                            size_t path_len);

/* Removes a stream, or a storage with nothing in it. The sectors or mini sectors of a stream become free, and its bytes stay
 * there until another stream takes them. The entry becomes blank; all other objects keep theirs, and of those in the same
 * storage only links and colours change. Answers 20 to 22; 28 for a storage with something in it; 31 for the root. */
uint32_t cfb_remove(uint8_t *image, size_t image_len, uint32_t *work, size_t work_len, const uint16_t *path, size_t path_len);

/* Writes a listing of all streams and storages to the out buffer, and its length to count; the out buffer's bytes behind it
 * stay. No zero is put behind it. The first line has the number of objects, and each other line one object, a storage before
 * all that is below it:
 *
 *     objects 3
 *     D 0 Site
 *     F 5000 Site/log
 *     F 70 Site/Jets
 *
 * Siblings stand in the order of the file's trees: shorter names first. A unit that is no printable ASCII character prints as
 * '\' and four digits of base 16. No name has a '/' or a '\' in it, so the text can be read back. Every stream and every
 * storage stands in it once, and no two paths are equal. cfb_find finds each with the type and size of its line; of all
 * other paths, those that equal none of them, it finds the empty one alone. A listing that does not fit answers 27. */
uint32_t cfb_list(const uint8_t *image, size_t image_len, uint32_t *work, size_t work_len, uint8_t *out, size_t out_len,
                  uint64_t *count);

/* Writes a fresh image over the whole buffer, with a root and nothing else: cfb_list gives "objects 0". What the buffer held is
 * not looked at, and no work buffer is lent. None of what is asked for changes as long as the image lives:
 *
 *     version            3, with sectors of 512 bytes, or 4, with sectors of 4,096
 *     sectors            N; the image's length is N + 1 sectors, as the header takes the place of one
 *     directory_sectors  each has 4 entries, in version 4 32: one for the root, and one for each stream and storage to come
 *     mini_fat_sectors   each has cells for 128 mini sectors, in version 4 for 1,024; may be 0
 *     mini_sectors       K, of 64 bytes each, for the streams of fewer than 4,096 bytes; may be 0
 *
 * The library chooses F, the number of FAT sectors: N / 128 rounded up, in version 4 N / 1,024. The DIFAT has D sectors: none
 * up to F = 109, as always in version 4, else (F - 109) / 127 rounded up. The mini sectors take S sectors: K / 8 rounded up, in
 * version 4 K / 64. FAT, DIFAT, directory, mini FAT and mini sectors stand in this order. The other sectors are free, for
 * streams of 4,096 bytes and more: N - F - D - directory_sectors - mini_fat_sectors - S of them.
 *
 * Any numbers may be given. Answers 1 where the version has no such length (an unknown version has those of version 3), or the
 * length is not N + 1 sectors; then 32 where the version is unknown, directory_sectors is 0, the mini FAT has fewer than K
 * cells, or the parts take more than N sectors. A refusal writes nothing. */
uint32_t cfb_format(uint8_t *image, size_t image_len, uint32_t version, uint64_t sectors, uint64_t directory_sectors,
                    uint64_t mini_fat_sectors, uint64_t mini_sectors);

/* Repairs an image that a power cut has bent: cells of FAT and mini FAT that stand for no sector or mini sector, or for one
 * that nobody owns, become free, and the colours of the root, the storages and the streams become black. Nothing else is
 * touched: no name, no link, no size, no chain, no byte of a stream. There are four steps, on a copy:
 *
 *     where 10 and 11 hold                               FAT cells behind the last sector's become free
 *     where then 12 and 13 hold                          colours become black
 *     where then 14, 15 and 16 hold, but for what        mini FAT cells behind the last mini sector's become free
 *         is freed here
 *     where then 10 to 17 hold                           cells of sectors and mini sectors that nobody owns become free
 *
 * The first that cannot be taken is the end of it. The answer is that of cfb_validate for the copy then. With 0 the copy takes
 * the image's place, and the number of cells and colours that differ goes to changed: the image is accepted, and lists and
 * holds what its directory named before. With 10 to 18 the image stays as it was, and changed is 0. An accepted image is
 * answered 0 and gets black colours alone; a second repair changes nothing, and counts 0.
 *
 * The spare buffer has at least image_len bytes, which may hold anything; where it, or the work buffer, is shorter, the answer
 * is 2. After 1 and 2 it is as it was; after any other answer its first image_len bytes are zero, and the rest is as it was.
 * The time is linear in the image's length, whatever its bytes. */
uint32_t cfb_repair(uint8_t *image, size_t image_len, uint32_t *work, size_t work_len, uint8_t *spare, size_t spare_len,
                    uint64_t *changed);

#ifdef __cplusplus
}
#endif

#endif
