/* Pages through the stream Site/log of a compound file: every page by a plain call, and then the same stream in pieces of other
 * lengths on one validation. What was read is compared with one long read: paging FILE. */
#include <string.h>
#include "shared.h"
#include "cfb_opened.h"

enum { PAGE = 1024 };

/* What every call is given. */
struct file {
    uint8_t *image;
    size_t image_len;
    uint32_t *work;
    size_t work_len;
};

/* Where a reader is: in which stream, and at which of its bytes. */
struct cursor {
    uint32_t entry;
    uint64_t position;
};

/* The next bytes at a cursor, which moves by the count. A refusal counts 0, and so leaves it where it was. */
static uint32_t read_next(const struct file *file, struct cursor *cursor, uint8_t *page, size_t page_len, uint64_t *count) {
    uint32_t answer = cfb_read_at(file->image, file->image_len, file->work, file->work_len, cursor->entry, cursor->position,
                                  page, page_len, count);
    cursor->position += *count;
    return answer;
}

static void expect(const char *what, int held) {
    if (!held)
        fail(what, "is not as it should be");
}

/* Reads a stream page by page, up to the page that has no bytes. */
static void read_pages(const struct file *file, uint32_t entry, const uint8_t *whole, uint64_t size) {
    struct cursor cursor = {entry, 0};
    uint8_t page[PAGE];
    uint64_t count;
    do {
        expect_done("read_at", read_next(file, &cursor, page, PAGE, &count));
        printf("%llu bytes, up to %llu\n", (unsigned long long)count, (unsigned long long)cursor.position);
        expect("the page", memcmp(page, whole + (cursor.position - count), count) == 0);
    } while (count != 0);
    expect("the end", cursor.position == size);
}

/* Reads a stream to its end in pieces of one length, on one validation. */
static void read_pieces(const struct file *file, uint32_t entry, size_t length, const uint8_t *whole, uint64_t size) {
    cfb_volume volume;
    uint8_t piece[PAGE];
    uint64_t position = 0, count;
    expect_done("open", cfb_open(file->image, file->image_len, file->work, file->work_len, &volume));
    do {
        uint32_t answer = cfb_opened_read_at(file->image, file->image_len, file->work, file->work_len, &volume, entry, position,
                                             piece, length, &count);
        expect_done("read_at", answer);
        expect("the piece", memcmp(piece, whole + position, count) == 0);
        position += count;
    } while (count != 0);
    expect("the end", position == size);
    cfb_close(file->image, file->image_len, file->work, file->work_len, &volume);
}

/* A refusal leaves the cursor and the page as they were. */
static void refused(const struct file *file, uint32_t entry, uint64_t position, uint32_t answer) {
    struct cursor cursor = {entry, position};
    uint8_t page[PAGE];
    uint64_t count;
    memset(page, 'x', PAGE);
    expect("the answer", read_next(file, &cursor, page, PAGE, &count) == answer);
    expect("the cursor", count == 0 && cursor.entry == entry && cursor.position == position);
    for (size_t i = 0; i < PAGE; i++)
        expect("the page", page[i] == 'x');
}

static uint32_t find(const struct file *file, const uint16_t *path, size_t path_len, uint64_t *size) {
    uint32_t entry, type;
    expect_done("find", cfb_find(file->image, file->image_len, file->work, file->work_len, path, path_len, &entry, &type, size));
    return entry;
}

int main(int argc, char **argv) {
    static const uint16_t path[] = u"Site/log";
    const size_t path_len = sizeof path / sizeof *path - 1, storage_len = 4;
    static const size_t lengths[] = {1, 7, 64, 512, PAGE};
    struct file file;
    uint64_t size, count;

    if (argc != 2)
        fail("usage", "paging FILE");
    file.image = read_file(argv[1], &file.image_len);
    file.work_len = CFB_WORK_NEED(file.image_len);
    file.work = room(file.work_len, sizeof *file.work);
    uint32_t site = find(&file, path, storage_len, &size), log = find(&file, path, path_len, &size);
    uint8_t *whole = room(size, 1);
    expect_done("read", cfb_read(file.image, file.image_len, file.work, file.work_len, path, path_len, 0, whole, size, &count));

    read_pages(&file, log, whole, size);
    for (size_t i = 0; i < sizeof lengths / sizeof *lengths; i++)
        read_pieces(&file, log, lengths[i], whole, size);

    /* the root, a storage, and none: also where the position is behind every end */
    refused(&file, 0, 0, CFB_BAD_ENTRY);
    refused(&file, site, 0, CFB_BAD_ENTRY);
    refused(&file, site, UINT64_MAX, CFB_BAD_ENTRY);
    refused(&file, UINT32_MAX, 0, CFB_BAD_ENTRY);
    refused(&file, log, size + 1, CFB_BEYOND);
    refused(&file, log, UINT64_MAX, CFB_BEYOND);
    puts("paged");
    free(whole);
    free(file.work);
    free(file.image);
    return 0;
}
