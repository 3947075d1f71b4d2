/* Makes a compound file from nothing, of version 4 and then of version 3 in the same buffer, and writes the latter: fresh NEW. It
 * has a storage Site with the stream log. */
#include <string.h>
#include "shared.h"
#include "cfb.h"

enum { LENGTH = 61440, LINES = 300 };

static void expect(const char *what, int held) {
    if (!held)
        fail(what, "is not as it should be");
}

/* The storage, the stream, and its lines. */
static void fill(uint8_t *image, uint32_t *work, size_t need) {
    static const uint16_t site[] = u"Site", path[] = u"Site/log";
    static const char line[] = "line 7 of the site's log\n";
    const size_t path_len = sizeof path / sizeof *path - 1, line_len = sizeof line - 1;
    expect_done("create", cfb_create_storage(image, LENGTH, work, need, site, sizeof site / sizeof *site - 1));
    expect_done("create", cfb_create_stream(image, LENGTH, work, need, path, path_len));
    expect_done("set_len", cfb_set_len(image, LENGTH, work, need, path, path_len, LINES * line_len));
    for (size_t i = 0; i < LINES; i++)
        expect_done("overwrite", cfb_overwrite(image, LENGTH, work, need, path, path_len, i * line_len,
                                               (const uint8_t *)line, line_len));
}

/* Whether the image lists so. */
static int lists(const uint8_t *image, uint32_t *work, size_t need, const char *due) {
    uint8_t out[100];
    uint64_t count;
    expect_done("list", cfb_list(image, LENGTH, work, need, out, sizeof out, &count));
    return count == strlen(due) && memcmp(out, due, count) == 0;
}

int main(int argc, char **argv) {
    if (argc != 2)
        fail("usage", "fresh NEW");
    uint8_t *image = room(LENGTH, 1);
    size_t need = CFB_WORK_NEED(LENGTH);
    uint32_t *work = room(need, sizeof *work);
    memset(image, 0xEE, LENGTH); /* what the buffer holds does not matter */

    for (uint32_t version = 4; version >= 3; version--) {
        uint64_t sectors = version == 4 ? 14 : 119;
        /* a directory of two sectors, and 20 mini sectors, whose cells are in one sector */
        expect("the answer", cfb_format(image, LENGTH, version, sectors + 1, 2, 1, 20) == CFB_BAD_LENGTH);
        expect("the answer", cfb_format(image, LENGTH, version, sectors, 0, 1, 20) == CFB_PLAN_DOES_NOT_FIT);
        expect_done("format", cfb_format(image, LENGTH, version, sectors, 2, 1, 20));
        expect("the listing", lists(image, work, need, "objects 0\n"));
        fill(image, work, need);
        expect("the listing", lists(image, work, need, "objects 2\nD 0 Site\nF 7500 Site/log\n"));
    }
    write_file(argv[1], image, LENGTH);
    puts("made from nothing");
    free(work);
    free(image);
    return 0;
}
