/* A first use from C: lists a compound file, prints the end of its stream Site/log, adds a line to it, and writes the changed
 * file where a second name is given: first FILE [NEW]. */
#include "shared.h"
#include "cfb.h"

/* Adds bytes at the end of a stream. The answer is 0, or the number of the refusal: then the image is as it was. */
uint32_t append(uint8_t *image, size_t image_len, uint32_t *work, size_t work_len, const uint16_t *path, size_t path_len,
                const uint8_t *bytes, size_t bytes_len) {
    uint32_t entry, type;
    uint64_t size;
    uint32_t answer = cfb_find(image, image_len, work, work_len, path, path_len, &entry, &type, &size);
    if (answer == CFB_DONE)
        answer = cfb_set_len(image, image_len, work, work_len, path, path_len, size + bytes_len);
    if (answer == CFB_DONE)
        answer = cfb_overwrite(image, image_len, work, work_len, path, path_len, size, bytes, bytes_len);
    return answer;
}

/* Prints the listing, in an out buffer that is made longer until it fits, up to a megabyte. */
static void print_listing(const uint8_t *image, size_t length, uint32_t *work, size_t need) {
    for (size_t out_len = 1024;; out_len *= 2) {
        uint8_t *out = room(out_len, 1);
        uint64_t count;
        uint32_t answer = cfb_list(image, length, work, need, out, out_len, &count);
        if (answer == CFB_DONE)
            fwrite(out, 1, (size_t)count, stdout);
        free(out);
        if (answer == CFB_OUT_TOO_SHORT && out_len < 1048576)
            continue;
        expect_done("list", answer);
        return;
    }
}

/* Prints the last bytes of a stream, at most 64. */
static void print_end(const uint8_t *image, size_t length, uint32_t *work, size_t need, const uint16_t *path,
                      size_t path_len) {
    uint8_t out[64];
    uint32_t entry, type;
    uint64_t size, count;
    expect_done("find", cfb_find(image, length, work, need, path, path_len, &entry, &type, &size));
    uint64_t from = size > sizeof out ? size - sizeof out : 0;
    expect_done("read", cfb_read(image, length, work, need, path, path_len, from, out, sizeof out, &count));
    printf("the last of %llu bytes:\n", (unsigned long long)size);
    fwrite(out, 1, (size_t)count, stdout);
}

int main(int argc, char **argv) {
    /* a path is given in 16-bit units, without the zero that ends the literal */
    static const uint16_t path[] = u"Site/log";
    const size_t path_len = sizeof path / sizeof *path - 1;
    static const uint8_t line[] = {'e', 'n', 'd', '\n'};

    if (argc != 2 && argc != 3)
        fail("usage", "first FILE [NEW]");
    size_t length;
    uint8_t *image = read_file(argv[1], &length);
    size_t need = CFB_WORK_NEED(length);
    uint32_t *work = room(need, sizeof *work); /* it may hold anything, and serves every call */

    expect_done("validate", cfb_validate(image, length, work, need));
    print_listing(image, length, work, need);
    print_end(image, length, work, need, path, path_len);
    expect_done("append", append(image, length, work, need, path, path_len, line, sizeof line));
    print_end(image, length, work, need, path, path_len);
    if (argc == 3)
        write_file(argv[2], image, length);
    free(work);
    free(image);
    return 0;
}
