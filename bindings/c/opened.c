/* Many calls on one validation: adds up the bytes of the stream Site/log of a compound file; then opens the file, lists it,
 * counts the lines of the stream, adds a line to it, counts again, and closes. Then the changed image is validated: opened FILE. */
#include "shared.h"
#include "cfb_opened.h"

/* Adds up the bytes of a stream, which it reads piece by piece on one validation. */
uint32_t sum_bytes(const uint8_t *image, size_t image_len, uint32_t *work, size_t work_len, const uint16_t *path,
                   size_t path_len, uint64_t *sum) {
    cfb_volume volume;
    uint8_t piece[300];
    uint64_t offset = 0, count;
    *sum = 0;
    uint32_t answer = cfb_open(image, image_len, work, work_len, &volume);
    if (answer != CFB_DONE)
        return answer;
    do {
        answer = cfb_opened_read(image, image_len, work, work_len, &volume, path, path_len, offset, piece, sizeof piece,
                                 &count);
        for (uint64_t i = 0; i < count; i++)
            *sum += piece[i];
        offset += count;
    } while (count != 0); /* at the stream's end, and after a refusal, it is 0 */
    cfb_close(image, image_len, work, work_len, &volume);
    return answer;
}

/* What every call is given. While the volume is open, only the calls write to any of it. */
struct file {
    uint8_t *image;
    size_t image_len;
    uint32_t *work;
    size_t work_len;
    cfb_volume volume;
};

static void print_listing(struct file *file) {
    static uint8_t out[65536];
    uint64_t count;
    uint32_t answer = cfb_opened_list(file->image, file->image_len, file->work, file->work_len, &file->volume, out,
                                      sizeof out, &count);
    expect_done("list", answer);
    fwrite(out, 1, (size_t)count, stdout);
}

static uint64_t length_of(const struct file *file, const uint16_t *path, size_t path_len) {
    uint32_t entry, type;
    uint64_t size;
    uint32_t answer = cfb_opened_find(file->image, file->image_len, file->work, file->work_len, &file->volume, path,
                                      path_len, &entry, &type, &size);
    expect_done("find", answer);
    return size;
}

/* Counts the lines of a stream. At its end a read gives 0 bytes. */
static void print_lines(const struct file *file, const uint16_t *path, size_t path_len) {
    uint8_t piece[300];
    uint64_t lines = 0, offset = 0, count;
    do {
        uint32_t answer = cfb_opened_read(file->image, file->image_len, file->work, file->work_len, &file->volume, path,
                                          path_len, offset, piece, sizeof piece, &count);
        expect_done("read", answer);
        for (uint64_t i = 0; i < count; i++)
            lines += piece[i] == '\n';
        offset += count;
    } while (count != 0);
    printf("%llu lines in %llu bytes\n", (unsigned long long)lines, (unsigned long long)offset);
}

/* Adds bytes at the end of a stream. */
static void append(struct file *file, const uint16_t *path, size_t path_len, const uint8_t *bytes, size_t bytes_len) {
    uint64_t end = length_of(file, path, path_len);
    uint32_t answer = cfb_opened_set_len(file->image, file->image_len, file->work, file->work_len, &file->volume, path,
                                         path_len, end + bytes_len);
    expect_done("set_len", answer);
    answer = cfb_opened_overwrite(file->image, file->image_len, file->work, file->work_len, &file->volume, path, path_len,
                                  end, bytes, bytes_len);
    expect_done("overwrite", answer);
}

int main(int argc, char **argv) {
    static const uint16_t path[] = u"Site/log";
    const size_t path_len = sizeof path / sizeof *path - 1;
    static const uint8_t line[] = {'e', 'n', 'd', '\n'};
    struct file file;

    if (argc != 2)
        fail("usage", "opened FILE");
    file.image = read_file(argv[1], &file.image_len);
    file.work_len = CFB_WORK_NEED(file.image_len);
    file.work = room(file.work_len, sizeof *file.work);

    uint64_t sum;
    expect_done("sum", sum_bytes(file.image, file.image_len, file.work, file.work_len, path, path_len, &sum));
    printf("bytes add up to %llu\n", (unsigned long long)sum);

    expect_done("open", cfb_open(file.image, file.image_len, file.work, file.work_len, &file.volume));
    print_listing(&file);
    print_lines(&file, path, path_len);
    append(&file, path, path_len, line, sizeof line);
    print_lines(&file, path, path_len);
    cfb_close(file.image, file.image_len, file.work, file.work_len, &file.volume);

    /* every call leaves the image valid */
    expect_done("validate", cfb_validate(file.image, file.image_len, file.work, file.work_len));
    puts("valid");
    free(file.work);
    free(file.image);
    return 0;
}
