/* Takes a stream over the cutoff of 4,096 bytes and back, where a file keeps a stream elsewhere: with the plain calls, and with
 * the same calls on an opened volume. Its bytes stay, and the images are the same: cutoff FILE. The file has the streams
 * Site/log (5,000 bytes) and Site/Jets (70 bytes), and nothing free. */
#include <string.h>
#include "shared.h"
#include "cfb_opened.h"

static const uint16_t log_path[] = u"Site/log", jets_path[] = u"Site/Jets";
enum { LOG_LEN = 8, JETS_LEN = 9, JETS = 70, LARGE = 4096 };

/* An image with its work buffer, opened or not. */
struct file {
    uint8_t *image;
    size_t image_len;
    uint32_t *work;
    size_t work_len;
    cfb_volume volume;
    int opened;
};

static void expect(const char *what, int held) {
    if (!held)
        fail(what, "is not as it should be");
}

static uint32_t set_len(struct file *f, const uint16_t *path, size_t path_len, uint64_t new_len) {
    if (f->opened)
        return cfb_opened_set_len(f->image, f->image_len, f->work, f->work_len, &f->volume, path, path_len, new_len);
    return cfb_set_len(f->image, f->image_len, f->work, f->work_len, path, path_len, new_len);
}

/* The stream Jets: its first bytes are these, so many in all, and the rest is zero. */
static void expect_jets(struct file *f, const uint8_t *first, size_t kept, size_t length) {
    uint8_t out[LARGE + 1];
    uint64_t count;
    uint32_t answer;
    if (f->opened)
        answer = cfb_opened_read(f->image, f->image_len, f->work, f->work_len, &f->volume, jets_path, JETS_LEN, 0, out,
                                 sizeof out, &count);
    else
        answer = cfb_read(f->image, f->image_len, f->work, f->work_len, jets_path, JETS_LEN, 0, out, sizeof out, &count);
    expect_done("read", answer);
    expect("the length", count == length);
    expect("what is kept", memcmp(out, first, kept) == 0);
    for (size_t i = kept; i < length; i++)
        expect("a byte behind it", out[i] == 0);
}

/* Jets finds no sectors until log gives some up, and log no mini sectors. */
static void over_and_back(struct file *f, const uint8_t *jets) {
    expect("the answer", set_len(f, jets_path, JETS_LEN, LARGE) == CFB_TOO_FEW_FREE);
    expect("the answer", set_len(f, log_path, LOG_LEN, LARGE - 1) == CFB_TOO_FEW_FREE);
    expect_jets(f, jets, JETS, JETS);
    expect_done("set_len", set_len(f, log_path, LOG_LEN, 0));
    expect_done("set_len", set_len(f, jets_path, JETS_LEN, LARGE));
    expect_jets(f, jets, JETS, LARGE);
    expect_done("set_len", set_len(f, jets_path, JETS_LEN, 10));
    expect_jets(f, jets, 10, 10);
    expect_done("set_len", set_len(f, jets_path, JETS_LEN, LARGE));
    expect_jets(f, jets, 10, LARGE);
}

static struct file file_of(const char *name) {
    struct file f;
    f.image = read_file(name, &f.image_len);
    f.work_len = CFB_WORK_NEED(f.image_len);
    f.work = room(f.work_len, sizeof *f.work);
    f.opened = 0;
    return f;
}

int main(int argc, char **argv) {
    if (argc != 2)
        fail("usage", "cutoff FILE");
    struct file plain = file_of(argv[1]), opened = file_of(argv[1]);
    uint8_t jets[JETS];
    uint64_t count;
    expect_done("read", cfb_read(plain.image, plain.image_len, plain.work, plain.work_len, jets_path, JETS_LEN, 0, jets,
                                 sizeof jets, &count));
    expect("the length", count == JETS);

    over_and_back(&plain, jets);
    expect_done("open", cfb_open(opened.image, opened.image_len, opened.work, opened.work_len, &opened.volume));
    opened.opened = 1;
    over_and_back(&opened, jets);
    cfb_close(opened.image, opened.image_len, opened.work, opened.work_len, &opened.volume);

    expect("the other image", memcmp(plain.image, opened.image, plain.image_len) == 0);
    expect_done("validate", cfb_validate(plain.image, plain.image_len, plain.work, plain.work_len));
    puts("over the cutoff and back");
    free(plain.image);
    free(plain.work);
    free(opened.image);
    free(opened.work);
    return 0;
}
