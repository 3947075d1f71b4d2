/* Creates and removes streams and storages, with the plain calls and with the same calls on an opened volume, which leave the
 * same image: objects FILE. The file has a storage Site with the streams log (5,000 bytes) and Jets. */
#include <string.h>
#include "shared.h"
#include "cfb_opened.h"

/* An image with its work buffer, opened or not. */
struct file {
    uint8_t *image;
    size_t image_len;
    uint32_t *work;
    size_t work_len;
    cfb_volume volume;
    int opened;
};

static void expect(const char *what, int held) {
    if (!held)
        fail(what, "is not as it should be");
}

static size_t units(const uint16_t *path) {
    size_t count = 0;
    while (path[count] != 0)
        count++;
    return count;
}

static uint32_t create_stream(struct file *f, const uint16_t *path) {
    if (f->opened)
        return cfb_opened_create_stream(f->image, f->image_len, f->work, f->work_len, &f->volume, path, units(path));
    return cfb_create_stream(f->image, f->image_len, f->work, f->work_len, path, units(path));
}

static uint32_t create_storage(struct file *f, const uint16_t *path) {
    if (f->opened)
        return cfb_opened_create_storage(f->image, f->image_len, f->work, f->work_len, &f->volume, path, units(path));
    return cfb_create_storage(f->image, f->image_len, f->work, f->work_len, path, units(path));
}

static uint32_t remove_object(struct file *f, const uint16_t *path) {
    if (f->opened)
        return cfb_opened_remove(f->image, f->image_len, f->work, f->work_len, &f->volume, path, units(path));
    return cfb_remove(f->image, f->image_len, f->work, f->work_len, path, units(path));
}

static uint32_t set_len(struct file *f, const uint16_t *path, uint64_t new_len) {
    if (f->opened)
        return cfb_opened_set_len(f->image, f->image_len, f->work, f->work_len, &f->volume, path, units(path), new_len);
    return cfb_set_len(f->image, f->image_len, f->work, f->work_len, path, units(path), new_len);
}

/* The entry of log and the room that it had are there for what is new. The sample of version 3 has no other blank entry. */
static void come_and_go(struct file *f) {
    expect("the answer", remove_object(f, u"") == CFB_ROOT_REMOVED);
    expect("the answer", remove_object(f, u"Site") == CFB_NOT_EMPTY);
    expect("the answer", create_stream(f, u"SITE/LOG") == CFB_ALREADY_THERE);
    expect("the answer", create_stream(f, u"Site/log/x") == CFB_STREAM_ON_THE_WAY);
    expect_done("remove", remove_object(f, u"Site/log"));
    expect("the answer", remove_object(f, u"Site/log") == CFB_NOT_FOUND);
    expect_done("create", create_storage(f, u"Pumps"));
    expect_done("remove", remove_object(f, u"PUMPS"));
    expect_done("create", create_stream(f, u"Site/log"));
    expect_done("set_len", set_len(f, u"Site/log", 5000));
    uint32_t answer = CFB_DONE;
    for (int i = 0; answer == CFB_DONE; i++) {
        const uint16_t name[] = {u'n', (uint16_t)(u'a' + i), 0};
        answer = create_storage(f, name);
    }
    expect("the answer", answer == CFB_NO_BLANK_ENTRY);
}

/* Every byte of log is zero: nothing is left of the stream that had the name before. */
static void expect_zeros(struct file *f) {
    static uint8_t out[5001];
    static const uint16_t path[] = u"Site/log";
    uint64_t count;
    expect_done("read", cfb_read(f->image, f->image_len, f->work, f->work_len, path, units(path), 0, out, sizeof out, &count));
    expect("the length", count == 5000);
    for (size_t i = 0; i < 5000; i++)
        expect("a byte", out[i] == 0);
}

static struct file file_of(const char *name) {
    struct file f;
    f.image = read_file(name, &f.image_len);
    f.work_len = CFB_WORK_NEED(f.image_len);
    f.work = room(f.work_len, sizeof *f.work);
    f.opened = 0;
    return f;
}

int main(int argc, char **argv) {
    if (argc != 2)
        fail("usage", "objects FILE");
    struct file plain = file_of(argv[1]), opened = file_of(argv[1]);
    come_and_go(&plain);
    expect_done("open", cfb_open(opened.image, opened.image_len, opened.work, opened.work_len, &opened.volume));
    opened.opened = 1;
    come_and_go(&opened);
    cfb_close(opened.image, opened.image_len, opened.work, opened.work_len, &opened.volume);

    expect("the other image", memcmp(plain.image, opened.image, plain.image_len) == 0);
    expect_zeros(&plain);
    expect_done("validate", cfb_validate(plain.image, plain.image_len, plain.work, plain.work_len));
    puts("created and removed");
    free(plain.image);
    free(plain.work);
    free(opened.image);
    free(opened.work);
    return 0;
}
