/* Bends an image as a power cut might, and repairs it: repair FILE. The file has one FAT sector, a storage Site and in it the
 * streams log and Jets. */
#include <string.h>
#include "shared.h"
#include "cfb.h"

enum { OUT = 1000 };

static void expect(const char *what, int held) {
    if (!held)
        fail(what, "is not as it should be");
}

static uint32_t word(const uint8_t *at) {
    return at[0] | (uint32_t)at[1] << 8 | (uint32_t)at[2] << 16 | (uint32_t)at[3] << 24;
}

/* Three cells that stand for nothing, one in the FAT and two in the mini FAT, and the colours of the root and of Site. */
static void bend(uint8_t *image) {
    size_t sector = (size_t)1 << image[30];
    uint8_t *fat = image + sector * (word(image + 76) + 1), *directory = image + sector * (word(image + 48) + 1),
            *mini_fat = image + sector * (word(image + 60) + 1);
    fat[sector - 4] = 5;
    mini_fat[sector - 1] = mini_fat[sector - 5] = 0;
    directory[67] = 7;
    directory[128 + 67] = 0;
}

int main(int argc, char **argv) {
    if (argc != 2)
        fail("usage", "repair FILE");
    size_t length;
    uint8_t *image = read_file(argv[1], &length);
    size_t need = CFB_WORK_NEED(length);
    uint32_t *work = room(need, sizeof *work);
    uint8_t *spare = room(length, 1), *before = room(length, 1), *listing = room(OUT, 1), *out = room(OUT, 1);
    uint64_t changed, count, again;

    /* an accepted image gets black colours and no other change */
    expect_done("list", cfb_list(image, length, work, need, listing, OUT, &count));
    expect_done("repair", cfb_repair(image, length, work, need, spare, length, &changed));
    memcpy(before, image, length);

    bend(image);
    expect("the answer", cfb_validate(image, length, work, need) == CFB_CELLS);
    expect("the answer", cfb_repair(image, length, work, need, spare, length - 1, &changed) == CFB_SHORT_WORK);
    expect("the answer", cfb_repair(image, length, work, need - 1, spare, length, &changed) == CFB_SHORT_WORK);
    memset(spare, 0xEE, length);
    expect_done("repair", cfb_repair(image, length, work, need, spare, length, &changed));
    expect("the number of changes", changed == 5);
    expect("the image", memcmp(image, before, length) == 0);
    for (size_t i = 0; i < length; i++)
        expect("the spare buffer", spare[i] == 0);
    expect_done("list", cfb_list(image, length, work, need, out, OUT, &again));
    expect("the listing", again == count && memcmp(out, listing, count) == 0);
    expect_done("repair", cfb_repair(image, length, work, need, spare, length, &changed));
    expect("the number of changes", changed == 0);

    /* what breaks another rule stays as it is, bent cells and all */
    bend(image);
    image[8] = 1;
    memcpy(before, image, length);
    expect("the answer", cfb_repair(image, length, work, need, spare, length, &changed) == CFB_HEADER);
    expect("the number of changes", changed == 0);
    expect("the image", memcmp(image, before, length) == 0);
    puts("bent and repaired");
    free(out);
    free(listing);
    free(before);
    free(spare);
    free(work);
    free(image);
    return 0;
}
