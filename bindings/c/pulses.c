/* Keeps pulses in the stream Site/log of a compound file, behind the text that it has, until the image has no room for another:
 * pulses FILE. */
#include <string.h>
#include "shared.h"
#include "pulse.h"

/* What every call is given. */
struct file {
    uint8_t *image;
    size_t image_len;
    uint32_t *work;
    size_t work_len;
};

static const uint16_t log_path[] = u"Site/log";
static const size_t log_len = sizeof log_path / sizeof *log_path - 1, site_len = 4;

/* Adds a pulse, and gives the total of all pulses of the stream. The answer is 0, or the number of the refusal: then the image
 * is as it was. */
uint32_t note_pulse(uint8_t *image, size_t image_len, uint32_t *work, size_t work_len, const uint16_t *path, size_t path_len,
                    uint16_t valve, uint32_t ticks, uint64_t *total) {
    uint32_t count;
    uint32_t answer = pulse_add(image, image_len, work, work_len, path, path_len, valve, ticks);
    if (answer == CFB_DONE)
        answer = pulse_summary(image, image_len, work, work_len, path, path_len, &count, total);
    return answer;
}

static void expect(const char *what, int held) {
    if (!held)
        fail(what, "is not as it should be");
}

/* The last 16 bytes of the text become the trailer of no records; what stands before them is the preamble. */
static void begin(struct file *file, uint64_t *preamble) {
    static const uint8_t no_records[] = PULSE_NO_RECORDS;
    uint32_t entry, type;
    uint64_t size;
    expect_done("find", cfb_find(file->image, file->image_len, file->work, file->work_len, log_path, log_len, &entry, &type,
                                 &size));
    *preamble = size - sizeof no_records;
    expect_done("overwrite", cfb_overwrite(file->image, file->image_len, file->work, file->work_len, log_path, log_len,
                                           *preamble, no_records, sizeof no_records));
}

/* The summary of the log, or of what a shorter path leads to. After a refusal both values are 0. */
static void summed(struct file *file, size_t path_len, uint32_t answer, uint32_t records, uint64_t ticks) {
    uint32_t count = 7;
    uint64_t total = 7;
    uint32_t given = pulse_summary(file->image, file->image_len, file->work, file->work_len, log_path, path_len, &count,
                                   &total);
    expect("the summary", given == answer && count == records && total == ticks);
}

static void recorded(struct file *file, uint32_t number, uint32_t answer, uint16_t due_valve, uint32_t due_ticks) {
    uint16_t valve = 7;
    uint32_t ticks = 7;
    uint32_t given = pulse_record(file->image, file->image_len, file->work, file->work_len, log_path, log_len, number, &valve,
                                  &ticks);
    expect("the record", given == answer && valve == due_valve && ticks == due_ticks);
}

/* A refused addition leaves the image. */
static void refused(struct file *file, size_t path_len, uint32_t ticks, uint32_t answer) {
    uint8_t *before = room(file->image_len, 1);
    memcpy(before, file->image, file->image_len);
    uint32_t given = pulse_add(file->image, file->image_len, file->work, file->work_len, log_path, path_len, 1, ticks);
    expect("the answer", given == answer);
    expect("the image", memcmp(before, file->image, file->image_len) == 0);
    free(before);
}

/* Pulse number k: the first two alone have more ticks than 32 bits hold. */
static uint16_t valve_of(uint32_t k) {
    return (uint16_t)(k % 5);
}

static uint32_t ticks_of(uint32_t k) {
    return k < 2 ? UINT32_MAX : 1 + 3 * k;
}

/* Adds pulses until there is no room for another. Each is in the total. */
static uint32_t keep(struct file *file, uint64_t *sum) {
    uint32_t count = 0, answer = CFB_DONE;
    *sum = 0;
    while (answer == CFB_DONE) {
        uint64_t total;
        answer = note_pulse(file->image, file->image_len, file->work, file->work_len, log_path, log_len, valve_of(count),
                            ticks_of(count), &total);
        if (answer == CFB_DONE) {
            *sum += ticks_of(count++);
            expect("the total", total == *sum);
        }
    }
    expect("the answer", answer == CFB_TOO_FEW_FREE);
    return count;
}

/* So many bytes of the stream's beginning. */
static uint8_t *front(struct file *file, uint64_t length) {
    uint8_t *bytes = room(length, 1);
    uint64_t count;
    expect_done("read", cfb_read(file->image, file->image_len, file->work, file->work_len, log_path, log_len, 0, bytes, length,
                                 &count));
    expect("the count", count == length);
    return bytes;
}

/* A trailer with another count: every call is refused for it, an addition before 41 and 26. */
static void disagree(struct file *file, uint64_t preamble, uint32_t count) {
    const uint8_t more = (uint8_t)(count + 1);
    expect_done("overwrite", cfb_overwrite(file->image, file->image_len, file->work, file->work_len, log_path, log_len,
                                           preamble + 8 * (uint64_t)count + 4, &more, 1));
    summed(file, log_len, PULSE_NOT_PULSES, 0, 0);
    recorded(file, 0, PULSE_NOT_PULSES, 0, 0);
    refused(file, log_len, 0, PULSE_NOT_PULSES);
}

int main(int argc, char **argv) {
    struct file file;
    uint64_t preamble, total;

    if (argc != 2)
        fail("usage", "pulses FILE");
    file.image = read_file(argv[1], &file.image_len);
    file.work_len = CFB_WORK_NEED(file.image_len);
    file.work = room(file.work_len, sizeof *file.work);

    summed(&file, log_len, PULSE_NOT_PULSES, 0, 0);
    begin(&file, &preamble);
    summed(&file, log_len, CFB_DONE, 0, 0);
    recorded(&file, 0, PULSE_NO_RECORD, 0, 0);
    uint8_t *text = front(&file, preamble);

    uint32_t count = keep(&file, &total);
    summed(&file, log_len, CFB_DONE, count, total);
    for (uint32_t k = 0; k < count; k++)
        recorded(&file, k, CFB_DONE, valve_of(k), ticks_of(k));
    recorded(&file, count, PULSE_NO_RECORD, 0, 0);
    uint8_t *still = front(&file, preamble);
    expect("the preamble", memcmp(text, still, preamble) == 0);

    /* there is no room, which comes last */
    refused(&file, log_len, 1, CFB_TOO_FEW_FREE);
    refused(&file, log_len, 0, PULSE_NO_TICKS);
    refused(&file, site_len, 0, CFB_NOT_A_STREAM);
    refused(&file, log_len - 1, 0, CFB_NOT_FOUND);
    summed(&file, site_len, CFB_NOT_A_STREAM, 0, 0);
    disagree(&file, preamble, count);
    printf("kept %u pulses of %llu ticks behind %llu bytes\n", (unsigned)count, (unsigned long long)total,
           (unsigned long long)preamble);
    free(text);
    free(still);
    free(file.work);
    free(file.image);
    return 0;
}
