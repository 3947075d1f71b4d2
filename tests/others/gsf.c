/* gsf FILE SUM: times libgsf on the file of tests/bench's last table, which lies in memory, and prints a row of a table in
 * Markdown. The bytes of all reads have to add up to the sum. */
#include <gsf/gsf.h>
#include <stdio.h>
#include <stdlib.h>
#include <time.h>

enum { ROUNDS = 7, STREAMS = 5000, READS = 1000, BYTES = 1000 };

static void need(int held, const char *what) {
    if (!held) {
        fprintf(stderr, "gsf: %s\n", what);
        exit(1);
    }
}

/* The same stream for the same i as in src/bench/many.rs. */
static void read_one(GsfInfile *root, int i, guint8 *out) {
    char storage[32], stream[32];
    int number = i * 1237 % STREAMS;
    snprintf(storage, sizeof storage, "storage %05d", number / 100 * 100);
    snprintf(stream, sizeof stream, "stream %05d", number);
    GsfInput *inside = gsf_infile_child_by_name(root, storage);
    need(inside != NULL, "no such storage");
    GsfInput *found = gsf_infile_child_by_name(GSF_INFILE(inside), stream);
    need(found != NULL, "no such stream");
    need(gsf_input_read(found, BYTES, out) != NULL, "no such bytes");
    g_object_unref(found);
    g_object_unref(inside);
}

/* The processor's time in milliseconds, as in src/bin/bench/times.rs. */
static double now(void) {
    struct timespec time;
    clock_gettime(CLOCK_PROCESS_CPUTIME_ID, &time);
    return time.tv_sec * 1e3 + time.tv_nsec / 1e6;
}

static int by_size(const void *a, const void *b) {
    double x = *(const double *)a, y = *(const double *)b;
    return (x > y) - (x < y);
}

static double median(double *times) {
    qsort(times, ROUNDS, sizeof *times, by_size);
    return times[ROUNDS / 2];
}

int main(int count, char **words) {
    gchar *image;
    gsize len;
    static guint8 out[READS * BYTES];
    double opens[ROUNDS], reads[ROUNDS];
    need(count == 3 && g_file_get_contents(words[1], &image, &len, NULL), "give a file that can be read, and the sum");
    gsf_init();
    for (int round = 0; round < ROUNDS; round++) {
        GsfInput *input = gsf_input_memory_new((guint8 *)image, len, FALSE);
        double start = now();
        GsfInfile *root = gsf_infile_msole_new(input, NULL);
        double opened = now();
        need(root != NULL, "does not open the file");
        for (int i = 0; i < READS; i++)
            read_one(root, i, out + i * BYTES);
        double done = now();
        opens[round] = opened - start;
        reads[round] = done - opened;
        g_object_unref(root);
        g_object_unref(input);
    }
    unsigned long sum = 0;
    for (int i = 0; i < READS * BYTES; i++)
        sum += out[i];
    need(sum == strtoul(words[2], NULL, 10), "reads other bytes");
    printf("| libgsf %d.%d.%d | %.3f | %.3f |\n", libgsf_major_version, libgsf_minor_version, libgsf_micro_version,
           median(opens), median(reads));
    return 0;
}
