/* Times the calls on one file: `measure` builds it and runs it. Prints a name and microseconds a line. */
#define _GNU_SOURCE
#include "cfb.h"
#include <stdio.h>
#include <time.h>

#define PIECE 4096
#define NEED(holds) do { if (!(holds)) { fprintf(stderr, "measure.c:%d: %s\n", __LINE__, #holds); exit(1); } } while (0)

typedef struct stream { char path[1024]; uint64_t len; } stream;

static const char *at_path;
static uint8_t *all;
static size_t all_len;
static cfb_file file = CFB_CLOSED;
static stream *streams, *longest;
static size_t count;

static double now(void) {
    struct timespec t;
    clock_gettime(CLOCK_MONOTONIC, &t);
    return (double)t.tv_sec * 1e6 + (double)t.tv_nsec / 1e3;
}

/* The best of many runs, in microseconds. */
static double best(void (*run)(void)) {
    double begun = now(), least = 1e18;
    for (int times = 0; times < 5 || (times < 200 && now() - begun < 700e3); times++) {
        double at = now();
        run();
        double took = now() - at;
        if (took < least) least = took;
    }
    return least;
}

static void opens(void) {
    cfb_file f = CFB_CLOSED;
    NEED(cfb_open(&f, at_path, false) == CFB_DONE);
    cfb_close(&f);
}

static void opens_bytes(void) {
    cfb_file f = CFB_CLOSED;
    NEED(cfb_open_bytes(&f, all, all_len, false) == CFB_DONE);
    cfb_close(&f);
}

static void reads_whole(void) {
    for (size_t i = 0; i < count; i++) {
        uint8_t *bytes;
        size_t len;
        NEED(cfb_get_malloc(&file, streams[i].path, &bytes, &len) == CFB_DONE && len == streams[i].len);
        free(bytes);
    }
}

static void reads_pieces(void) {
    uint8_t room[PIECE];
    size_t got = 1;
    for (uint64_t at = 0; got; at += got) NEED(cfb_read(&file, longest->path, at, room, PIECE, &got) == CFB_DONE);
}

static void copies_pieces(void) {
    static volatile uint8_t last;
    uint8_t room[PIECE];
    for (size_t at = 0; at + PIECE <= all_len; at += PIECE) { memcpy(room, all + at, PIECE); last = room[at % PIECE]; }
    (void)last;
}

int main(int argc, char **argv) {
    cfb_entries list = CFB_CLOSED;
    size_t entries = 0, len;
    cfb_entry_info info;
    NEED(argc == 2);
    at_path = argv[1];
    FILE *in = fopen(at_path, "rb");
    NEED(in && fseek(in, 0, SEEK_END) == 0 && (all_len = (size_t)ftell(in)) > 0 && (all = malloc(all_len)));
    rewind(in);
    NEED(fread(all, 1, all_len, in) == all_len);
    fclose(in);
    NEED(cfb_open(&file, at_path, false) == CFB_DONE && cfb_walk(&file, "/", &list) == CFB_DONE);
    NEED(cfb_entries_len(&list, &entries) == CFB_DONE && (streams = calloc(entries, sizeof *streams)));
    for (size_t i = 0; i < entries; i++) {
        NEED(cfb_entries_get(&list, i, &info) == CFB_DONE);
        if (info.kind != CFB_STREAM) continue;
        NEED(cfb_entries_path(&list, i, streams[count].path, sizeof streams[count].path - 1, &len) == CFB_DONE);
        streams[count].len = info.len;
        if (!longest || longest->len < info.len) longest = &streams[count];
        count++;
    }
    NEED(longest);
    printf("C open %.1f\n", best(opens));
    printf("C open_bytes %.1f\n", best(opens_bytes));
    printf("C whole %.1f\n", best(reads_whole) / (double)count);
    printf("C piece %.2f\n", best(reads_pieces) / (double)((longest->len + PIECE - 1) / PIECE));
    printf("copy piece %.2f\n", best(copies_pieces) / (double)(all_len / PIECE));
    cfb_entries_close(&list);
    cfb_close(&file);
    free(streams);
    free(all);
    return 0;
}
