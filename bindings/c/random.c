/* Calls in any order on handles of any kind, with paths, offsets and lengths that are good and bad.
       random SECONDS [SEED]
   It prints its seed. The sanitizers find what is wrong in memory. What a change that is done leaves is read back, and one
   that fails must leave the bytes of the file. */
#include "cfb.h"
#include <stdio.h>
#include <time.h>

#define CHECK(holds) do { if (!(holds)) { fprintf(stderr, "%s:%d: %s (seed %llu, step %llu)\n", __FILE__, __LINE__, #holds, seed, step); exit(1); } } while (0)

/* Memory that cannot be had is refused, as without the sanitizer. */
const char *__asan_default_options(void);
const char *__asan_default_options(void) { return "allocator_may_return_null=1"; }

static unsigned long long seed, state, step;

static uint32_t next(uint32_t below) {
    state = state * 6364136223846793005u + 1442695040888963407u;
    return (uint32_t)((state >> 33) % below);
}

static const struct { const char *text; size_t len; } paths[] = {
    { "/", 1 }, { "", 0 }, { "/a", 2 }, { "/A", 2 }, { "/a/b", 4 }, { "/a/b/c", 6 }, { "/x", 2 }, { "/a/x", 4 }, { "/a/b/y", 6 },
    { "/z/z", 4 }, { "/..", 3 }, { "/a/../x", 7 }, { "a//x/", 5 }, { "/a:b", 4 }, { "/\xff", 2 }, { "/a\0b", 4 }, { "/\xc3\xa4", 3 },
    { "/aaaaaaaaaaaaaaaaaaaaaaaaaaaaaaaa", 33 }, { NULL, 0 }, { NULL, 3 },
};

static uint8_t pool[70000], room[70000], image[400000], before[400000], after[400000], lent[4][400000], as_lent[4][400000], loan[400000];

/* The bytes of a file as they stand; 0 where none is open, or they are too many to keep. */
static size_t image_of(cfb_file *file, uint8_t *into, size_t most) {
    size_t len = 0;
    return cfb_image(file, 0, into, most, &len) == CFB_DONE && len < most ? len : 0;
}

/* The stream holds these bytes from the offset on, and is at least so long. */
static void holds(cfb_file *file, size_t which, uint64_t at, const uint8_t *bytes, size_t len, bool is_whole) {
    size_t got = 0;
    cfb_entry_info info;
    CHECK(cfb_entry_n(file, paths[which].text, paths[which].len, &info) == CFB_DONE && info.kind == CFB_STREAM);
    CHECK(is_whole ? info.len == at + len : info.len >= at + len);
    CHECK(cfb_read_n(file, paths[which].text, paths[which].len, at, room, len, &got) == CFB_DONE);
    CHECK(got == len && memcmp(room, bytes, len) == 0);
}

/* Calls on lent bytes that change meanwhile, against the rule of cfb.h: what is answered can be wrong, and no more than that. */
static void on_changing_loan(cfb_file *file) {
    cfb_file f = CFB_CLOSED, copy = CFB_CLOSED;
    cfb_entries list = CFB_CLOSED;
    size_t len = image_of(file, loan, sizeof loan), got = 0;
    if (len == 0 || cfb_open_lent(&f, loan, len, false) != CFB_DONE) return;
    for (uint32_t left = 20; left; left--) {
        const char *path = paths[next(10)].text;
        uint8_t number = 0;
        for (uint32_t more = next(9); more; more--) loan[next(3) ? next((uint32_t)len) : next(512)] = (uint8_t)next(256);
        switch (next(12)) {
        case 0: number = cfb_put(&f, path, pool, next(9000)); break;
        case 1: number = cfb_set_len(&f, path, next(9000)); break;
        case 2: number = cfb_copy_bytes(&f, &copy); break;
        case 3: number = cfb_walk(&f, "/", &list); break;
        case 4: case 5: case 6: number = cfb_get(&f, path, room, sizeof room, &got); CHECK(number || got <= sizeof room); break;
        default: number = cfb_read(&f, path, next(20000), room, next(9000), &got); CHECK(number || got < 9000); break;
        }
        CHECK(number <= CFB_NOT_OPEN);
    }
    cfb_entries_close(&list);
    cfb_close(&copy);
    cfb_close(&f);
}

int main(int argc, char **argv) {
    cfb_file f[4] = { CFB_CLOSED, CFB_CLOSED, CFB_CLOSED, CFB_CLOSED };
    unsigned long long seconds = argc > 1 ? strtoull(argv[1], NULL, 10) : 1, counts[12] = { 0 };
    seed = argc > 2 ? strtoull(argv[2], NULL, 10) : (unsigned long long)time(NULL);
    state = seed;
    printf("seed %llu\n", seed);
    fflush(stdout);
    for (size_t i = 0; i < sizeof pool; i++) pool[i] = (uint8_t)next(256);
    time_t end = time(NULL) + (time_t)seconds;
    while (step % 256 || time(NULL) < end) {
        /* Lists and copies mostly go to the last two handles, so that the others stay open. */
        cfb_file *file = next(60) ? &f[next(4) ? next(2) : next(4)] : NULL, *other = next(60) ? &f[next(9) ? 2 + next(2) : next(4)] : NULL;
        cfb_entries *list = (cfb_entries *)other;
        size_t which = next(sizeof paths / sizeof *paths), len = next(4) ? next(300) : next(sizeof pool), got = 0, n = paths[which].len;
        const char *path = paths[which].text;
        uint64_t at = next(4) ? next(300) : next(8) ? next(100000) : UINT64_MAX - next(9), moment = (uint64_t)next(1000) << next(54), long_len;
        bool is;
        uint32_t version;
        cfb_entry_info info;
        uint8_t number = 0;
        uint32_t call = next(48);
        bool is_change = call >= 32, is_broken = false;
        size_t had = is_change && step % 4 == 0 ? image_of(file, before, sizeof before) : 0;
        step++;
        switch (call) {
        case 0: number = cfb_create_bytes(file, 2 + next(4)); break;
        case 1: if (next(9) == 0) { cfb_close(file); } break;
        case 2: cfb_entries_close(list); break;
        case 3: number = cfb_copy_bytes(file, other); break;
        case 4: if (next(9) == 0) { number = cfb_into_bytes(file, &got); } break;
        case 5: number = cfb_bytes(file, room, len, &got); CHECK(number || got <= len); break;
        case 6: number = cfb_bytes_begin(next(9) ? other : file, next(9) ? len : SIZE_MAX / (1 + next(9))); break;
        case 7: number = cfb_bytes_add(file, pool, len); break;
        case 8: number = cfb_bytes_open(file, next(2)); break;
        case 9: number = cfb_open_bytes(next(9) ? other : file, pool, len, next(2)); break;
        case 10: /* a file over bytes that are lent, and must stay as they are */
            if (cfb_image(file, 0, image, sizeof image, &got) == CFB_DONE && got > 0) {
                uint32_t to = next(4);
                cfb_close(&f[to]);
                memcpy(lent[to], image, got);
                memcpy(as_lent[to], image, got);
                number = cfb_open_lent(&f[to], lent[to], got, next(2));
            }
            break;
        case 11: /* a file with some bytes changed */
            if (cfb_image(file, 0, image, sizeof image, &got) == CFB_DONE && got > 0) {
                for (uint32_t left = next(6); left; left--) image[next(2) ? next(512) : next((uint32_t)got)] = (uint8_t)next(256);
                number = cfb_open_bytes(next(4) ? other : file, image, next(3) ? got : next((uint32_t)got), next(2));
            }
            break;
        case 12: number = cfb_image_len(file, &long_len); break;
        case 13: number = cfb_image(file, at, room, len, &got); CHECK(number || got <= len); break;
        case 14: number = cfb_version(file, &version); CHECK(number || version == 3 || version == 4); break;
        case 15: number = cfb_is_sound(file, &is); break;
        case 16: number = cfb_is_failed(file, &is); break;
        case 17: number = cfb_exists_n(file, path, n, &is); break;
        case 18: number = cfb_is_stream_n(file, path, n, &is); break;
        case 19: number = cfb_is_storage_n(file, path, n, &is); break;
        case 20: number = cfb_entry_n(file, path, n, &info); CHECK(number || info.name_len == strlen(info.name)); break;
        case 21: number = cfb_reason(file, (char *)room, next(64), &got); CHECK(number || got < 64); break;
        case 22: case 23: number = cfb_list_n(file, path, n, list); break;
        case 24: case 25: number = cfb_walk_n(file, path, n, list); break;
        case 26: number = cfb_entries_len(list, &got); break;
        case 27: number = cfb_entries_get(list, next(9), &info); break;
        case 28: number = cfb_entries_path(list, next(9), (char *)room, next(40), &got); CHECK(number || got < 40); break;
        case 29: case 30: number = cfb_read_n(file, path, n, at, room, len, &got); CHECK(number || got <= len); break;
        case 31: number = cfb_get_n(file, path, n, room, len, &got); CHECK(number || got <= len); break;
        case 32: case 33:
            number = cfb_put_n(file, path, n, pool, len);
            if (!number) holds(file, which, 0, pool, len, true);
            break;
        case 34:
            number = cfb_create_stream_n(file, path, n, next(2));
            if (!number) holds(file, which, 0, pool, 0, true);
            break;
        case 35: case 36:
            number = cfb_write_n(file, path, n, at, pool, len);
            if (!number) holds(file, which, at, pool, len, false);
            break;
        case 37:
            if (next(9)) at = len;
            number = cfb_set_len_n(file, path, n, at);
            if (!number) holds(file, which, at, pool, 0, true);
            break;
        case 38: number = cfb_remove_stream_n(file, path, n); break;
        case 39: case 40: number = cfb_create_storage_n(file, path, n, moment); break;
        case 41: number = cfb_create_storage_all_n(file, path, n, moment); break;
        case 42: number = cfb_remove_storage_n(file, path, n); break;
        case 43: if (next(3) == 0) { number = cfb_remove_storage_all_n(file, path, n); } break;
        case 44: number = cfb_set_clsid_n(file, path, n, next(9) ? pool : NULL); break;
        case 45: number = cfb_set_state_bits_n(file, path, n, (uint32_t)at); break;
        case 46: number = cfb_set_created_n(file, path, n, moment); break;
        case 47: number = cfb_set_modified_n(file, path, n, moment); break;
        }
        CHECK(number <= CFB_NOT_OPEN);
        if (step % 64 == 0) { CHECK(memcmp(lent, as_lent, sizeof lent) == 0); on_changing_loan(&f[next(2)]); }
        counts[number]++;
        if (number == CFB_NOT_OPEN && (file == &f[0] || file == &f[1]) && next(2)) CHECK(cfb_create_bytes(file, 3 + next(2)) == CFB_DONE);
        /* A whole write that runs out of room midway, and storages that are made one after the other, leave a part. */
        if (number && had && call != 41 && call != 32 && call != 33 && cfb_is_failed(file, &is_broken) == CFB_DONE && !is_broken) {
            CHECK(image_of(file, after, sizeof after) == had && memcmp(before, after, had) == 0);
        }
    }
    for (int i = 0; i < 4; i++) cfb_close(&f[i]);
    printf("%llu calls:", step);
    for (int i = 0; i < 12; i++) printf(" %d=%llu", i, counts[i]);
    puts("");
    return 0;
}
