/* Plays a stream file through a run of 64 records and prints what `./sgub play --run 64 FILE` prints: one pass and the closing
 * writes. The exit status is 0, 1 for a refused file, and 2 if the file cannot be read. From the root of the repository, once
 * `./sgub` has built the library:
 *
 *     cc -Iinclude examples/play.c target/staticlib/libsgub.a -o play */
#include "sgub.h"

#include <errno.h>
#include <inttypes.h>
#include <stdio.h>
#include <stdlib.h>
#include <string.h>

/* A byte more than the longest stream: a longer file is refused by its length. */
enum { LONGEST = 0xE00001, RUN = 64 };

static void print_call(uint64_t vsync, const struct sgub_vsync *told, const struct sgub_write *run) {
    printf("vsync %" PRIu64 " %zu %s\n", vsync, told->count, told->complete ? "complete" : "more");
    for (size_t i = 0; i < told->count; i++)
        printf("%u %" PRIu32 " %u\n", (unsigned)run[i].target, run[i].address, (unsigned)run[i].value);
}

static int play(struct sgub_player *player, const uint8_t *file, size_t length) {
    /* A file that does not repeat has its closing writes behind the last frame. */
    const uint64_t vsyncs = (uint64_t)player->header.frame_count + !player->header.repeat;
    static struct sgub_write run[RUN];
    for (uint64_t vsync = 1; vsync <= vsyncs; vsync++) {
        struct sgub_vsync told;
        do {
            told = sgub_advance_vsync(player, file, length, run, RUN);
            if (told.number != 0)
                return 2; /* 25, which the player's own file never gets */
            print_call(vsync, &told, run);
        } while (!told.complete);
    }
    return 0;
}

/* Reads a file into LONGEST bytes, and says so where it cannot: a part of a file, or nothing, must not be taken for the file. */
static bool read_file(const char *name, uint8_t *file, size_t *length) {
    FILE *source = fopen(name, "rb");
    if (source == NULL) {
        fprintf(stderr, "play: %s: could not be opened: %s\n", name, strerror(errno));
        return false;
    }
    *length = fread(file, 1, LONGEST, source);
    const bool whole = !ferror(source);
    if (!whole)
        fprintf(stderr, "play: %s: could not be read: %s\n", name, strerror(errno));
    fclose(source);
    return whole;
}

static int play_file(const uint8_t *file, size_t length) {
    struct sgub_started started = sgub_start(file, length);
    if (started.number == 0)
        return play(&started.player, file, length);
    printf("refused %" PRIu32 " %" PRIu64 "\n", started.number, started.place);
    return 1;
}

int main(int argc, char **argv) {
    if (argc != 2) {
        fprintf(stderr, "usage: play FILE\n");
        return 2;
    }
    uint8_t *file = malloc(LONGEST);
    if (file == NULL) {
        fprintf(stderr, "play: no memory for a file\n");
        return 2;
    }
    size_t length;
    const int status = read_file(argv[1], file, &length) ? play_file(file, length) : 2;
    free(file);
    return status;
}
