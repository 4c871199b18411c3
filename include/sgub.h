/* The SGUB library: the verdict on a stream file, its cards and its pools, the player, indexes and jumps, repacking, the comparison,
 * joining, and the pitch of a note.
 *
 * Every function takes any bytes, ends, and keeps no pointer. A file is a pointer and a length; a file of length 0 may have any
 * pointer but NULL. What the numbers mean is in the format sheet's list of refusals. */
#ifndef SGUB_H
#define SGUB_H

#include <stdbool.h>
#include <stddef.h>
#include <stdint.h>

#ifdef __cplusplus
extern "C" {
#endif

/* The verdict on a file. */
struct sgub_verdict {
    uint32_t number; /* 0: accepted; else the number of the first refusal, 1 to 20 */
    uint64_t place;  /* the place of the refusal */
    /* What the header says; all 0 for a refused file. */
    uint8_t version;
    bool repeats;
    bool uses_si22; /* some operation has target 11 */
    uint8_t card_count;
    uint32_t frame_period;
    uint32_t frame_count;
    uint32_t pool_count;
    uint32_t initial_count;
    uint32_t directory_offset;
    uint32_t initial_start;
    uint64_t frame_start;
    uint32_t total_size;
};

struct sgub_verdict sgub_check(const uint8_t *file, size_t length);

/* A card that a file of version 4 asks for. */
struct sgub_card_requirement {
    uint8_t slot;
    uint8_t id_length;
    uint32_t id_offset;
    uint32_t bulk_start;
    uint32_t bulk_length;
    uint8_t id[16];
};

/* A card of a file. */
struct sgub_card {
    uint32_t number; /* 0, or the file's refusal */
    uint64_t place;
    struct sgub_card_requirement card; /* all 0 from the card count on, and for a refused file */
};

/* The card of a file by its index, with the whole file checked first. */
struct sgub_card sgub_card(const uint8_t *file, size_t length, size_t index);

/* A pool: its kind (1 wave, 2 PCM, 3 card), and the part of the file that is its payload. */
struct sgub_pool {
    uint32_t number; /* 0, or the file's refusal */
    uint64_t place;
    uint8_t kind; /* 0 for an unknown pool */
    uint64_t offset;
    uint64_t size; /* 0 for an unknown pool */
};

/* The pool of a file by its id, with the whole file checked first. */
struct sgub_pool sgub_pool(const uint8_t *file, size_t length, uint16_t id);

/* An entry of the pool directory: the kind, and the part of the file that is the payload. */
struct sgub_pool_entry {
    uint8_t kind;
    uint32_t size;
    uint32_t offset;
};

/* The answer of a listing. */
struct sgub_pools {
    uint32_t number; /* 0, or the file's refusal */
    uint64_t place;
    uint64_t count; /* the pools of the file, however few of them the run holds; 0 for a refused file */
};

/* Checks the whole file once and lists its pools, by their ids from 0 on, into a run of room entries: as many as it holds. The
 * entries behind them stay as they were; a refusal writes nothing. 65,536 entries are room for every file. The run may not overlap the
 * file; a run of room 0 may have any pointer but NULL. */
struct sgub_pools sgub_pools(const uint8_t *file, size_t length, struct sgub_pool_entry *pools, size_t room);

/* PLAYING. A player is a plain value: it may be copied and put away, and nothing has to be freed. Its file is lent again to each
 * call. Any numbers may stand in a player's fields (a bool is 0 or 1, as in all of C), so that a player may come from a file too. */

/* What the header of the player's file says; all 0 for a refused file. */
struct sgub_header {
    uint8_t version;
    bool repeat;
    uint32_t frame_period; /* 0 below version 4 */
    uint8_t card_count;
    uint32_t frame_count;
    uint32_t pool_count;
    uint32_t initial_count;
    uint32_t directory_offset;
    uint32_t initial_start;
    size_t frame_start;
    uint32_t total_size;
};

/* The cards of the player's file; those from the count on are all 0. */
struct sgub_card_table {
    struct sgub_card_requirement cards[8];
    size_t count;
};

/* The pool that was last copied to a channel of a core, if any was; sgub_wave_source gives it. */
struct sgub_wave_source {
    bool copied;
    uint16_t pool; /* 0 if none was */
};

/* How far a player is. */
struct sgub_progress {
    uint8_t part; /* what is playing: 0 nothing yet of the next vsync, 1 the opening, 2 a frame, 3 the closing writes */
    size_t cursor;
    uint32_t operation_index; /* operations that are done, of operation_count */
    uint32_t operation_count;
    uint32_t write_index; /* writes that are done of the operation at cursor, or of the closing writes */
    uint32_t frame_index; /* frames of this pass that are begun */
    bool initialized;
    bool finished; /* every closing write was given */
    struct sgub_wave_source wave_sources[16];
};

/* A player: what its start recorded, then its progress. The questions of the original are reads: its version is header.version,
 * frame_count header.frame_count, repeats header.repeat, frame_period header.frame_period, card_requirements cards, uses_si22
 * uses_si22, frame_index progress.frame_index, is_finished progress.finished; wave_source is sgub_wave_source. */
struct sgub_player {
    struct sgub_header header;
    struct sgub_card_table cards;
    bool uses_si22; /* some operation has target 11 */
    struct sgub_progress progress;
};

/* The verdict on a file as sgub_check gives it, and its player. The player of a refused file is finished. */
struct sgub_started {
    uint32_t number;
    uint64_t place;
    struct sgub_player player;
};

struct sgub_started sgub_start(const uint8_t *file, size_t length);

/* A write: target 0 or 1, a core; 2, PCM memory, which both cores have; 3 to 11, a device. */
struct sgub_write {
    uint8_t target;
    uint32_t address;
    uint8_t value;
};

/* What a call of sgub_advance_vsync did. */
struct sgub_vsync {
    uint32_t number; /* 0, or 25: player and file do not belong together, and nothing was changed */
    uint64_t place;  /* 0: the place of 25 */
    size_t count;    /* writes at the front of the run */
    bool complete;   /* no write of this vsync is left */
};

/* Gives as many of the vsync's remaining writes as the run holds, and leaves the records behind them as they are. A vsync is over
 * when a call says complete; with a run of n records its w writes take w / n calls, rounded up, and at least one. A run of count
 * 0 may have any pointer but NULL. Player, file and run do not overlap. */
struct sgub_vsync sgub_advance_vsync(struct sgub_player *player, const uint8_t *file, size_t length, struct sgub_write *run,
                                     size_t count);

/* The pool last copied to a channel of a core by the player, with the COPY's first write; none outside of 2 cores and 8 channels. */
struct sgub_wave_source sgub_wave_source(struct sgub_player player, size_t core, size_t channel);

/* INDEXES AND JUMPS. The index of a file says where the counts of frames 1, 65, 129 and so on stand. A jump sets a player to a frame. */

/* The most bytes of an index: one of 114,688 entries, for a file of empty frames. */
#define SGUB_LONGEST_INDEX 458764

/* The answer of building an index. */
struct sgub_indexed {
    uint32_t number; /* 0: written; else the number of the first refusal, 1 to 20, or 24: the buffer is too short */
    uint64_t place;  /* the place of the refusal */
    uint64_t size;   /* the length of the index; 0 for a refusal */
};

/* Checks the whole file and builds its index into a buffer of room bytes. The index stands at the buffer's start, and the bytes behind it
 * stay as they were; a refusal writes nothing. An index has 4 bytes for each 64 frames, rounded up, and 12 more; SGUB_LONGEST_INDEX bytes
 * are room for every index. The buffer may not overlap the file; a buffer of 0 bytes may have any pointer but NULL. */
struct sgub_indexed sgub_index(const uint8_t *file, size_t length, uint8_t *buffer, size_t room);

/* The answer of a jump. */
struct sgub_jumped {
    uint32_t number; /* 0: the player is at the frame; else the number of the first refusal, and nothing was changed: 1 to 20 for the
                      * file; 25: player and file do not belong together; 26: the index is not the one that sgub_index builds of this
                      * file; 27: the frame is 0 or above the frame count */
    uint64_t place;  /* the place of the refusal */
};

/* Sets a player to a frame, counted from 1: the next vsync gives that frame's writes, and the later ones follow as usual. Writes that
 * are left over from a vsync are dropped, wave sources stay, and the opening is not played. The whole file is checked. A finished
 * player plays again. Player, file and index do not overlap; an index of 0 bytes may have any pointer but NULL. */
struct sgub_jumped sgub_jump(struct sgub_player *player, const uint8_t *file, size_t length, const uint8_t *index, size_t index_length,
                             uint32_t frame);

/* The answer of repacking. */
struct sgub_repacked {
    uint32_t number; /* 0: written; else the number of the first refusal, 1 to 24 */
    uint64_t place;  /* the place of the refusal */
    uint64_t size;   /* the length of the result; 0 for a refusal */
};

/* Repacks a master, which is a file of version 1, as a file of version 2 into a buffer of room bytes. The result stands at the
 * buffer's start, and the bytes behind it stay as they were; a refusal writes nothing. 0xE00000 bytes are room for every result. The
 * buffer may not overlap the file; a buffer of 0 bytes may have any pointer but NULL. */
struct sgub_repacked sgub_repack(const uint8_t *file, size_t length, uint8_t *buffer, size_t room);

/* The bytes of a memory image. */
#define SGUB_IMAGE_SIZE 1048576

/* The answer of a comparison. */
struct sgub_compared {
    uint32_t file;   /* 0: no file is refused; 1: the master is; 2: the other file is */
    uint32_t number; /* 0; or the number of that file's refusal, 1 to 21, or 24: its image is too short */
    uint64_t place;  /* the place of the refusal */
    bool passed;     /* the files sound the same; false for a refusal */
};

/* Compares a master, which is a file of version 1, with a file of version 2: repeat and frame count, the opening's writes to the
 * cores, PCM memory after the opening, and each frame's writes. Pass or fail, each image then holds, in its first SGUB_IMAGE_SIZE bytes,
 * the PCM memory that its file's opening leaves, which begins at 0x80; the bytes behind it stay as they were, and a refusal writes
 * nothing. The images overlap neither each other nor a file; an image of 0 bytes may have any pointer but NULL. */
struct sgub_compared sgub_compare(const uint8_t *master, size_t master_length, const uint8_t *other, size_t other_length,
                                  uint8_t *master_image, size_t master_room, uint8_t *other_image, size_t other_room);

/* The answer of joining. */
struct sgub_joined {
    uint32_t file;   /* the file that is refused: 1 the first, 2 the second; 0: none, or the two together */
    uint32_t number; /* 0: joined; else the number of the first refusal: 1 to 21 of the named file; of the two together 29: the second's
                      * opening with its first frame has more than 65,535 operations; 30: more than 65,536 pools; 23: the result would be
                      * longer than 0xE00000 bytes; 24: the buffer is too short */
    uint64_t place;  /* the place of the refusal */
    uint64_t size;   /* the length of the result; 0 for a refusal */
};

/* Joins two files of version 2 into a buffer of room bytes: the frames of the first, then those of the second. The pools of the second
 * follow those of the first, its opening operations stand before those of its own first frame, and the result repeats if the second does.
 * The result stands at the buffer's start and has as many bytes as both files, less 40; the bytes behind it stay as they were, and a
 * refusal writes nothing. 0xE00000 bytes are room for every result. The two files may be one; the buffer may overlap neither, and one of
 * 0 bytes may have any pointer but NULL. */
struct sgub_joined sgub_join(const uint8_t *first, size_t first_length, const uint8_t *second, size_t second_length, uint8_t *buffer,
                             size_t room);

/* The answer for a note. */
struct sgub_frequency {
    uint32_t number; /* 0; or 28: the note is above 127, or the shift outside -48 to 48 */
    uint64_t place;  /* 0: the place of 28 */
    uint16_t pitch;  /* 1 to 65,535; 0 for a refusal */
};

/* The pitch register of a note (A4 is 69) shifted by so many semitones: 440 * 2^((note + semitones - 69) / 12), rounded to a whole number, a
 * half upward, but never more than 65,535. */
struct sgub_frequency sgub_frequency(uint8_t note, int8_t semitones);

#ifdef __cplusplus
}
#endif

#endif
