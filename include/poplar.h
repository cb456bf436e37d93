/*
 * Poplarstep: the stand-in for the IBM 2841 disk control, as a C host links it (C99; C++ as well).
 * Link with target/staticlib/libbox_export.a, which `rust/build` proves and builds.
 * docs/REFERENCE.md says all that the box does; REFERENCE 9 the answers, REFERENCE 10 these functions.
 *
 * What the caller lends, for the length of a call only:
 *
 *   held     what the box keeps from call to call, POPLAR_HELD_SIZE bytes; laid out below
 *   storage  the channel's main storage, 80 to 16,777,216 bytes; the status word is at 64, the address word at 72
 *   cells    the pack: cylinders * heads tracks of 4,096 cells each, cylinder by cylinder, in each head by head.
 *            A cell is a number of 16 bits in the host's own byte order: 256 + b is a recorded byte b, from cell 7 of a
 *            track on 512 is an address marker, all else is gap and is written as 0
 *
 * What the caller owes:
 *
 *   - each pointer is valid, for reading and writing, for its length (in elements: bytes of held and storage, cells of
 *     cells); a length of 0 may come with a null pointer;
 *   - held, storage and cells do not overlap;
 *   - nothing else uses the three while a call runs.
 *
 * That is all. Every length, number and content gets one of the answers below, and nothing outside the three is read or
 * written. There is no global state: one box is one held, any number of them may be used, and calls on different memory
 * may run in several threads at once.
 *
 * poplar_marker and poplar_area look at a track without a box. They are lent a track's cells, to be read only, and two
 * numbers to be written; the same is owed of these, and the same holds.
 */
#ifndef POPLAR_H
#define POPLAR_H

#include <stddef.h>
#include <stdint.h>

/* The version of this interface: the functions, the answers and the layout of held. */
#define POPLAR_INTERFACE 1

/* What poplar_start and poplar_go answer. They are tested in the order 2, 3, 4, then 7 (start) or 6 (go), then 5. */
enum poplar_answer {
    POPLAR_ENDED = 0,       /* the chain ended; its status word is stored at 64 */
    POPLAR_NOT_ENDED = 1,   /* the chain is held, without a status word: go on. Also a good start */
    POPLAR_BAD_STORAGE = 2, /* storage under 80 or over 16,777,216 bytes; nothing changed */
    POPLAR_BAD_PACK = 3,    /* cylinders not 1 to 203, heads not 1 to 10, or the wrong number of cells; nothing changed */
    POPLAR_BAD_HELD = 4,    /* held state wrong, see below; nothing changed */
    POPLAR_NOT_STARTED = 5, /* bad address word, or the first word is bad or a TIC: bytes 68 and 69 of storage are now
                               00 20, no chain goes, nothing else changed */
    POPLAR_NO_CHAIN = 6,    /* go with no chain going; nothing changed */
    POPLAR_CHAIN_GOING = 7  /* start with a chain going; nothing changed */
};

/*
 * Held: 64 bytes. Numbers of more than one byte are big-endian. Make it with poplar_fresh; then keep it from call to
 * call. A host may read it, store it, and send it elsewhere; it may also write it, within these bounds, for a wrong
 * value is never more than answer 4:
 *
 *   0      a chain is going                       0 or 1
 *   1      key of the address word                0 to 15
 *   2      file mask                              bits 2, 5, 6 and 7 zero (27 hex)
 *   3      a mask was set in this chain           0 or 1
 *   4-5    sense bytes 0 and 1                    any
 *   6      the word before was a TIC              0 or 1
 *   7      code of the command before, 0 none     any; after 31 51 71 29 49 69 12 15 and 1D there is a selection
 *   8      it was equal over the whole field      0 or 1
 *   9      index tally                            0 or 1
 *   10     selection                              0 none, 1 R0, 2 the record of a marker
 *   11     number of this layout                  POPLAR_HELD_LAYOUT
 *   12-13  cell of the selected marker            7 to 4,095, and a marker is there; 0 unless byte 10 is 2
 *   14-15  cylinder under the head                on the pack
 *   16-17  head                                   on the pack
 *   18-19  place                                  0 to 4,096
 *   20-23  address of the next command word       below 16,777,216
 *   24-63                                         0
 *
 * Anything else is held state wrong: another length, another layout, a value outside its bounds, a zero that is none.
 *
 * Sense. After a Unit Check (bit 02 of the unit status, byte 68 of storage) sense bytes 0 and 1 stand in held at 4 and
 * 5, and stay until a command other than Sense and No-op clears them; sense bytes 2 to 5 are always zero. A channel
 * program gets them by the Sense command, 04, which moves all six into storage. Reading held changes nothing.
 */
#define POPLAR_HELD_SIZE 64
#define POPLAR_HELD_LAYOUT 1

/* Where each value begins in held. */
enum poplar_held_at {
    POPLAR_AT_GOING = 0,
    POPLAR_AT_KEY = 1,
    POPLAR_AT_MASK = 2,
    POPLAR_AT_MASK_SET = 3,
    POPLAR_AT_SENSE = 4,
    POPLAR_AT_AFTER_TIC = 6,
    POPLAR_AT_BEFORE = 7,
    POPLAR_AT_WHOLE = 8,
    POPLAR_AT_TALLY = 9,
    POPLAR_AT_SELECTION = 10,
    POPLAR_AT_LAYOUT = 11,
    POPLAR_AT_MARKER = 12,
    POPLAR_AT_CYLINDER = 14,
    POPLAR_AT_HEAD = 16,
    POPLAR_AT_PLACE = 18,
    POPLAR_AT_NEXT = 20,
    POPLAR_AT_ZEROS = 24
};

/*
 * A look at one track needs no box: poplar_marker and poplar_area go by the track alone. A record is known by the first
 * cell of its count area: POPLAR_R0 for R0, the cell after its marker for any other.
 */
#define POPLAR_TRACK_CELLS 4096
#define POPLAR_R0 7

/* What poplar_marker answers where it answers no cell. */
#define POPLAR_NO_MARKER 4096
#define POPLAR_NO_TRACK 65535

/* The part of a track that poplar_area is asked for. */
enum poplar_part {
    POPLAR_HOME = 0, /* the home address, whatever the record */
    POPLAR_COUNT = 1,
    POPLAR_KEY = 2,
    POPLAR_DATA = 3
};

/* What poplar_area answers. An area is readable when all its cells lie on the track, are bytes, and the check agrees. */
enum poplar_look {
    POPLAR_WRONG_CALL = 0, /* track not 4,096 cells, area not 2 elements, part over 3, or record over 4,096 (but not
                              for POPLAR_HOME, which is of no record) */
    POPLAR_READABLE = 1,
    POPLAR_UNREADABLE = 2,
    POPLAR_ABSENT = 3,     /* there is no such area: the key where KL is 0 */
    POPLAR_NOT_KNOWN = 4   /* the record's count area is not readable, so its key and data cannot be found */
};

#ifdef __cplusplus
extern "C" {
#endif

/*
 * Writes a fresh box into held: cylinder 0, head 0, place 0, mask 0, sense zero, no chain going. Returns 1; or 0, with
 * nothing written, if held_len is not POPLAR_HELD_SIZE.
 */
uint8_t poplar_fresh(uint8_t *held, size_t held_len);

/*
 * Starts the chain of the address word at 72: tests the address word and the first command word and runs nothing.
 * Answers POPLAR_NOT_ENDED or a refusal, never POPLAR_ENDED.
 */
uint8_t poplar_start(uint8_t *held, size_t held_len, uint8_t *storage, size_t storage_len, uint16_t *cells,
                     size_t cells_len, uint32_t cylinders, uint32_t heads);

/*
 * Runs the chain on, for at most `allowance` command words (a TIC and a bad word count as one each). Answers
 * POPLAR_ENDED, POPLAR_NOT_ENDED if the allowance was used first, or a refusal. An allowance may be cut into parts: with
 * the memory untouched between, the parts do what the whole does.
 */
uint8_t poplar_go(uint8_t *held, size_t held_len, uint8_t *storage, size_t storage_len, uint16_t *cells,
                  size_t cells_len, uint32_t cylinders, uint32_t heads, uint16_t allowance);

/*
 * The first cell at or after `place` that holds a marker; POPLAR_NO_MARKER if there is none from there on;
 * POPLAR_NO_TRACK if track_len is not POPLAR_TRACK_CELLS. The track is read only, and may be part of a pack's cells.
 */
uint16_t poplar_marker(const uint16_t *track, size_t track_len, uint16_t place);

/*
 * One area of a track: where it lies and whether it is readable. Answers a number of enum poplar_look. If that is
 * POPLAR_READABLE or POPLAR_UNREADABLE, area[0] becomes its first cell and area[1] its bytes without the two of the
 * check, which follow them; else nothing is written. An area that is not readable may reach past the track. The track is
 * read only; area_len is 2, and area lies outside the track.
 */
uint8_t poplar_area(const uint16_t *track, size_t track_len, uint16_t record, uint8_t part, uint32_t *area,
                    size_t area_len);

#ifdef __cplusplus
}
#endif

#endif
