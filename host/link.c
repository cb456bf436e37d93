/*
 * A host in C: it links the library, runs short chains as document 01 has them, and says what it heard: a seek that fails, its
 * sense, a track that is formatted and read back, and a look at that track. tests/host compiles and runs it. Exit status: 0 all
 * as expected; 1 something else was heard.
 */
#include "../include/poplar.h"

#include <stdio.h>
#include <string.h>

#if POPLAR_INTERFACE != 1
#error "this program was written for version 1 of the interface"
#endif

enum { STORAGE = 512, CYLINDERS = 2, HEADS = 2, CELLS = CYLINDERS * HEADS * 4096 };

static uint8_t held[POPLAR_HELD_SIZE];
static uint8_t storage[STORAGE];
static uint16_t cells[CELLS];
static int wrong = 0;

static uint8_t start(void)
{
    return poplar_start(held, sizeof held, storage, STORAGE, cells, CELLS, CYLINDERS, HEADS);
}

static uint8_t go(uint16_t allowance)
{
    return poplar_go(held, sizeof held, storage, STORAGE, cells, CELLS, CYLINDERS, HEADS, allowance);
}

static void hears(const char *what, uint8_t answer, uint8_t expected)
{
    printf("link: %s: %u\n", what, (unsigned)answer);
    if (answer != expected) {
        printf("link: expected %u\n", (unsigned)expected);
        wrong = 1;
    }
}

static void finds(const char *what, const uint8_t *bytes, const uint8_t *expected, size_t len)
{
    size_t i;
    printf("link: %s:", what);
    for (i = 0; i < len; i++)
        printf(" %02X", (unsigned)bytes[i]);
    printf("\n");
    if (memcmp(bytes, expected, len) != 0) {
        printf("link: expected:");
        for (i = 0; i < len; i++)
            printf(" %02X", (unsigned)expected[i]);
        printf("\n");
        wrong = 1;
    }
}

static void store(size_t at, const uint8_t *bytes, size_t len)
{
    memcpy(storage + at, bytes, len);
}

/* A seek to head 2 of a pack of two: Unit Check, and sense 81 00 stands in held. */
static void seek_off_the_pack(void)
{
    static const uint8_t address_word[] = {0x30, 0x00, 0x01, 0x00};
    static const uint8_t seek[] = {0x07, 0x00, 0x01, 0x40, 0x00, 0x00, 0x00, 0x06};
    static const uint8_t seek_address[] = {0, 0, 0, 1, 0, 2};
    static const uint8_t status[] = {0x30, 0x00, 0x01, 0x08, 0x0E, 0x00, 0x00, 0x00};
    static const uint8_t sense[] = {0x81, 0x00};

    store(72, address_word, sizeof address_word);
    store(256, seek, sizeof seek);
    store(320, seek_address, sizeof seek_address);
    hears("start of a seek", start(), POPLAR_NOT_ENDED);
    hears("another start", start(), POPLAR_CHAIN_GOING);
    hears("go 0", go(0), POPLAR_NOT_ENDED);
    hears("go 10", go(10), POPLAR_ENDED);
    hears("go 10 again", go(10), POPLAR_NO_CHAIN);
    finds("status word", storage + 64, status, sizeof status);
    finds("sense in held", held + POPLAR_AT_SENSE, sense, sizeof sense);
}

/* The Sense that a channel program would run then, by way of a No-op. */
static void sense_it(void)
{
    static const uint8_t no_op[] = {0x03, 0x00, 0x00, 0x00, 0x40, 0x00, 0x00, 0x01};
    static const uint8_t sense[] = {0x04, 0x00, 0x01, 0x50, 0x00, 0x00, 0x00, 0x06};
    static const uint8_t moved[] = {0x81, 0x00, 0x00, 0x00, 0x00, 0x00};
    static const uint8_t status[] = {0x30, 0x00, 0x01, 0x10, 0x0C, 0x00, 0x00, 0x00};

    memset(storage + 336, 0xFF, 8);
    store(256, no_op, sizeof no_op);
    store(264, sense, sizeof sense);
    hears("start of a No-op and a Sense", start(), POPLAR_NOT_ENDED);
    hears("go 1", go(1), POPLAR_NOT_ENDED);
    hears("go 1", go(1), POPLAR_ENDED);
    finds("sense bytes", storage + 336, moved, sizeof moved);
    finds("status word", storage + 64, status, sizeof status);
    hears("the byte behind them", storage[342], 0xFF);
}

/* A start whose first word is a TIC stores two bytes of status, and no chain goes. */
static void start_at_a_tic(void)
{
    static const uint8_t status[] = {0x30, 0x00, 0x01, 0x10, 0x00, 0x20, 0x00, 0x00};

    storage[256] = 0x08;
    hears("start at a TIC", start(), POPLAR_NOT_STARTED);
    finds("status word", storage + 64, status, sizeof status);
    hears("go 1", go(1), POPLAR_NO_CHAIN);
}

static void finds_cells(const char *what, const uint16_t *found, const uint16_t *expected, size_t len)
{
    size_t i;
    for (i = 0; i < len && found[i] == expected[i]; i++)
        ;
    if (i == len) {
        printf("link: %s: %u cells as expected\n", what, (unsigned)len);
        return;
    }
    printf("link: %s: cell %u is %04X, expected %04X\n", what, (unsigned)i, (unsigned)found[i], (unsigned)expected[i]);
    wrong = 1;
}

/* A format in one chain, and the same areas read back. */
static const uint8_t format_chain[] = {
    0x1F, 0x00, 0x01, 0x60, 0x40, 0x00, 0x00, 0x01, /* Set File Mask */
    0x07, 0x00, 0x01, 0x62, 0x40, 0x00, 0x00, 0x06, /* Seek */
    0x19, 0x00, 0x01, 0x68, 0x40, 0x00, 0x00, 0x05, /* Write HA */
    0x15, 0x00, 0x01, 0x70, 0x40, 0x00, 0x00, 0x10, /* Write R0 */
    0x1D, 0x00, 0x01, 0x80, 0x40, 0x00, 0x00, 0x0D, /* Write CKD */
    0x1A, 0x00, 0x01, 0x90, 0x40, 0x00, 0x00, 0x05, /* Read HA */
    0x16, 0x00, 0x01, 0xA0, 0x40, 0x00, 0x00, 0x10, /* Read R0 */
    0x1E, 0x00, 0x01, 0xB0, 0x00, 0x00, 0x00, 0x0D  /* Read CKD */
};

/* What it lays. The bytes 256 + b with their checks; 0x200 is R1's marker. R1's flag has bit 0, and bit 6 by way of R0. */
static const uint16_t laid[] = {
    0x102, 0x100, 0x101, 0x100, 0x101, 0x163, 0x192, /* home address */
    0x102, 0x100, 0x101, 0x100, 0x101, 0x100, 0x100, 0x100, 0x108, 0x155, 0x15F, /* R0: count */
    0x100, 0x100, 0x100, 0x100, 0x100, 0x100, 0x100, 0x100, 0x100, 0x100, /* data */
    0x200, 0x182, 0x100, 0x101, 0x100, 0x101, 0x101, 0x102, 0x100, 0x103, 0x143, 0x152, /* R1: marker, count */
    0x14B, 0x131, 0x1F7, 0x144, /* key */
    0x161, 0x162, 0x163, 0x19D, 0x1D6 /* data */
};

/*
 * The last track of the pack, formatted: a mask that bars no write, a seek, home address, R0 of 8 bytes and a record with a key of
 * 2 bytes and data of 3. In the same chain they are read back. The other tracks stay as they were.
 */
static void format_a_track(void)
{
    static const uint8_t address_word[] = {0x30, 0x00, 0x01, 0x00};
    static const uint8_t mask[] = {0xC0};
    static const uint8_t seek_address[] = {0, 0, 0, 1, 0, 1};
    static const uint8_t home[] = {0x02, 0, 1, 0, 1};
    static const uint8_t r0[] = {0, 1, 0, 1, 0, 0, 0, 8, 0, 0, 0, 0, 0, 0, 0, 0};
    static const uint8_t r1[] = {0, 1, 0, 1, 1, 2, 0, 3, 'K', '1', 'a', 'b', 'c'};
    static const uint8_t status[] = {0x30, 0x00, 0x01, 0x40, 0x0C, 0x00, 0x00, 0x00};
    static uint16_t expected[CELLS];
    uint16_t *track = expected + 3 * 4096;
    size_t i;

    for (i = 0; i < CELLS; i++)
        cells[i] = expected[i] = (uint16_t)(i * 7);
    memset(track, 0, 4096 * sizeof *track);
    memcpy(track, laid, sizeof laid);
    store(72, address_word, sizeof address_word);
    store(256, format_chain, sizeof format_chain);
    store(352, mask, sizeof mask);
    store(354, seek_address, sizeof seek_address);
    store(360, home, sizeof home);
    store(368, r0, sizeof r0);
    store(384, r1, sizeof r1);
    hears("start of a format", start(), POPLAR_NOT_ENDED);
    hears("go 5", go(5), POPLAR_NOT_ENDED);
    finds_cells("the pack when it is formatted", cells, expected, CELLS);
    hears("go 3", go(3), POPLAR_ENDED);
    finds("status word", storage + 64, status, sizeof status);
    finds("home address read back", storage + 400, home, sizeof home);
    finds("R0 read back", storage + 416, r0, sizeof r0);
    finds("R1 read back", storage + 432, r1, sizeof r1);
    finds_cells("the pack when it is read", cells, expected, CELLS);
}

static void finds_marker(const char *what, uint16_t cell, uint16_t expected)
{
    printf("link: %s: %u\n", what, (unsigned)cell);
    if (cell != expected) {
        printf("link: expected %u\n", (unsigned)expected);
        wrong = 1;
    }
}

/* One area: the answer, and where it lies; 77 where nothing is written. */
static void looks(const char *what, uint16_t record, uint8_t part, uint8_t answer, uint32_t first, uint32_t bytes)
{
    uint32_t area[2] = {77, 77};

    hears(what, poplar_area(cells + 3 * 4096, 4096, record, part, area, 2), answer);
    if (area[0] != first || area[1] != bytes) {
        printf("link: %s: %lu and %lu, expected %lu and %lu\n", what, (unsigned long)area[0], (unsigned long)area[1],
               (unsigned long)first, (unsigned long)bytes);
        wrong = 1;
    }
}

/* The formatted track: its one marker, and every area. Then a bit of R1's count is changed. */
static void look_at_the_track(void)
{
    uint16_t *track = cells + 3 * 4096;
    uint32_t area[2] = {77, 77};

    finds_marker("marker from 0", poplar_marker(track, 4096, 0), 28);
    finds_marker("marker from 28", poplar_marker(track, 4096, 28), 28);
    finds_marker("marker from 29", poplar_marker(track, 4096, 29), POPLAR_NO_MARKER);
    finds_marker("marker of 4,095 cells", poplar_marker(track, 4095, 0), POPLAR_NO_TRACK);
    looks("home address", 0, POPLAR_HOME, POPLAR_READABLE, 0, 5);
    looks("R0's count", POPLAR_R0, POPLAR_COUNT, POPLAR_READABLE, 7, 9);
    looks("R0's key", POPLAR_R0, POPLAR_KEY, POPLAR_ABSENT, 77, 77);
    looks("R0's data", POPLAR_R0, POPLAR_DATA, POPLAR_READABLE, 18, 8);
    looks("R1's count", 29, POPLAR_COUNT, POPLAR_READABLE, 29, 9);
    looks("R1's key", 29, POPLAR_KEY, POPLAR_READABLE, 40, 2);
    looks("R1's data", 29, POPLAR_DATA, POPLAR_READABLE, 44, 3);
    track[30] ^= 1;
    looks("R1's count, damaged", 29, POPLAR_COUNT, POPLAR_UNREADABLE, 29, 9);
    looks("R1's key then", 29, POPLAR_KEY, POPLAR_NOT_KNOWN, 77, 77);
    looks("R1's data then", 29, POPLAR_DATA, POPLAR_NOT_KNOWN, 77, 77);
    track[30] ^= 1;
    looks("part 4", 29, 4, POPLAR_WRONG_CALL, 77, 77);
    looks("record 4,097", 4097, POPLAR_COUNT, POPLAR_WRONG_CALL, 77, 77);
    hears("one number to write", poplar_area(track, 4096, 0, POPLAR_HOME, area, 1), POPLAR_WRONG_CALL);
}

/* A length of 0 may come with a null pointer. */
static void nothing_lent(void)
{
    hears("fresh of nothing", poplar_fresh(NULL, 0), 0);
    hears("start with nothing", poplar_start(NULL, 0, NULL, 0, NULL, 0, 0, 0), POPLAR_BAD_STORAGE);
    hears("go with nothing", poplar_go(NULL, 0, NULL, 0, NULL, 0, 0, 0, 1), POPLAR_BAD_STORAGE);
    finds_marker("marker of nothing", poplar_marker(NULL, 0, 0), POPLAR_NO_TRACK);
    hears("area of nothing", poplar_area(NULL, 0, POPLAR_R0, POPLAR_COUNT, NULL, 0), POPLAR_WRONG_CALL);
    hears("start without cells",
          poplar_start(held, sizeof held, storage, STORAGE, NULL, 0, CYLINDERS, HEADS), POPLAR_BAD_PACK);
    hears("start without held",
          poplar_start(NULL, 0, storage, STORAGE, cells, CELLS, CYLINDERS, HEADS), POPLAR_BAD_HELD);
}

int main(void)
{
    uint8_t fresh[POPLAR_HELD_SIZE] = {0};

    fresh[POPLAR_AT_LAYOUT] = POPLAR_HELD_LAYOUT;
    hears("fresh of 63 bytes", poplar_fresh(held, sizeof held - 1), 0);
    hears("fresh", poplar_fresh(held, sizeof held), 1);
    finds("a fresh box", held, fresh, sizeof held);
    seek_off_the_pack();
    sense_it();
    start_at_a_tic();
    format_a_track();
    look_at_the_track();
    nothing_lent();
    printf(wrong ? "link: something else was expected\n" : "link: all as expected\n");
    return wrong;
}
