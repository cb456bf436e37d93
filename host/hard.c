/*
 * Hard use of the C interface, to be run under valgrind (tests/valgrind): document 01's figures as calls, then 500 cases of lent memory
 * with bytes, cells and lengths changed. Each piece of memory has a block of its own, so that a step past it is seen. The cases are the same
 * every time. Exit status: 0 all as expected; 1 something else was heard.
 */
#include "../include/poplar.h"

#include <stdio.h>
#include <stdlib.h>
#include <string.h>

enum { TRACK = POPLAR_TRACK_CELLS, STORAGE = 8192, CASES = 500, CHAIN = 256, DATA = 1024 };

/* All that is lent. */
struct lent {
    uint8_t *held, *storage;
    uint16_t *cells;
    size_t held_len, storage_len, cells_len;
    uint32_t cylinders, heads;
};

static int wrong = 0;
static size_t next_word;

static void expect(const char *what, long is, long should)
{
    if (is != should) {
        printf("hard: %s: %ld, expected %ld\n", what, is, should);
        wrong = 1;
    }
}

static void *block(size_t size)
{
    void *memory = calloc(size ? size : 1, 1);
    if (!memory) {
        printf("hard: no memory\n");
        exit(2);
    }
    return memory;
}

static struct lent lend(size_t storage_len, uint32_t cylinders, uint32_t heads)
{
    struct lent l;
    l.held_len = POPLAR_HELD_SIZE;
    l.storage_len = storage_len;
    l.cells_len = (size_t)cylinders * heads * TRACK;
    l.cylinders = cylinders;
    l.heads = heads;
    l.held = block(l.held_len);
    l.storage = block(l.storage_len);
    l.cells = block(l.cells_len * sizeof *l.cells);
    expect("fresh", poplar_fresh(l.held, l.held_len), 1);
    return l;
}

static void give_back(struct lent *l)
{
    free(l->held);
    free(l->storage);
    free(l->cells);
}

static uint8_t start(struct lent *l)
{
    return poplar_start(l->held, l->held_len, l->storage, l->storage_len, l->cells, l->cells_len, l->cylinders, l->heads);
}

static uint8_t go(struct lent *l, uint16_t allowance)
{
    return poplar_go(l->held, l->held_len, l->storage, l->storage_len, l->cells, l->cells_len, l->cylinders, l->heads,
                     allowance);
}

/* The next word of the chain that begins at 256. */
static void word(struct lent *l, uint8_t code, uint32_t address, uint8_t flags, uint16_t count)
{
    uint8_t *w = l->storage + next_word;
    w[0] = code;
    w[1] = (uint8_t)(address >> 16);
    w[2] = (uint8_t)(address >> 8);
    w[3] = (uint8_t)address;
    w[4] = flags;
    w[5] = 0;
    w[6] = (uint8_t)(count >> 8);
    w[7] = (uint8_t)count;
    next_word += 8;
}

static void chain(struct lent *l)
{
    static const uint8_t address_word[] = {0, 0, CHAIN >> 8, CHAIN & 255};
    memcpy(l->storage + 72, address_word, sizeof address_word);
    next_word = CHAIN;
}

/* Bytes 0 and 1 of sense, and of status the unit's and the channel's byte. */
static long sense(const struct lent *l)
{
    return l->held[POPLAR_AT_SENSE] * 256L + l->held[POPLAR_AT_SENSE + 1];
}

static long status(const struct lent *l)
{
    return l->storage[68] * 256L + l->storage[69];
}

static void runs(struct lent *l, const char *what, long its_status, long its_sense)
{
    expect(what, start(l), POPLAR_NOT_ENDED);
    expect(what, go(l, 1000), POPLAR_ENDED);
    expect(what, status(l), its_status);
    expect(what, sense(l), its_sense);
}

static void count_at(struct lent *l, size_t at, uint8_t record, uint8_t kl, uint16_t dl)
{
    const uint8_t count[] = {0, 0, 0, 0, record, kl, (uint8_t)(dl >> 8), (uint8_t)dl};
    memcpy(l->storage + at, count, sizeof count);
}

/* A chain that begins to format track 0: mask, home address, R0 with DL 8. */
static void format(struct lent *l)
{
    chain(l);
    l->storage[DATA] = 0xC0;
    count_at(l, DATA + 16, 0, 0, 8);
    word(l, 0x1F, DATA, 0x40, 1);
    word(l, 0x19, DATA + 8, 0x40, 5);
    word(l, 0x15, DATA + 16, 0x40, 16);
}

static uint8_t look(const struct lent *l, uint16_t record, uint8_t part, uint32_t *area)
{
    return poplar_area(l->cells, TRACK, record, part, area, 2);
}

/* Figures 1 and 8 to 11 on a track of three records; the key of the first is 123456789. */
static struct lent three_records(void)
{
    struct lent l = lend(STORAGE, 1, 2);
    int record;
    format(&l);
    for (record = 1; record <= 3; record++) {
        size_t at = DATA + (size_t)record * 64;
        count_at(&l, at, (uint8_t)record, 9, 4);
        memcpy(l.storage + at + 8, "123456789data", 13);
        word(&l, 0x1D, (uint32_t)at, record < 3 ? 0x40 : 0, 21);
    }
    runs(&l, "format", 0x0C00, 0);
    return l;
}

static void figure_1(struct lent *l)
{
    static const uint8_t figure[] = {0, 0, 1, 0x18, 0x0C, 0, 0, 1};
    chain(l);
    memset(l->storage + DATA, 0, 8);
    word(l, 0x39, DATA, 0x40, 4);
    word(l, 0x00, 0, 0, 0);
    word(l, 0x03, 0, 0, 1);
    runs(l, "figure 1", 0x0C00, 0);
    expect("figure 1: status word", memcmp(l->storage + 64, figure, sizeof figure), 0);
}

static void figures_2_and_3(void)
{
    static const long ends[] = {0x0C00, 0x0E00};
    uint32_t area[2] = {0, 0};
    int more;
    for (more = 0; more < 2; more++) {
        struct lent l = lend(STORAGE, 1, 1);
        format(&l);
        count_at(&l, DATA + 64, 1, 0, (uint16_t)(4054 + more));
        word(&l, 0x1D, DATA + 64, 0, (uint16_t)(4062 + more));
        runs(&l, "figure 2", ends[more], more ? 0x0040 : 0);
        expect("figure 2: R0's data", look(&l, POPLAR_R0, POPLAR_DATA, area), POPLAR_READABLE);
        expect("figure 2: R0's last cell", (long)(area[0] + area[1] + 1), 27);
        give_back(&l);
    }
    {
        struct lent l = lend(STORAGE, 1, 1);
        format(&l);
        count_at(&l, DATA + 64, 1, 4, 0);
        count_at(&l, DATA + 128, 2, 0, 1);
        word(&l, 0x1D, DATA + 64, 0x40, 12);
        word(&l, 0x1D, DATA + 128, 0, 9);
        runs(&l, "figure 3", 0x0C00, 0);
        expect("figure 3: from marker to marker", poplar_marker(l.cells, TRACK, 29) - poplar_marker(l.cells, TRACK, 0), 21);
        give_back(&l);
    }
}

static void figures_4_and_5(struct lent *l)
{
    static const uint8_t masks[] = {0xD8, 0x04, 0x20};
    int i;
    for (i = 0; i < 3; i++) {
        chain(l);
        l->storage[DATA] = masks[i];
        word(l, 0x1F, DATA, 0, 1);
        runs(l, "figures 4 and 5", i ? 0x0E00 : 0x0C00, i ? 0x8000 : 0);
    }
}

static void figures_6_and_7(void)
{
    static const uint8_t places[][2] = {{202, 9}, {203, 9}, {202, 10}};
    struct lent l = lend(STORAGE, 203, 10);
    int i;
    for (i = 0; i < 3; i++) {
        chain(&l);
        memset(l.storage + DATA, 0, 6);
        l.storage[DATA + 3] = places[i][0];
        l.storage[DATA + 5] = places[i][1];
        word(&l, 0x07, DATA, 0, 6);
        runs(&l, "figures 6 and 7", i ? 0x0E00 : 0x0C00, i ? 0x8100 : 0);
    }
    give_back(&l);
}

/* ID 0000000002 on the track against 0000000001, which is high, not equal; and 4 of 5 bytes, which are equal but license nothing. */
static void figures_8_and_9(struct lent *l)
{
    static const uint8_t codes[] = {0x51, 0x31};
    int i;
    for (i = 0; i < 2; i++) {
        chain(l);
        count_at(l, DATA, 1, 0, 0);
        l->held[POPLAR_AT_PLACE] = 0;
        l->held[POPLAR_AT_PLACE + 1] = 40;
        word(l, codes[i], DATA, 0, 5);
        runs(l, "figure 8", i ? 0x0C00 : 0x4C00, 0);
    }
    chain(l);
    word(l, 0x31, DATA, 0x60, 4);
    word(l, 0x03, 0, 0, 1);
    word(l, 0x05, DATA, 0, 4);
    runs(l, "figure 9", 0x0E00, 0x8010);
}

static void figures_10_to_12(struct lent *l)
{
    struct lent small = lend(80, 1, 1);
    uint32_t area[2] = {0, 0};
    int i;
    expect("figure 10: key", look(l, 29, POPLAR_KEY, area), POPLAR_READABLE);
    expect("figure 10: bytes", (long)area[1], 9);
    expect("figure 10: check", (l->cells[area[0] + 9] & 255L) * 256 + (l->cells[area[0] + 10] & 255L), 0x31C3);
    chain(l);
    memset(l->storage + DATA, 0xFF, 5);
    memset(l->held + POPLAR_AT_PLACE, 0, 2);
    for (i = 0; i < 10; i++)
        word(l, 0x31, DATA, 0x40, 5);
    runs(l, "figure 11", 0x0E00, 0x0008);
    expect("figure 11: the 9th", l->storage[66] * 256L + l->storage[67], CHAIN + 9 * 8);
    expect("figure 12: 80 bytes", start(&small), POPLAR_NOT_STARTED);
    small.storage_len = 79;
    expect("figure 12: 79 bytes", start(&small), POPLAR_BAD_STORAGE);
    give_back(&small);
}

/* Numbers that are the same every time. */
static uint32_t random_state = 2841;

static uint32_t below(uint32_t bound)
{
    random_state = random_state * 1664525u + 1013904223u;
    return (random_state >> 8) % bound;
}

static void *copied(const void *from, size_t len, size_t new_len)
{
    char *memory = block(new_len);
    memcpy(memory, from, len < new_len ? len : new_len);
    return memory;
}

/* A copy with some bytes and cells changed, and now and then a length. */
static struct lent mutated(const struct lent *base)
{
    struct lent l = *base;
    uint32_t changes = 1 + below(6);
    if (below(8) == 0)
        l.storage_len = 60 + below(400);
    if (below(16) == 0)
        l.held_len = 60 + below(8);
    if (below(16) == 0)
        l.cells_len = l.cells_len - 2 + below(4);
    l.held = copied(base->held, base->held_len, l.held_len);
    l.storage = copied(base->storage, base->storage_len, l.storage_len);
    l.cells = copied(base->cells, base->cells_len * sizeof *l.cells, l.cells_len * sizeof *l.cells);
    while (changes--) {
        static const uint16_t values[] = {0, 256, 511, 512, 65535};
        switch (below(4)) {
        case 0: l.held[below(24) % l.held_len] = (uint8_t)below(4); break;
        case 1: l.storage[(CHAIN + below(80)) % l.storage_len] = (uint8_t)below(256); break;
        case 2: l.storage[below((uint32_t)l.storage_len)] ^= (uint8_t)(1u << below(8)); break;
        default: l.cells[below(200) % l.cells_len] = values[below(5)]; break;
        }
    }
    return l;
}

/* Every marker and every area of the first track. */
static void looks(const struct lent *l)
{
    uint32_t area[2] = {0, 0};
    uint16_t place = 0;
    uint8_t part, answer;
    while ((place = poplar_marker(l->cells, TRACK, place)) < TRACK) {
        place++;
        for (part = POPLAR_HOME; part <= POPLAR_DATA + 1; part++) {
            answer = look(l, place, part, area);
            expect("an area's answer", answer > POPLAR_NOT_KNOWN || (answer == 0) != (part > POPLAR_DATA), 0);
        }
    }
    expect("no marker", place, POPLAR_NO_MARKER);
    expect("no track", poplar_marker(l->cells, TRACK - 1, 0), POPLAR_NO_TRACK);
    expect("a record off the track", look(l, (uint16_t)(TRACK + 1), POPLAR_COUNT, area), POPLAR_WRONG_CALL);
}

/* One case: a start or not, a go, looks. A refusal but answer 5 changes nothing. */
static void one_case(const struct lent *base, unsigned long answers[8])
{
    struct lent l = mutated(base);
    struct lent before = l;
    uint8_t answer = POPLAR_NOT_ENDED;
    before.held = copied(l.held, l.held_len, l.held_len);
    before.storage = copied(l.storage, l.storage_len, l.storage_len);
    before.cells = copied(l.cells, l.cells_len * sizeof *l.cells, l.cells_len * sizeof *l.cells);
    if (!l.held[POPLAR_AT_GOING])
        answer = start(&l);
    if (answer == POPLAR_NOT_ENDED)
        answer = go(&l, (uint16_t)below(60));
    expect("an answer of the table", answer > 7, 0);
    answers[answer & 7]++;
    if (answer > POPLAR_NOT_ENDED && answer != POPLAR_NOT_STARTED) {
        expect("held after a refusal", memcmp(before.held, l.held, l.held_len), 0);
        expect("storage after a refusal", memcmp(before.storage, l.storage, l.storage_len), 0);
        expect("cells after a refusal", memcmp(before.cells, l.cells, l.cells_len * sizeof *l.cells), 0);
    }
    if (l.cells_len >= TRACK)
        looks(&l);
    give_back(&before);
    give_back(&l);
}

/* A chain that searches, reads and writes, stopped after some words. */
static void going(struct lent *l, uint16_t allowance)
{
    chain(l);
    count_at(l, DATA, 2, 0, 0);
    word(l, 0x31, DATA, 0x40, 5);
    word(l, 0x08, CHAIN, 0, 0);
    word(l, 0x0E, DATA + 512, 0x40, 13);
    word(l, 0x31, DATA, 0x40, 5);
    word(l, 0x08, CHAIN + 24, 0, 0);
    word(l, 0x05, DATA + 8, 0x40, 4);
    word(l, 0x1E, DATA + 512, 0, 21);
    expect("a start", start(l), POPLAR_NOT_ENDED);
    expect("a go", go(l, allowance), POPLAR_NOT_ENDED);
}

int main(void)
{
    unsigned long answers[8] = {0};
    struct lent l = three_records();
    struct lent held = three_records();
    int i;

    figure_1(&l);
    figures_2_and_3();
    figures_4_and_5(&l);
    figures_6_and_7();
    figures_8_and_9(&l);
    figures_10_to_12(&l);
    looks(&l);
    going(&held, 4);
    for (i = 0; i < CASES; i++)
        one_case(i % 3 ? &held : &l, answers);
    give_back(&held);
    give_back(&l);
    printf("hard: the figures, and %d cases by answer 0 to 7:", CASES);
    for (i = 0; i < 8; i++)
        printf(" %lu", answers[i]);
    printf(wrong ? "; something else was expected\n" : "\n");
    return wrong;
}
