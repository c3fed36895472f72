#define _DEFAULT_SOURCE

#include "lent.h"

#include <stdio.h>
#include <stdlib.h>
#include <string.h>
#include <sys/mman.h>
#include <unistd.h>

enum { ODD_GUARD = 67, WORD_GUARD = 64, SLOT_SIZE = 1 << 21 };

bool empty_is_null;

static uint64_t random_state = 1;

static uint8_t *slot_ends[SLOTS];

static void give_up(const char *what)
{
    perror(what);
    exit(2);
}

/* Spreads the seed over all bits, so that seeds side by side give numbers that have nothing in common. */
void seed_random(uint64_t seed)
{
    seed = (seed + UINT64_C(0x9E3779B97F4A7C15)) * UINT64_C(0xBF58476D1CE4E5B9);
    seed = (seed ^ (seed >> 31)) * UINT64_C(0x94D049BB133111EB);
    seed ^= seed >> 29;
    random_state = seed ? seed : 1;
}

uint64_t next_random(void)
{
    random_state ^= random_state << 13;
    random_state ^= random_state >> 7;
    random_state ^= random_state << 17;
    return random_state * UINT64_C(0x2545F4914F6CDD1D);
}

static void fill_with_junk(uint8_t *bytes, size_t count)
{
    while (count > 0) {
        uint64_t junk = next_random();
        size_t part = count < sizeof junk ? count : sizeof junk;
        memcpy(bytes, &junk, part);
        bytes += part;
        count -= part;
    }
}

static struct lent lend(size_t bytes, size_t guard)
{
    struct lent lent = { malloc(bytes + 2 * guard), malloc(bytes + 2 * guard), guard, bytes };
    if (!lent.memory || !lent.wanted)
        give_up("malloc");
    fill_with_junk(lent.memory, bytes + 2 * guard);
    memcpy(lent.wanted, lent.memory, bytes + 2 * guard);
    return lent;
}

struct lent lend_bytes(size_t cells)
{
    return lend(cells, ODD_GUARD);
}

struct lent lend_halves(size_t cells)
{
    return lend(cells * sizeof(uint16_t), WORD_GUARD);
}

struct lent lend_words(size_t cells)
{
    return lend(cells * sizeof(uint64_t), WORD_GUARD);
}

static uint8_t *cells_of(const struct lent *lent, uint8_t *memory)
{
    return lent->bytes == 0 && empty_is_null ? NULL : memory + lent->guard;
}

uint8_t *lent_bytes(const struct lent *lent)
{
    return cells_of(lent, lent->memory);
}

uint16_t *lent_halves(const struct lent *lent)
{
    return (uint16_t *)(void *)cells_of(lent, lent->memory);
}

uint64_t *lent_words(const struct lent *lent)
{
    return (uint64_t *)(void *)cells_of(lent, lent->memory);
}

uint8_t *wanted_bytes(const struct lent *lent)
{
    return cells_of(lent, lent->wanted);
}

uint16_t *wanted_halves(const struct lent *lent)
{
    return (uint16_t *)(void *)cells_of(lent, lent->wanted);
}

uint64_t *wanted_words(const struct lent *lent)
{
    return (uint64_t *)(void *)cells_of(lent, lent->wanted);
}

bool lent_holds(const struct lent *lent)
{
    return memcmp(lent->memory, lent->wanted, lent->bytes + 2 * lent->guard) == 0;
}

void take_back(struct lent *lent)
{
    free(lent->memory);
    free(lent->wanted);
}

/* Maps a slot with a page behind it that nobody may read. */
static uint8_t *map_slot(void)
{
    size_t page = (size_t)sysconf(_SC_PAGESIZE);
    uint8_t *memory = mmap(NULL, SLOT_SIZE + page, PROT_READ | PROT_WRITE, MAP_PRIVATE | MAP_ANONYMOUS, -1, 0);
    if (memory == MAP_FAILED || mprotect(memory + SLOT_SIZE, page, PROT_NONE) != 0)
        give_up("mmap");
    return memory + SLOT_SIZE;
}

const uint8_t *lay(enum slot slot, const uint8_t *bytes, size_t length)
{
    if (!slot_ends[slot])
        slot_ends[slot] = map_slot();
    if (length == 0)
        return empty_is_null ? NULL : slot_ends[slot];
    memcpy(slot_ends[slot] - length, bytes, length);
    return slot_ends[slot] - length;
}

bool laid_holds(enum slot slot, const uint8_t *bytes, size_t length)
{
    return length == 0 || memcmp(slot_ends[slot] - length, bytes, length) == 0;
}
