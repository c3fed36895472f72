#include "pick.h"

#include "lent.h"

size_t pick(size_t low, size_t high)
{
    return low + (size_t)(next_random() % (high - low + 1));
}

bool chance(size_t percent)
{
    return next_random() % 100 < percent;
}

size_t smaller(size_t a, size_t b)
{
    return a < b ? a : b;
}

/* A byte for a damage: any, or one beside a limit. */
static uint8_t any_damage(uint8_t byte)
{
    static const uint8_t limits[] = {
        0, 1, 15, 16, 17, 61, 62, 63, 64, 65, 127, 128, 129, 191, 192, 255, 'G', 'R', 'P',
    };
    switch (pick(0, 3)) {
    case 0:
        return (uint8_t)(byte + 1);
    case 1:
        return (uint8_t)(byte - 1);
    case 2:
        return limits[pick(0, sizeof limits - 1)];
    default:
        return (uint8_t)next_random();
    }
}

void damage(uint8_t *bytes, size_t length)
{
    if (length == 0)
        return;
    size_t at = pick(0, length - 1);
    bytes[at] = any_damage(bytes[at]);
}

size_t extend(uint8_t *bytes, size_t length, size_t most)
{
    size_t end = smaller(most, length + pick(1, 6));
    for (size_t i = length; i < end; i++)
        bytes[i] = (uint8_t)next_random();
    return end;
}
