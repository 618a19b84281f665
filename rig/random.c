#include "random.h"

uint64_t next(struct source *s)
{
    uint64_t z = s->state += 0x9E3779B97F4A7C15u;
    z = (z ^ z >> 30) * 0xBF58476D1CE4E5B9u;
    z = (z ^ z >> 27) * 0x94D049BB133111EBu;
    return z ^ z >> 31;
}

uint8_t any_byte(struct source *s)
{
    return (uint8_t)next(s);
}

void fill_any(struct source *s, uint8_t *to, size_t len)
{
    for (; len >= 8; to += 8, len -= 8) {
        uint64_t word = next(s);
        for (int i = 0; i < 8; i++)
            to[i] = (uint8_t)(word >> 8 * i);
    }
    while (len-- > 0)
        *to++ = any_byte(s);
}

unsigned below(struct source *s, unsigned limit)
{
    return (unsigned)((next(s) >> 32) * limit >> 32);
}

bool one_in(struct source *s, unsigned n)
{
    return below(s, n) == 0;
}
