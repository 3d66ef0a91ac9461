/* Sums of many products, quotients and rests of whole numbers and floats: the same as on any machine. */
#include <limits.h>
#include <stdint.h>
#include <stdio.h>
#include <string.h>

static uint64_t state = 88172645463325252u, whole, real;

/* A number of any size. */
static uint64_t random_number(void)
{
    state ^= state << 13;
    state ^= state >> 7;
    state ^= state << 17;
    return state >> (state & 63);
}

static void add_whole(uint64_t number)
{
    whole = whole * 31 + number;
}

static void add_real(double number)
{
    uint64_t bits;
    memcpy(&bits, &number, sizeof bits);
    real = real * 31 + bits;
}

int main(void)
{
    for (int round = 0; round < 400; round++) {
        uint64_t a = random_number(), b = random_number() | 1;
        int64_t c = (int64_t)(a >> 1) * (round & 1 ? 1 : -1), d = (int64_t)(b >> 1 | 1) * (round & 2 ? 1 : -1);
        unsigned e = (unsigned)a, f = (unsigned)b;
        int g = (int)(e >> 1) * (round & 1 ? 1 : -1), h = (int)(f >> 1 | 1) * (round & 2 ? 1 : -1);
        add_whole(a * b);
        add_whole(a / b);
        add_whole(a % b);
        add_whole((uint64_t)(c / d));
        add_whole((uint64_t)(c % d));
        add_whole(e / f);
        add_whole(e % f);
        add_whole((uint64_t)(g / h));
        add_whole((uint64_t)(g % h));
        unsigned __int128 wide = (unsigned __int128)a * b;
        add_whole((uint64_t)(wide >> 64));
        add_whole((uint64_t)(wide / f));
        double x = (double)c, y = (double)b;
        add_real(x * y);
        add_real(x / y + x);
        float z = (float)g;
        add_real((double)(z * 3 / 7 - z));
    }
    printf("%lx %lx\n", (unsigned long)whole, (unsigned long)real);
    return 0;
}
