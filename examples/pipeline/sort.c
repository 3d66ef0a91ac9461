/* The third program: puts the heaviest first. */
#include "arnold.h"

struct weight {
    char cart[6];
    uint16_t kilos;
};

static struct weight weights[16];

int main(void)
{
    size_t count = 0;
    struct weight weight;
    while (count < 16 && read(CONSOLE_IN, &weight, sizeof weight) == sizeof weight) {
        size_t at = count++;
        for (; at > 0 && weights[at - 1].kilos < weight.kilos; at--)
            weights[at] = weights[at - 1];
        weights[at] = weight;
    }
    write(CONSOLE_OUT, weights, count * sizeof weight);
    return 0;
}
