/* The fourth program: writes a line for each record. */
#include "arnold.h"

struct weight {
    char cart[6];
    uint16_t kilos;
};

/* A tenth of a number of at most three digits. The machine has no instruction for this, and the compiler's function
   decides each bit by a branch, so that no linkage would follow it. */
static uint32_t tenth(uint32_t number) { return number * 205 >> 11; }

int main(void)
{
    struct weight weight;
    while (read(CONSOLE_IN, &weight, sizeof weight) == sizeof weight) {
        char line[16];
        size_t len = 0;
        while (len < sizeof weight.cart && weight.cart[len] != 0) {
            line[len] = weight.cart[len];
            len++;
        }
        uint32_t tens = tenth(weight.kilos), hundreds = tenth(tens);
        line[len++] = ' ';
        if (hundreds > 0)
            line[len++] = (char)('0' + hundreds);
        if (tens > 0)
            line[len++] = (char)('0' + tens - hundreds * 10);
        line[len++] = (char)('0' + weight.kilos - tens * 10);
        line[len++] = '\n';
        write(CONSOLE_OUT, line, len);
    }
    return 0;
}
