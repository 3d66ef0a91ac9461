/* The first program: takes lines of a cart and its weight from the console, and writes a record for each. */
#include "arnold.h"

struct weight {
    char cart[6];
    uint16_t kilos;
};

int main(void)
{
    char text[128];
    int64_t len = read(CONSOLE_IN, text, sizeof text);
    int64_t at = 0;
    while (at < len) {
        struct weight weight;
        memset(&weight, 0, sizeof weight);
        for (size_t i = 0; at < len && text[at] > ' '; at++)
            if (i < sizeof weight.cart)
                weight.cart[i++] = text[at];
        at++;
        for (; at < len && text[at] > ' '; at++)
            weight.kilos = weight.kilos * 10 + (text[at] - '0');
        at++;
        write(CONSOLE_OUT, &weight, sizeof weight);
    }
    return 0;
}
