/* The second program: subtracts from each weight the tare of its cart, which is what the cart weighs when it's empty. The
   file `tares` has a line for each cart, with its name and its tare. */
#include "arnold.h"

struct weight {
    char cart[6];
    uint16_t kilos;
};

static char tares[128];
static int64_t tares_len;

/* The tare of the cart that was looked up. */
static uint16_t tare;

static int is_cart(const struct weight *weight, const char *name, int64_t len)
{
    return len <= (int64_t)sizeof weight->cart && memcmp(weight->cart, name, (size_t)len) == 0
        && (len == (int64_t)sizeof weight->cart || weight->cart[len] == 0);
}

static void look_up(const struct weight *weight)
{
    int64_t at = 0;
    while (at < tares_len) {
        int64_t name = at;
        while (at < tares_len && tares[at] > ' ')
            at++;
        int found = is_cart(weight, tares + name, at - name);
        at++;
        uint16_t number = 0;
        for (; at < tares_len && tares[at] > ' '; at++)
            number = number * 10 + (tares[at] - '0');
        at++;
        if (found)
            tare = number;
    }
}

int main(void)
{
    int64_t file = open("tares", 5, OPEN_THERE);
    tares_len = read(file, tares, sizeof tares);
    struct weight weight;
    while (read(CONSOLE_IN, &weight, sizeof weight) == sizeof weight) {
        look_up(&weight);
        weight.kilos -= tare;
        write(CONSOLE_OUT, &weight, sizeof weight);
    }
    return 0;
}
