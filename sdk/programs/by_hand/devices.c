/* The three devices: the clock, random bytes, and the one that is silent. There is no fourth. */
#include "arnold.h"

/* The nanoseconds from the start of 1970 to that of 2024. */
#define YEAR_2024 1704067200000000000

static void print_hex(const uint8_t *bytes, size_t len)
{
    static const char digits[] = "0123456789abcdef";
    char text[2];
    for (size_t at = 0; at < len; at++) {
        text[0] = digits[bytes[at] >> 4];
        text[1] = digits[bytes[at] & 15];
        write(CONSOLE_OUT, text, sizeof text);
    }
    write(CONSOLE_OUT, "\n", 1);
}

int main(void)
{
    int64_t times[3] = {0};
    uint8_t bytes[8];
    int64_t clock = device(0), entropy = device(1), silent = device(2);
    if (clock < 0 || entropy < 0 || silent < 0 || device(3) != E_NO_DEVICE)
        return 1;
    if (read(clock, &times[0], 8) != 8 || read(clock, &times[1], 16) != 8)
        return 2;
    if (times[0] < YEAR_2024 || times[1] < times[0])
        return 2;
    if (read(clock, bytes, 3) != 3 || write(clock, "abc", 3) != 3)
        return 3;
    if (read(silent, bytes, 8) != 0 || write(silent, "abc", 3) != 3)
        return 4;
    if (read(entropy, bytes, 8) != 8)
        return 5;
    print_hex(bytes, 8);
    if (read(entropy, bytes, 3) != 3)
        return 6;
    print_hex(bytes, 3);
    return 0;
}
