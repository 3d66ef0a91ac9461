/* Multiplication, division and floats, which the machine doesn't have: libraries do them by other instructions. */
#include <math.h>
#include <stdint.h>
#include <stdio.h>

static volatile int64_t seven = 7;
static volatile uint64_t large = 0xfedcba9876543210u;
static volatile double third = 1.0 / 3;
static volatile float half = 0.5f;

int main(void)
{
    printf("%ld %ld %ld %ld\n", (long)(seven * -6), (long)(-100 / seven), (long)(-100 % seven), (long)(seven << 40));
    printf("%lx %lx %lx\n", (unsigned long)(large * large), (unsigned long)(large / 12345), (unsigned long)(large % 12345));
    unsigned __int128 wide = (unsigned __int128)large * large;
    printf("%lx\n", (unsigned long)(wide >> 64));
    printf("%.15f %.15f %.15f\n", third * 3, third + half, third / half);
    printf("%d %ld %.1f %d\n", (int)(third * 100), (long)-2.9, (double)(int64_t)seven, third < half);
    printf("%.12f %.12f %.12f %.12f\n", sqrt(2), sin(1), exp(1), log(10));
    printf("%.6f %.6f %.6f\n", pow(2, 0.5), fmod(10, 3), floor(-1.5));
    return 0;
}
