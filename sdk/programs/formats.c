/* Texts from numbers, and numbers from texts. */
#include <inttypes.h>
#include <math.h>
#include <stdio.h>
#include <stdlib.h>

int main(void)
{
    printf("%d %5d|%-5d|%05d %+d %x %#X %o %c %s %.3s %%\n", -7, 42, 42, 42, 42, 255, 255, 8, 'c', "text", "cut off");
    printf("%" PRId64 " %" PRIu64 " %zu %p\n", INT64_MIN, UINT64_MAX, sizeof(long), (void *)0x1234);
    printf("%f %.2f %8.3f %e %g %g %g\n", 3.25, 2.0 / 3, -1.5, 12345.678, 0.0001, 1e20, 100.0);
    printf("%f %f %f\n", INFINITY, -INFINITY, NAN);
    printf("%*d|%.*f\n", 6, 12, 1, 9.96);

    int number, more;
    char word[16];
    double real;
    int taken = sscanf("17 apples 2.5e3 0x1f", "%d %15s %lf %i", &number, word, &real, &more);
    printf("%d: %d %s %.1f %d\n", taken, number, word, real, more);
    char *end;
    long parsed = strtol("-123abc", &end, 10);
    printf("%ld %s %lu %.4f\n", parsed, end, strtoul("777", NULL, 8), strtod("1.0625e1", NULL));
    return 0;
}
