/* Prints a table of square roots, sines and logarithms. */

#include <math.h>
#include <stdio.h>

int main(void)
{
    printf("%4s %10s %10s %10s\n", "x", "sqrt", "sin", "log");
    for (int x = 1; x <= 5; x++)
        printf("%4d %10.6f %10.6f %10.6f\n", x, sqrt(x), sin(x), log(x));
    return 0;
}
