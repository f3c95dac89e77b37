/* Prints a line and ends with code 0. */

#include "print.h"

int main(void)
{
    print("hello from C\n");
    return 0;
}
