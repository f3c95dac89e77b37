#include "print.h"
#include "services.h"

void print(const char *text)
{
    size_t length = 0;

    while (text[length] != '\0')
        length++;
    write(1, text, length);
}

void print_number(unsigned long number)
{
    char digits[10];
    size_t at = sizeof digits;

    do {
        digits[--at] = (char)('0' + number % 10);
        number /= 10;
    } while (number > 0);
    write(1, digits + at, sizeof digits - at);
}
