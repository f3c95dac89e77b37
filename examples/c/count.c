/* Counts the lines, words and bytes of its input. */

#include <stdbool.h>

#include "print.h"
#include "services.h"

static char piece[256];

static bool is_blank(char c)
{
    return c == ' ' || c == '\t' || c == '\n' || c == '\r';
}

static void print_count(const char *name, unsigned long count)
{
    print(name);
    print(" ");
    print_number(count);
    print("\n");
}

int main(void)
{
    unsigned long lines = 0, words = 0, bytes = 0;
    bool in_word = false;
    long length;

    while ((length = read(0, piece, sizeof piece)) > 0) {
        for (long at = 0; at < length; at++) {
            lines += piece[at] == '\n';
            words += !in_word && !is_blank(piece[at]);
            in_word = !is_blank(piece[at]);
        }
        bytes += (unsigned long)length;
    }
    print_count("lines", lines);
    print_count("words", words);
    print_count("bytes", bytes);
    return 0;
}
