/* Text and numbers on the output. */

#ifndef PRINT_H
#define PRINT_H

void print(const char *text);
void print_number(unsigned long number);

#endif
