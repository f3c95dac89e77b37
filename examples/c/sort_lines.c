/* Prints the lines of its input in the order of their bytes. The input and a
   list of its lines stand on the heap. Ends with the number of lines. */

#include <stdbool.h>

#include "print.h"
#include "services.h"

enum { PIECE = 256, ALIGNMENT = 16 };

struct line {
    struct line *next;
    const char *text;
    size_t length;
};

static void *allocate(size_t size)
{
    void *room = sbrk((long)((size + ALIGNMENT - 1) / ALIGNMENT * ALIGNMENT));

    if (room == (void *)-1) {
        print("no memory\n");
        exit(255);
    }
    return room;
}

/* One piece of the heap follows the other, so the input stands in one run. */
static const char *read_input(size_t *length)
{
    char *input = allocate(PIECE);
    long got;

    *length = 0;
    while ((got = read(0, input + *length, PIECE)) > 0) {
        *length += (size_t)got;
        allocate((size_t)got);
    }
    return input;
}

static struct line *list_lines(const char *text, size_t length, int *count)
{
    const char *end = text + length;
    struct line *first = NULL;
    struct line **last = &first;

    while (text < end) {
        struct line *line = allocate(sizeof *line);
        const char *from = text;
        while (text < end && *text != '\n')
            text++;
        *line = (struct line){NULL, from, (size_t)(text - from)};
        *last = line;
        last = &line->next;
        text++;
        ++*count;
    }
    return first;
}

static bool goes_after(const struct line *left, const struct line *right)
{
    for (size_t at = 0; at < left->length && at < right->length; at++)
        if (left->text[at] != right->text[at])
            return (unsigned char)left->text[at] > (unsigned char)right->text[at];
    return left->length > right->length;
}

static struct line *merge(struct line *left, struct line *right)
{
    struct line *first = NULL;
    struct line **last = &first;

    while (left != NULL && right != NULL) {
        struct line **smaller = goes_after(left, right) ? &right : &left;
        *last = *smaller;
        last = &(*smaller)->next;
        *smaller = *last;
    }
    *last = left != NULL ? left : right;
    return first;
}

static struct line *sort(struct line *first, int count)
{
    if (count < 2)
        return first;

    struct line **middle = &first;
    for (int at = 0; at < count / 2; at++)
        middle = &(*middle)->next;
    struct line *second = *middle;
    *middle = NULL;
    return merge(sort(first, count / 2), sort(second, count - count / 2));
}

int main(void)
{
    size_t length;
    int count = 0;
    const char *text = read_input(&length);
    struct line *lines = sort(list_lines(text, length, &count), count);

    for (; lines != NULL; lines = lines->next) {
        write(1, lines->text, lines->length);
        print("\n");
    }
    return count;
}
