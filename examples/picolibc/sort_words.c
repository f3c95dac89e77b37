/* Prints the words of its input in order, each once, with how often it stands
   there. Ends with the number of different words. */

#include <ctype.h>
#include <stdio.h>
#include <stdlib.h>
#include <string.h>

struct words {
    char **items;
    size_t count, room;
};

static void *checked(void *room)
{
    if (room == NULL) {
        fputs("no memory\n", stderr);
        exit(255);
    }
    return room;
}

static void add(struct words *words, const char *word)
{
    if (words->count == words->room) {
        words->room = words->room > 0 ? 2 * words->room : 16;
        words->items = checked(realloc(words->items, words->room * sizeof(char *)));
    }
    words->items[words->count++] = checked(strdup(word));
}

/* Reads the next word, of at most 63 letters and digits, in small letters. */
static int read_word(char word[64])
{
    int c, length = 0;

    while ((c = getchar()) != EOF && !isalnum(c))
        continue;
    for (; c != EOF && isalnum(c); c = getchar())
        if (length < 63)
            word[length++] = (char)tolower(c);
    word[length] = '\0';
    return length;
}

static int compare(const void *left, const void *right)
{
    return strcmp(*(char *const *)left, *(char *const *)right);
}

int main(void)
{
    struct words words = {NULL, 0, 0};
    char word[64];
    int different = 0;

    while (read_word(word) > 0)
        add(&words, word);
    qsort(words.items, words.count, sizeof(char *), compare);
    for (size_t at = 0; at < words.count; different++) {
        size_t from = at;
        while (at < words.count && strcmp(words.items[at], words.items[from]) == 0)
            at++;
        printf("%-12s %4u\n", words.items[from], (unsigned)(at - from));
    }
    return different;
}
