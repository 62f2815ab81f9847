/* script.h: the words, numbers and bytes of a replay script's line (docs/FORMATS.md). */
#ifndef SCRIPT_H
#define SCRIPT_H

#include <stdint.h>
#include <stdio.h>
#include <string.h>

enum { LONGEST_LINE = 20000, MOST_WORDS = LONGEST_LINE / 2 + 1 };

/* How a word is written: as it is, between quotation marks, or so with a ~ before them. */
typedef enum form { PLAIN, QUOTED, FOLDED } form;

/* A word of a line; of one between marks, what stands there. */
typedef struct word {
    const uint8_t *at;
    size_t length;
    form form;
} word;

/* Reads a line without its end, at most room bytes of it; -1 where there is none, else its length,
   which is above LONGEST_LINE for a line that is too long. */
static long next_line(FILE *input, uint8_t *line, long room)
{
    long length = 0;
    int byte = getc(input);
    if (byte == EOF)
        return -1;
    for (; byte != EOF && byte != '\n'; byte = getc(input)) {
        if (length < room)
            line[length] = (uint8_t)byte;
        length += length <= LONGEST_LINE;
    }
    return length;
}

/* The bytes of the word at the front, its marks counted; 0 where no word stands there. */
static size_t first_word(const uint8_t *rest, size_t length, word *first)
{
    size_t sign = length > 1 && rest[0] == '~' && rest[1] == '"';
    size_t mark = length > sign && rest[sign] == '"';
    first->form = sign ? FOLDED : mark ? QUOTED : PLAIN;
    first->at = rest + sign + mark;
    size_t room = length - sign - mark;
    const uint8_t *end = room > 0 ? memchr(first->at, mark ? '"' : ' ', room) : NULL;
    if (mark && end == NULL)
        return 0;
    first->length = end == NULL ? room : (size_t)(end - first->at);
    return first->length + sign + 2 * mark;
}

/* The words of a line, parted by single blanks; 0 where it isn't made of words. */
static size_t words_of(const uint8_t *line, size_t length, word *words)
{
    size_t count = 0;
    for (;;) {
        size_t used = first_word(line, length, &words[count]);
        if (used == 0)
            return 0;
        count++;
        if (used == length)
            return count;
        if (line[used] != ' ')
            return 0;
        line += used + 1;
        length -= used + 1;
    }
}

static int is(word w, const char *text)
{
    return w.form == PLAIN && w.length == strlen(text) && memcmp(w.at, text, w.length) == 0;
}

/* A decimal number that is at most the bound; 0 where the word is none. */
static int number(word w, uint64_t bound, uint64_t *value)
{
    *value = 0;
    if (w.form != PLAIN || w.length == 0)
        return 0;
    for (size_t i = 0; i < w.length; i++) {
        if (w.at[i] < '0' || w.at[i] > '9')
            return 0;
        *value = *value * 10 + (uint64_t)(w.at[i] - '0');
        if (*value > UINT32_MAX)
            return 0;
    }
    return *value <= bound;
}

static int digit(uint8_t byte)
{
    if (byte >= '0' && byte <= '9')
        return byte - '0';
    return byte >= 'a' && byte <= 'f' ? byte - 'a' + 10 : -1;
}

/* Bytes into a run with room for a line's: '-', 'x' and digits, or a quoted word; 0 where the word
   says none of these. */
static int bytes_of(word w, uint8_t *bytes, size_t *length)
{
    *length = w.form == QUOTED ? w.length : 0;
    if (w.form == QUOTED)
        memcpy(bytes, w.at, w.length);
    if (w.form == QUOTED || is(w, "-"))
        return 1;
    if (w.form == FOLDED || w.length % 2 == 0 || w.at[0] != 'x')
        return 0;
    for (size_t i = 1; i < w.length; i += 2) {
        int high = digit(w.at[i]), low = digit(w.at[i + 1]);
        if (high < 0 || low < 0)
            return 0;
        bytes[(*length)++] = (uint8_t)(high * 16 + low);
    }
    return 1;
}

#endif
