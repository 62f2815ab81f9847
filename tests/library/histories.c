/* histories.c: makes the calls of a text of gate histories and writes each answer, one line a call.

   gate              gate                      a new gate; there is one at the start
   replace HEX       edition E tags N
   begin             serial S
   piece S HEX       read | cut T
   decide S          pass | hold MASKHEX | stale E | unread

   HEX is lower-case, `-` for no bytes. A refusal is `refused`, its number, and what is returned with
   it. A line that is no call ends the program. */
#define _POSIX_C_SOURCE 200809L
#include <inttypes.h>
#include <sleet.h>
#include <stdio.h>
#include <stdlib.h>
#include <sys/types.h>

static sleet_gateway gateway;

static void need(int fact, const char *line)
{
    if (fact)
        return;
    fprintf(stderr, "histories: not a call: %.60s\n", line);
    exit(1);
}

/* What stands behind a word and a blank; null where the line doesn't begin so. */
static char *behind(char *line, const char *word)
{
    size_t length = strlen(word);
    return strncmp(line, word, length) == 0 && line[length] == ' ' ? line + length + 1 : NULL;
}

/* A serial in decimal; what stands behind it is left in rest. */
static uint32_t serial_of(char *text, char **rest)
{
    need(text[0] >= '0' && text[0] <= '9', text);
    unsigned long long value = strtoull(text, rest, 10);
    need(value <= UINT32_MAX, text);
    return (uint32_t)value;
}

static unsigned digit(const char *at, const char *line)
{
    static const char digits[] = "0123456789abcdef";
    const char *found = *at == 0 ? NULL : strchr(digits, *at);
    need(found != NULL, line);
    return (unsigned)(found - digits);
}

/* Turns digits into bytes where they stand, for they need half the room; gives their number. */
static size_t bytes_of(char *text)
{
    size_t length = strlen(text);
    if (strcmp(text, "-") == 0)
        return 0;
    need(length > 0 && length % 2 == 0, text);
    for (size_t i = 0; i < length; i += 2)
        text[i / 2] = (char)(digit(text + i, text) * 16 + digit(text + i + 1, text));
    return length / 2;
}

static void replace(char *hex)
{
    size_t length = bytes_of(hex);
    sleet_replaced said = sleet_change(&gateway, (const uint8_t *)hex, length);
    if (said.refusal == SLEET_ACCEPTED)
        printf("edition %" PRIu32 " tags %zu\n", said.edition, said.tags);
    else if (said.refusal <= SLEET_REFUSED_REPEAT)
        printf("refused %" PRIu64 " %zu\n", said.refusal, said.entry);
    else if (said.refusal == SLEET_REFUSED_TABLE)
        printf("refused %" PRIu64 " %zu %zu\n", said.refusal, said.machine, said.needs);
    else
        printf("refused %" PRIu64 "\n", said.refusal);
}

static void begin(void)
{
    sleet_begun said = sleet_begin(&gateway);
    if (said.refusal == SLEET_ACCEPTED)
        printf("serial %" PRIu32 "\n", said.serial);
    else
        printf("refused %" PRIu64 "\n", said.refusal);
}

static void piece(char *words)
{
    char *hex;
    uint32_t serial = serial_of(words, &hex);
    need(hex[0] == ' ', words);
    hex++;
    size_t length = bytes_of(hex);
    sleet_pieced said = sleet_piece(&gateway, serial, (const uint8_t *)hex, length);
    if (said.refusal == SLEET_REFUSED_STALE)
        printf("refused %" PRIu64 " %" PRIu32 "\n", said.refusal, said.edition);
    else if (said.refusal != SLEET_ACCEPTED)
        printf("refused %" PRIu64 "\n", said.refusal);
    else if (said.whole)
        printf("read\n");
    else
        printf("cut %zu\n", said.taken);
}

static void decide(char *word)
{
    char *rest;
    uint32_t serial = serial_of(word, &rest);
    need(rest[0] == 0, word);
    sleet_decided said = sleet_decide(&gateway, serial);
    switch (said.verdict) {
    case SLEET_PASS: printf("pass\n"); break;
    case SLEET_HOLD: printf("hold %" PRIx64 "\n", said.mask); break;
    case SLEET_TOO_OLD: printf("stale %" PRIu32 "\n", said.edition); break;
    case SLEET_UNREAD: printf("unread\n"); break;
    default: printf("refused %" PRIu64 "\n", said.refusal); break;
    }
}

static void call(char *line)
{
    char *words;
    if (strcmp(line, "gate") == 0) {
        sleet_gateway_start(&gateway);
        printf("gate\n");
    } else if (strcmp(line, "begin") == 0) {
        begin();
    } else if ((words = behind(line, "replace")) != NULL) {
        replace(words);
    } else if ((words = behind(line, "piece")) != NULL) {
        piece(words);
    } else if ((words = behind(line, "decide")) != NULL) {
        decide(words);
    } else {
        need(0, line);
    }
}

int main(void)
{
    char *line = NULL;
    size_t room = 0;
    ssize_t length;
    sleet_gateway_start(&gateway);
    while ((length = getline(&line, &room, stdin)) > 0) {
        if (line[length - 1] == '\n')
            line[length - 1] = 0;
        call(line);
    }
    free(line);
    return ferror(stdin) || fflush(stdout) != 0;
}
