/* Answers case lines on standard input by the rig call, for the comparison with an independent implementation:
 *
 *     rig BYTES PACKET        ->  answer N
 *
 * BYTES are lowercase hexadecimal digits, or `-` for none; PACKET is five decimal numbers. Any other line ends the program with
 * status 2.
 *
 * Each table is laid right before memory that cannot be read, and is itself closed for writing during the call. So a call that reads
 * behind its bytes or changes them ends the program.
 */
#define _GNU_SOURCE
#include <stdio.h>
#include <stdlib.h>
#include <string.h>
#include <sys/mman.h>
#include <unistd.h>

#include "kusucopper.h"

/* The place for a table: `room` bytes up to `end`, where memory begins that cannot be read. */
struct place {
    uint8_t *end;
    size_t room;
};

static void fail(const char *what)
{
    fprintf(stderr, "answer: %s\n", what);
    exit(2);
}

/* A place with at least so much room. The old one is given back. */
static struct place widen(struct place old, size_t room)
{
    size_t page = (size_t)sysconf(_SC_PAGESIZE);
    size_t whole = (room / page + 1) * page;
    if (old.room > 0)
        munmap(old.end - old.room, old.room + page);
    uint8_t *start = mmap(NULL, whole + page, PROT_READ | PROT_WRITE, MAP_PRIVATE | MAP_ANONYMOUS, -1, 0);
    if (start == MAP_FAILED || mprotect(start + whole, page, PROT_NONE) != 0)
        fail("no memory");
    return (struct place){start + whole, whole};
}

/* Opens a place for writing, or closes it. */
static void let_write(struct place place, int is_open)
{
    if (mprotect(place.end - place.room, place.room, is_open ? PROT_READ | PROT_WRITE : PROT_READ) != 0)
        fail("memory cannot be opened or closed for writing");
}

static uint8_t digit_of(char letter)
{
    if (letter >= '0' && letter <= '9')
        return (uint8_t)(letter - '0');
    if (letter < 'a' || letter > 'f')
        fail("no hexadecimal digit");
    return (uint8_t)(letter - 'a' + 10);
}

/* The next word of a line, ended by its space or the line's end; the rest of the line is left. */
static char *next_word(char **line)
{
    char *word = strsep(line, " ");
    if (word == NULL || *word == '\0')
        fail("a word is wanting");
    return word;
}

static uint32_t next_number(char **line, unsigned long largest)
{
    char *word = next_word(line);
    char *end = word;
    unsigned long number = strtoul(word, &end, 10);
    if (*word < '0' || *word > '9' || *end != '\0' || number > largest)
        fail("no number, or too large");
    return (uint32_t)number;
}

/* Answers one line. */
static uint32_t answer(char *line, struct place *place)
{
    if (strcmp(next_word(&line), "rig") != 0)
        fail("only rig is answered");
    const char *digits = next_word(&line);
    size_t length = strcmp(digits, "-") == 0 ? 0 : strlen(digits);
    if (length % 2 != 0)
        fail("hexadecimal digits come in pairs");
    length /= 2;
    if (length >= place->room)
        *place = widen(*place, length);
    uint8_t *bytes = place->end - length;
    let_write(*place, 1);
    for (size_t i = 0; i < length; i++)
        bytes[i] = (uint8_t)(digit_of(digits[2 * i]) << 4 | digit_of(digits[2 * i + 1]));
    let_write(*place, 0);

    uint32_t source = next_number(&line, UINT32_MAX);
    uint16_t source_port = (uint16_t)next_number(&line, UINT16_MAX);
    uint32_t destination = next_number(&line, UINT32_MAX);
    uint16_t destination_port = (uint16_t)next_number(&line, UINT16_MAX);
    uint8_t protocol = (uint8_t)next_number(&line, UINT8_MAX);
    if (line != NULL)
        fail("a word too many");
    return kusucopper_decide(bytes, length, source, source_port, destination, destination_port, protocol);
}

int main(void)
{
    struct place place = {NULL, 0};
    char *line = NULL;
    size_t room = 0;
    ssize_t length;
    while ((length = getline(&line, &room, stdin)) > 0) {
        if (line[length - 1] == '\n')
            line[length - 1] = '\0';
        printf("answer %lu\n", (unsigned long)answer(line, &place));
    }
    free(line);
    return 0;
}
