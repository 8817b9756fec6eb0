/* Decides one packet by a packed table:
 *
 *     decide TABLE SOURCE SPORT DEST DPORT PROTOCOL
 *
 * TABLE is a file; the addresses are four numbers with full stops between them, the other values one number each. It prints deny,
 * none or allow with status 0, or `refused` and a number with status 1. Wrong use and files that cannot be read end with status 2.
 */
#include <stdio.h>
#include <stdlib.h>

#include "kusucopper.h"

/* The most bytes of a packed table. One byte more is enough to know that a file is too long. */
#define MOST 32768u

static const char USE[] = "use: decide TABLE SOURCE SPORT DEST DPORT PROTOCOL\n"
                          "     decide tug.table 192.168.10.7 1024 192.168.20.6 502 6\n";

/* Takes one decimal number up to `largest`, without a 0 in front, from the start of a text. Answers what is left of the text, or
 * NULL where there is no such number. */
static const char *take_number(const char *text, uint32_t largest, uint32_t *number)
{
    uint32_t value = 0;
    const char *place = text;
    while (*place >= '0' && *place <= '9') {
        value = 10 * value + (uint32_t)(*place - '0');
        if (value > largest || (place > text && *text == '0'))
            return NULL;
        place++;
    }
    *number = value;
    return place > text ? place : NULL;
}

/* Reads a whole word as one number; ends the program if it is none. */
static uint32_t number_of(const char *word, const char *name, uint32_t largest)
{
    uint32_t number = 0;
    const char *rest = take_number(word, largest, &number);
    if (rest == NULL || *rest != '\0') {
        fprintf(stderr, "decide: the %s is a number from 0 to %lu, not %s\n", name, (unsigned long)largest, word);
        exit(2);
    }
    return number;
}

/* Reads a whole word as an address; ends the program if it is none. */
static uint32_t address_of(const char *word, const char *name)
{
    uint32_t address = 0;
    const char *rest = word;
    for (int part = 0; part < 4 && rest != NULL; part++) {
        uint32_t number = 0;
        if (part > 0)
            rest = *rest == '.' ? rest + 1 : NULL;
        if (rest != NULL)
            rest = take_number(rest, 255, &number);
        address = address << 8 | number;
    }
    if (rest == NULL || *rest != '\0') {
        fprintf(stderr, "decide: the %s is four numbers from 0 to 255 with full stops between them, not %s\n", name, word);
        exit(2);
    }
    return address;
}

/* Reads a file up to one byte more than a table may have; ends the program if it cannot be read. */
static size_t load(const char *name, uint8_t bytes[MOST + 1])
{
    FILE *file = fopen(name, "rb");
    if (file == NULL) {
        fprintf(stderr, "decide: ");
        perror(name);
        exit(2);
    }
    size_t length = fread(bytes, 1, MOST + 1, file);
    if (ferror(file)) {
        fprintf(stderr, "decide: ");
        perror(name);
        exit(2);
    }
    fclose(file);
    return length;
}

int main(int count, char **words)
{
    static uint8_t bytes[MOST + 1];
    static const char *const decisions[] = {"deny", "none", "allow"};
    if (count != 7) {
        fputs(USE, stderr);
        return 2;
    }
    uint32_t source = address_of(words[2], "source address");
    uint16_t source_port = (uint16_t)number_of(words[3], "source port", 65535);
    uint32_t destination = address_of(words[4], "destination address");
    uint16_t destination_port = (uint16_t)number_of(words[5], "destination port", 65535);
    uint8_t protocol = (uint8_t)number_of(words[6], "protocol", 255);
    size_t length = load(words[1], bytes);

    uint32_t answer = kusucopper_decide(bytes, length, source, source_port, destination, destination_port, protocol);
    if (answer <= KUSUCOPPER_ALLOW) {
        puts(decisions[answer]);
        return 0;
    }
    printf("refused %lu\n", (unsigned long)(answer - KUSUCOPPER_REFUSED));
    return 1;
}
