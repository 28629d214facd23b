/* An example host: hears frames from a text file and prints a sheet for each module that was listed.
 *
 *     sheet FILE [ADDRESS]
 *
 * A line of the file is a frame in hexadecimal: identifier, remote flag, data bytes, as in
 *
 *     654 0 FF 0A 12 34 01 0C 05
 *
 * Empty lines and lines that begin with # are passed over; a FILE of - is standard input. Refusals are told in words, on standard
 * error. Whatever was not heard is shown as `not heard`, or as `--` among cells that were and as a dot in mid-line among the characters of a name
 * that were, which is no character of a name; never as a value. */
#include "velbus.h"

#include <ctype.h>
#include <errno.h>
#include <stdio.h>
#include <stdlib.h>
#include <string.h>

enum {
    LONGEST_LINE = 256,                 /* characters of a line of the file, with its end */
    MOST_BYTES = 2 * VELBUS_DATA_SIZE,  /* of a line; more than a frame has, so that the library is the one to refuse them */
    CELLS_IN_LINE = 16,                 /* of the sheet */
    NAME_END = 0xFF,                    /* fills a name that is shorter than it could be */
    DEPTH = 16                          /* of the way back */
};

#define MARK "\xC2\xB7"              /* a character that was not heard: a dot in mid-line, in UTF-8, as no single byte is shown */

static uint8_t picture[VELBUS_PICTURE_SIZE];

/* ---- refusals ---- */

static const char *refusal_text(uint32_t number)
{
    static const char *const texts[] = {
        [VELBUS_BAD_IDENTIFIER] = "identifier above 2047",
        [VELBUS_BAD_FORM] = "frame badly formed",
        [VELBUS_BAD_PRIORITY] = "neither high nor low priority",
        [VELBUS_BAD_TYPE] = "module type not known here",
        [VELBUS_TYPE_NOT_KNOWN] = "type of the address not known",
        [VELBUS_NOT_LISTED] = "command not in the type's list",
        [VELBUS_WRONG_LENGTH] = "length not the command's",
        [VELBUS_WRONG_PRIORITY] = "priority not the command's",
        [VELBUS_BAD_FIELD] = "field not allowed",
        [VELBUS_NO_ROOM] = "no room for another module",
        [VELBUS_NOTHING_KEPT] = "no step back is kept",
        [VELBUS_NO_SUCH_PLACE] = "no such cell, name, LED or blind on this type, or no such depth",
        [VELBUS_TOO_SHORT] = "buffer too short, or a place beyond its end",
        [VELBUS_CUT_OFF] = "recording ends inside a record",
        [VELBUS_BAD_NUMBER] = "recording number too long, too large or not shortest",
        [VELBUS_SID0] = "SID0 is set",
    };
    return number < sizeof texts / sizeof texts[0] && texts[number] ? texts[number] : "a number without words here";
}

/* Tells a refusal on standard error; whether there was one. */
static int refused(const char *what, uint32_t word)
{
    uint32_t number = velbus_refusal(word);
    if (velbus_place(word))
        fprintf(stderr, "%s: refused %u at byte %u, %s\n", what, number, velbus_place(word), refusal_text(number));
    else if (number)
        fprintf(stderr, "%s: refused %u, %s\n", what, number, refusal_text(number));
    return number != 0;
}

/* Whether the type has no such place, which ends a list of them; any other refusal ends it too, and is told. */
static int past_last(const char *what, uint32_t word)
{
    return velbus_refusal(word) == VELBUS_NO_SUCH_PLACE || refused(what, word);
}

/* ---- hearing ---- */

/* Reads a frame's numbers; the count of numbers, or -1 where the line is none. */
static int parse(const char *line, unsigned long *numbers, int most)
{
    int n = 0;
    for (;;) {
        char *end;
        while (isspace((unsigned char)*line))
            line++;
        if (*line == '\0')
            return n;
        errno = 0;
        unsigned long value = strtoul(line, &end, 16);
        if (end == line || errno || (*end != '\0' && !isspace((unsigned char)*end)) || n == most || value > UINT32_MAX)
            return -1;
        numbers[n++] = value;
        line = end;
    }
}

/* Hears the frame of a line; 0 where the line is one. `where` names the line. */
static int hear_line(const char *where, const char *line)
{
    unsigned long v[2 + MOST_BYTES];
    uint8_t data[MOST_BYTES];
    int n = parse(line, v, 2 + MOST_BYTES);
    int bad = n < 2;
    for (int i = 2; i < n; i++) {
        bad |= v[i] > 0xFF;
        data[i - 2] = (uint8_t)v[i];
    }
    if (bad)
        fprintf(stderr, "%s: not a frame\n", where);
    else
        refused(where, velbus_hear(picture, sizeof picture, (uint32_t)v[0], (uint32_t)v[1], data, (size_t)(n - 2)));
    return bad;
}

/* Hears every line; 0 where the file could be read to its end. */
static int hear_file(FILE *file)
{
    char line[LONGEST_LINE], where[32];
    for (unsigned number = 1; fgets(line, sizeof line, file); number++) {
        snprintf(where, sizeof where, "line %u", number);
        if (!strchr(line, '\n') && !feof(file)) {
            fprintf(stderr, "%s: too long\n", where);
            return 1;
        }
        if (line[0] == '#' || line[strspn(line, " \t\r\n")] == '\0')
            continue;
        if (hear_line(where, line))
            return 1;
    }
    return ferror(file);
}

/* ---- the sheet ---- */

static void print_number(const char *name, uint32_t word)
{
    if (refused(name, word))
        return;
    if (velbus_value(word) == VELBUS_UNKNOWN)
        printf("%s not heard", name);
    else
        printf("%s %u", name, velbus_value(word));
}

/* A number of a row, or VELBUS_UNKNOWN. */
static unsigned number_of(const uint8_t *row, uint32_t i)
{
    return row[2 * i] | (unsigned)row[2 * i + 1] << 8;
}

/* The characters that were heard, but those that fill a name's end, and a mark for each of the others. */
static void print_name(const uint8_t *row, unsigned heard)
{
    for (uint32_t i = 0; i < VELBUS_NAME_LENGTH; i++) {
        unsigned c = number_of(row, i);
        if (c == VELBUS_UNKNOWN)
            printf(MARK);
        else if (c != NAME_END)
            putchar(isprint((int)c) ? (int)c : '?');
    }
    if (heard < VELBUS_NAME_LENGTH)
        printf("  %u of %u heard, " MARK " not heard", heard, VELBUS_NAME_LENGTH);
    putchar('\n');
}

static void print_names(uint32_t address)
{
    uint8_t row[VELBUS_NAME_SIZE];
    uint32_t word;
    for (uint32_t name = 1; !past_last("name", word = velbus_name(picture, sizeof picture, address, name, row, sizeof row)); name++) {
        printf("name %u   ", name);
        if (velbus_value(word) == 0)
            printf("not heard\n");
        else
            print_name(row, velbus_value(word));
    }
}

static void print_states(uint32_t address)
{
    static const char *const leds[] = {[VELBUS_LED_OFF] = "off", [VELBUS_LED_ON] = "on", [VELBUS_LED_SLOW] = "slow",
                                       [VELBUS_LED_FAST] = "fast", [VELBUS_LED_VERY_FAST] = "very fast"};
    static const char *const blinds[] = {[VELBUS_BLIND_OFF] = "off", [VELBUS_BLIND_UP] = "up", [VELBUS_BLIND_DOWN] = "down"};
    uint32_t word;
    for (uint32_t n = 1; !past_last("LED", word = velbus_led(picture, sizeof picture, address, n)); n++)
        printf("LED %u    %s\n", n, velbus_value(word) == VELBUS_UNKNOWN ? "not heard" : leds[velbus_value(word)]);
    for (uint32_t n = 1; !past_last("blind", word = velbus_blind(picture, sizeof picture, address, n)); n++)
        printf("blind %u  %s\n", n, velbus_value(word) == VELBUS_UNKNOWN ? "not heard" : blinds[velbus_value(word)]);
}

static uint32_t heard_from(const uint8_t *row, uint32_t start, uint32_t end)
{
    uint32_t heard = 0;
    for (uint32_t i = start; i < end; i++)
        heard += number_of(row, i) != VELBUS_UNKNOWN;
    return heard;
}

/* Prints one line of cells; lines of which no cell was heard are one line together. Returns where the next line starts. */
static uint32_t print_line(const uint8_t *row, uint32_t start, uint32_t cells)
{
    uint32_t end = start;
    while (end < cells && heard_from(row, end, end + CELLS_IN_LINE) == 0)
        end += CELLS_IN_LINE;
    if (end > start) {
        printf("  %02X to %02X  not heard\n", start, end - 1);
        return end;
    }
    printf("  %02X ", start);
    for (uint32_t i = start; i < start + CELLS_IN_LINE; i++)
        if (number_of(row, i) == VELBUS_UNKNOWN)
            printf(" --");
        else
            printf(" %02X", number_of(row, i));
    putchar('\n');
    return start + CELLS_IN_LINE;
}

static void print_cells(uint32_t address)
{
    uint8_t row[VELBUS_ROW_SIZE];
    uint32_t cells = 0, heard;
    while (!past_last("cell", velbus_cell(picture, sizeof picture, address, cells)))
        cells++;
    if (refused("memory row", velbus_memory_row(picture, sizeof picture, address, row, sizeof row)))
        return;
    heard = heard_from(row, 0, cells);
    if (heard == 0) {
        printf("cells    not heard\n");
        return;
    }
    printf("cells    %u of %u heard, -- not heard\n", heard, cells);
    for (uint32_t start = 0; start < cells;)
        start = print_line(row, start, cells);
}

static const char *type_name(uint32_t type)
{
    return type == VELBUS_VMB8IR ? "VMB8IR" : type == VELBUS_VMB1BL ? "VMB1BL" : type == VELBUS_VMB2BL ? "VMB2BL" : "without a name here";
}

static void print_sheet(uint32_t address)
{
    uint32_t type = velbus_type(picture, sizeof picture, address);
    if (refused("type", type))
        return;
    printf("module %02X\n", address);
    printf("type     %02X %s\n", velbus_value(type), type_name(velbus_value(type)));
    print_number("build    year", velbus_build_year(picture, sizeof picture, address));
    print_number(" week", velbus_build_week(picture, sizeof picture, address));
    putchar('\n');
    print_names(address);
    print_states(address);
    print_cells(address);
    putchar('\n');
}

int main(int argc, char **argv)
{
    uint8_t listed[VELBUS_LISTED_SIZE];
    unsigned long wanted = 0;
    int all = argc == 2;
    if (argc < 2 || argc > 3 || (!all && (parse(argv[2], &wanted, 1) != 1 || wanted >= VELBUS_LISTED_SIZE))) {
        fprintf(stderr, "usage: sheet FILE [ADDRESS], the address in hexadecimal, 0 to FF\n");
        return 2;
    }
    FILE *file = strcmp(argv[1], "-") == 0 ? stdin : fopen(argv[1], "r");
    if (!file) {
        perror(argv[1]);
        return 1;
    }
    if (refused("fresh", velbus_fresh_depth(picture, sizeof picture, DEPTH)))
        return 1;
    if (hear_file(file)) {
        fprintf(stderr, "%s: not read to its end\n", argv[1]);
        return 1;
    }
    if (refused("listed", velbus_listed(picture, sizeof picture, listed, sizeof listed)))
        return 1;
    for (uint32_t address = 0; address < VELBUS_LISTED_SIZE; address++)
        if (listed[address] && (all || wanted == address))
            print_sheet(address);
    if (!all && !listed[wanted])
        printf("module %02lX is not listed\n", wanted);
    return 0;
}
