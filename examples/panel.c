/*
 * A panel in C: the example of the rules, and then a page with a character of its own, of which only the redrawn rows go to the screen.
 *
 * After `make library`, on x86-64:
 *
 *     gcc -std=c11 -Itarget/library examples/panel.c target/library/libbinturamis.a -o panel
 *
 * What it prints is in panel.expected.
 */
#include <stdio.h>
#include <stdlib.h>
#include <string.h>

#include "binturamis.h"

static binturamis_processor processor;
static uint8_t memory[BINTURAMIS_MEMORY_BYTES];
static uint8_t rom[BINTURAMIS_ROM_BYTES]; /* a board has its characters here */
static uint8_t picture[BINTURAMIS_PICTURE_BYTES];

/* What the flat panel shows: rows are pushed to it. */
static uint8_t screen[BINTURAMIS_PICTURE_BYTES];

/* A number that this program does not expect ends it. */
static void expect(const char *what, uint32_t answer)
{
    if (binturamis_number(answer) != BINTURAMIS_ACCEPTED) {
        fprintf(stderr, "%s: refusal %u\n", what, (unsigned)binturamis_number(answer));
        exit(1);
    }
}

static void put(uint8_t address, uint8_t value)
{
    expect("write", binturamis_write(&processor, memory, sizeof memory, address, value));
}

/* IND: the value goes to an indirect register by way of R1. */
static void put_indirect(uint8_t r, uint8_t value)
{
    put(BINTURAMIS_R1, value);
    put(BINTURAMIS_R0 + BINTURAMIS_EXECUTE, BINTURAMIS_IND + r);
}

/* The main pointer to X, Y and block Z: R6 has Z3, Z2 and Y, R7 has Z0, Z1 and X. */
static void point(unsigned x, unsigned y, unsigned z)
{
    put(BINTURAMIS_R6, (uint8_t)((z >> 3 & 1) << 7 | (z >> 2 & 1) << 5 | y));
    put(BINTURAMIS_R7, (uint8_t)((z & 1) << 7 | (z >> 1 & 1) << 6 | x));
}

/* The ten slices of a user character, by OCT. Bit 0 of a slice is its leftmost pixel. */
static void put_character(unsigned block, unsigned character, const uint8_t slices[BINTURAMIS_SLICES])
{
    put(BINTURAMIS_R0, BINTURAMIS_OCT);
    for (unsigned slice = 0; slice < BINTURAMIS_SLICES; slice++) {
        point(4 * slice + character % 4, character / 4, block);
        put(BINTURAMIS_R1 + BINTURAMIS_EXECUTE, slices[slice]);
    }
}

/* Cells side by side, all with the same B and A, by KRF with increment. */
static void put_cells(unsigned x, unsigned y, const uint8_t *characters, size_t count, uint8_t b, uint8_t a)
{
    point(x, y, 0);
    put(BINTURAMIS_R2, b);
    put(BINTURAMIS_R3, a);
    put(BINTURAMIS_R0, BINTURAMIS_KRF + BINTURAMIS_INCREMENT);
    for (size_t i = 0; i < count; i++)
        put(BINTURAMIS_R1 + BINTURAMIS_EXECUTE, characters[i]);
}

static void push_row(unsigned row)
{
    memcpy(screen + BINTURAMIS_ROW_BYTES * row, picture + BINTURAMIS_ROW_BYTES * row, BINTURAMIS_ROW_BYTES);
}

/* Draws, and pushes the redrawn rows: those that were marked before the draw. */
static uint32_t show(void)
{
    uint8_t state[BINTURAMIS_STATE_BYTES];
    binturamis_state(&processor, state);
    uint32_t answer = binturamis_draw(&processor, memory, sizeof memory, rom, sizeof rom, picture, sizeof picture);
    expect("draw", answer);
    for (unsigned row = 0; row < BINTURAMIS_ROWS; row++)
        if (state[BINTURAMIS_STATE_MARKS + row])
            push_row(row);
    return answer;
}

/* The first columns of a row of the screen, a letter for each pixel. */
static void print_row(unsigned row, unsigned columns)
{
    const char letters[] = ".rgybmcW";
    for (unsigned line = 0; line < BINTURAMIS_ROW_LINES; line++) {
        const uint8_t *bytes = screen + BINTURAMIS_ROW_BYTES * row + BINTURAMIS_LINE_BYTES * line;
        for (unsigned byte = 0; byte < 4 * columns; byte++)
            printf("%c%c", letters[bytes[byte] % 8], letters[bytes[byte] / 16 % 8]);
        printf("\n");
    }
}

/* The input of the program `panel`, pairs of an address and a value, and the two lines that it prints. */
static void example_of_the_rules(void)
{
    static const uint8_t writes[][2] = {
        {0x21, 0x08}, {0x28, 0x87}, {0x21, 0x03}, {0x28, 0x84}, {0x26, 0x00}, {0x27, 0xC0}, {0x20, 0x30},
        {0x29, 0x52}, {0x20, 0x00}, {0x26, 0x08}, {0x27, 0x00}, {0x22, 0x80}, {0x23, 0x70}, {0x29, 0x00},
    };
    uint32_t last = 0;
    for (size_t i = 0; i < sizeof writes / sizeof writes[0]; i++)
        last = binturamis_write(&processor, memory, sizeof memory, writes[i][0], writes[i][1]);
    uint32_t drawn = show();
    printf("%u %u %u\n", (unsigned)binturamis_number(last), (unsigned)binturamis_number(drawn), (unsigned)binturamis_value(drawn));
    for (unsigned byte = 0; byte < 8; byte++)
        printf("%02X%c", screen[10 * BINTURAMIS_LINE_BYTES + byte], byte < 7 ? ' ' : '\n');
}

/* A drop and a level, side by side in row 3: white on blue, and flashing. The characters are 4B and 4C hex of the user set G'0. */
static void page_of_its_own(void)
{
    static const uint8_t drop[BINTURAMIS_SLICES] = {0x10, 0x10, 0x38, 0x38, 0x7C, 0x7C, 0xFE, 0xFE, 0x7C, 0x38};
    static const uint8_t level[BINTURAMIS_SLICES] = {0x81, 0x81, 0x81, 0xFF, 0xFF, 0xFF, 0xFF, 0xFF, 0xFF, 0x7E};
    static const uint8_t both[] = {0x4B, 0x4C};
    const uint8_t a = BINTURAMIS_WHITE << 4 | 0x08 | BINTURAMIS_BLUE;

    put_indirect(BINTURAMIS_PAT, 0x40); /* cells may flash */
    put_indirect(BINTURAMIS_DOR, 0x03); /* G'0 is in block 3 */
    put_indirect(BINTURAMIS_ROR, 0x08); /* the page begins at Y 8, in block 0 */
    put_character(3, 0x4B, drop);
    put_character(3, 0x4C, level);
    printf("rows redrawn after the registers: %u\n", (unsigned)binturamis_value(show()));

    put_cells(0, 10, both, sizeof both, 0x80, a);
    printf("after two cells: %u\n", (unsigned)binturamis_value(show()));
    print_row(3, 2);

    expect("turn", binturamis_turn(&processor, memory, sizeof memory, 1));
    printf("after the phase: %u\n", (unsigned)binturamis_value(show()));
    print_row(3, 2);
    printf("with nothing changed: %u\n", (unsigned)binturamis_value(show()));
}

/* A refused read: command 05 is not listed, and the value of R7 is handed back all the same. */
static void refused_read(void)
{
    put(BINTURAMIS_R0, 0x05);
    uint32_t answer = binturamis_read(&processor, memory, sizeof memory, BINTURAMIS_R7 + BINTURAMIS_EXECUTE);
    printf("refusal %u, value %u\n", (unsigned)binturamis_number(answer), (unsigned)binturamis_value(answer));
}

int main(void)
{
    binturamis_power_up(&processor);
    example_of_the_rules();
    page_of_its_own();
    refused_read();
    return memcmp(screen, picture, sizeof screen) != 0;
}
