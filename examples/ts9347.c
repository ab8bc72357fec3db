/*
 * A panel with the TS9347 in C: its part and its 32 blocks named at power-up, a ROM in the order of its three sets, a page in the upper half of
 * the memory, and a character of its own in the user set Q0, in double height.
 *
 * After `make library`, on x86-64:
 *
 *     gcc -std=c11 -Itarget/library examples/ts9347.c target/library/libbinturamis.a -o ts9347
 *
 * What it prints is in ts9347.expected.
 */
#include <stdio.h>
#include <stdlib.h>
#include <string.h>

#include "binturamis.h"

/* The sets of its ROM, in their order. */
enum set { G10, GOE, G0 };

/* Where things are: DOR bit 7 puts the page into the upper 16 blocks and Q0 to Q7 into blocks 8 to 15. */
#define PAGE 16u
#define Q0 8u
#define UPPER 0x80u

/* What B says: a character of G0; of Q0 and in double height. */
#define B_G0 0x00u
#define B_TALL_Q0 (0xC0u | 0x02u)

static binturamis_processor processor;
static uint8_t memory[BINTURAMIS_TS9347_MEMORY_BYTES];
static uint8_t rom[BINTURAMIS_TS9347_ROM_BYTES];
static uint8_t picture[BINTURAMIS_PICTURE_BYTES];

static const uint8_t letter[BINTURAMIS_SLICES] = {0x00, 0x1E, 0x33, 0x33, 0x3F, 0x33, 0x33, 0x33, 0x00, 0x00};
static const uint8_t tank[BINTURAMIS_SLICES] = {0x81, 0x81, 0x81, 0x81, 0x81, 0xFF, 0xFF, 0xFF, 0xFF, 0x7E};

/* A number that this program does not expect ends it. */
static void expect(const char *what, uint32_t answer)
{
    if (binturamis_number(answer) != BINTURAMIS_ACCEPTED) {
        fprintf(stderr, "%s: refusal %u\n", what, (unsigned)binturamis_number(answer));
        exit(1);
    }
}

static void put(uint8_t address, uint8_t value)
{
    expect("write", binturamis_write(&processor, memory, sizeof memory, address, value));
}

/* IND: the value goes to an indirect register by way of R1. */
static void put_indirect(uint8_t r, uint8_t value)
{
    put(BINTURAMIS_R1, value);
    put(BINTURAMIS_R0 + BINTURAMIS_EXECUTE, (uint8_t)(BINTURAMIS_IND + r));
}

/* The main pointer to X, Y and block Z: R6 has Z4, Z3, Z2 and Y, R7 has Z0, Z1 and X. */
static void point(unsigned x, unsigned y, unsigned z)
{
    put(BINTURAMIS_R6, (uint8_t)(z >> 2 << 5 | y));
    put(BINTURAMIS_R7, (uint8_t)((z & 1) << 7 | (z >> 1 & 1) << 6 | x));
}

/* The ten slices of a user character, by OCT. */
static void put_character(unsigned block, unsigned character, const uint8_t slices[BINTURAMIS_SLICES])
{
    put(BINTURAMIS_R0, BINTURAMIS_OCT);
    for (unsigned slice = 0; slice < BINTURAMIS_SLICES; slice++) {
        point(4 * slice + character % 4, character / 4, block);
        put(BINTURAMIS_R1 + BINTURAMIS_EXECUTE, slices[slice]);
    }
}

static void put_cell(unsigned x, unsigned y, uint8_t c, uint8_t b, uint8_t a)
{
    point(x, y, PAGE);
    put(BINTURAMIS_R2, b);
    put(BINTURAMIS_R3, a);
    put(BINTURAMIS_R0, BINTURAMIS_KRF);
    put(BINTURAMIS_R1 + BINTURAMIS_EXECUTE, c);
}

static void draw(const char *after)
{
    uint32_t answer = binturamis_draw(&processor, memory, sizeof memory, rom, sizeof rom, picture, sizeof picture);
    expect("draw", answer);
    printf("rows redrawn after %s: %u\n", after, (unsigned)binturamis_value(answer));
}

/* The first columns of a row, a letter for each pixel. */
static void print_row(unsigned row, unsigned columns)
{
    const char letters[] = ".rgybmcW";
    for (unsigned line = 0; line < BINTURAMIS_ROW_LINES; line++) {
        const uint8_t *bytes = picture + BINTURAMIS_ROW_BYTES * row + BINTURAMIS_LINE_BYTES * line;
        for (unsigned byte = 0; byte < 4 * columns; byte++)
            printf("%c%c", letters[bytes[byte] % 8], letters[bytes[byte] / 16 % 8]);
        printf("\n");
    }
}

int main(void)
{
    expect("power-up", binturamis_power_up_board(&processor, BINTURAMIS_TS9347, BINTURAMIS_BOARD_32));
    memcpy(rom + BINTURAMIS_SET_BYTES * G0 + BINTURAMIS_SLICES * 0x41, letter, sizeof letter);
    put_indirect(BINTURAMIS_DOR, UPPER);
    put_indirect(BINTURAMIS_ROR, 0x08); /* the page begins at Y 8 */
    put_character(Q0, 0x20, tank);
    draw("the registers");

    /* Rows 1 and 2: the letter in the first, and the tank in both, so that it is one of twenty lines. */
    put_cell(0, 8, 0x41, B_G0, BINTURAMIS_WHITE << 4);
    put_cell(1, 8, 0x20, B_TALL_Q0, BINTURAMIS_CYAN << 4 | BINTURAMIS_BLUE);
    put_cell(1, 9, 0x20, B_TALL_Q0, BINTURAMIS_CYAN << 4 | BINTURAMIS_BLUE);
    draw("three cells");
    print_row(1, 2);
    print_row(2, 2);

    /* The part has no page of 80 columns, and no KRL. */
    put_indirect(BINTURAMIS_TGS, BINTURAMIS_TGS_80);
    uint32_t drawn = binturamis_draw(&processor, memory, sizeof memory, rom, sizeof rom, picture, sizeof picture);
    uint32_t executed = binturamis_write(&processor, memory, sizeof memory, BINTURAMIS_R0 + BINTURAMIS_EXECUTE, BINTURAMIS_KRL);
    printf("refusals %u and %u\n", (unsigned)binturamis_number(drawn), (unsigned)binturamis_number(executed));
    return 0;
}
