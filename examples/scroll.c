/*
 * A recipe page that scrolls: its list goes up by one row, each row copied to the one above it by MVT, and the next recipe comes in below.
 * A move runs one position a step, and a host calls binturamis_step until the status says that it has ended.
 *
 * After `make library`, on x86-64:
 *
 *     gcc -std=c11 -Itarget/library examples/scroll.c target/library/libbinturamis.a -o scroll
 *
 * What it prints is in scroll.expected.
 */
#include <stdio.h>
#include <stdlib.h>
#include <string.h>

#include "binturamis.h"

/* The rows of the list. The page has its origin at Y 8, so row r of the screen is at Y r + 7. */
#define FIRST 3u
#define LAST 6u
#define Y_OF(row) ((uint8_t)((row) + 7u))

static binturamis_processor processor;
static uint8_t memory[BINTURAMIS_MEMORY_BYTES];
static uint8_t rom[BINTURAMIS_ROM_BYTES];
static uint8_t picture[BINTURAMIS_PICTURE_BYTES];
static uint8_t before[BINTURAMIS_PICTURE_BYTES]; /* the picture before the scroll */

static const char *const recipes[] = {
    "1  Winter wheat   200 ml/100 kg", "2  Spring wheat   150 ml/100 kg", "3  Winter barley  225 ml/100 kg",
    "4  Spring barley  200 ml/100 kg", "5  Rye            175 ml/100 kg",
};

/* A number that this program does not expect ends it. */
static void expect(const char *what, uint32_t answer)
{
    if (binturamis_number(answer) != BINTURAMIS_ACCEPTED) {
        fprintf(stderr, "%s: refusal %u\n", what, (unsigned)binturamis_number(answer));
        exit(1);
    }
}

static void put(uint8_t address, uint8_t value)
{
    expect("write", binturamis_write(&processor, memory, sizeof memory, address, value));
}

static uint8_t get(uint8_t address)
{
    uint32_t answer = binturamis_read(&processor, memory, sizeof memory, address);
    expect("read", answer);
    return (uint8_t)binturamis_value(answer);
}

/* IND: the value goes to an indirect register by way of R1. */
static void put_indirect(uint8_t r, uint8_t value)
{
    put(BINTURAMIS_R1, value);
    put(BINTURAMIS_R0 + BINTURAMIS_EXECUTE, (uint8_t)(BINTURAMIS_IND + r));
}

/* The main pointer to the beginning of a row, in block 0, and KRF with increment. */
static void begin_row(unsigned row, uint8_t form)
{
    put(BINTURAMIS_R6, Y_OF(row));
    put(BINTURAMIS_R7, 0);
    put(BINTURAMIS_R0, (uint8_t)(BINTURAMIS_KRF + BINTURAMIS_INCREMENT + form));
}

/* A row of text, white on black, with spaces to its end. */
static void put_row(unsigned row, const char *text)
{
    begin_row(row, 0);
    put(BINTURAMIS_R2, 0);
    put(BINTURAMIS_R3, BINTURAMIS_WHITE << 4);
    for (unsigned column = 0; column < BINTURAMIS_COLUMNS; column++)
        put(BINTURAMIS_R1 + BINTURAMIS_EXECUTE, (uint8_t)(*text != '\0' ? *text++ : ' '));
}

/* The text of a row as the memory has it, up to its last letter. */
static void print_row(unsigned row)
{
    char text[BINTURAMIS_COLUMNS + 1];
    size_t length = 0;
    begin_row(row, BINTURAMIS_READ);
    for (unsigned column = 0; column < BINTURAMIS_COLUMNS; column++) {
        get(BINTURAMIS_R7 + BINTURAMIS_EXECUTE); /* the cell goes to R1, R2 and R3 */
        text[column] = (char)get(BINTURAMIS_R1);
        if (text[column] != ' ')
            length = column + 1;
    }
    text[length] = '\0';
    printf("  %s\n", text);
}

static void print_list(const char *when)
{
    printf("%s:\n", when);
    for (unsigned row = FIRST; row <= LAST; row++)
        print_row(row);
}

static void draw(const char *after)
{
    uint32_t answer = binturamis_draw(&processor, memory, sizeof memory, rom, sizeof rom, picture, sizeof picture);
    expect("draw", answer);
    printf("rows redrawn after %s: %u\n", after, (unsigned)binturamis_value(answer));
}

/* Steps until the move has ended. One with a stop ends within 40 steps, so more would be an error. */
static unsigned finish(void)
{
    unsigned steps = 0;
    while (get(BINTURAMIS_R0) & BINTURAMIS_STATUS_BUSY) {
        if (steps == BINTURAMIS_COLUMNS) {
            fprintf(stderr, "a move with a stop did not end\n");
            exit(1);
        }
        expect("step", binturamis_step(&processor, memory, sizeof memory));
        steps++;
    }
    return steps;
}

/*
 * Each row of the list to the one above it, from the top. The main pointer is the source and the auxiliary one the destination. Both begin
 * at X 0 and are there again when their row has ended, so only the two Y are written for each row, the second with execution.
 */
static unsigned scroll_up(void)
{
    unsigned steps = 0;
    put(BINTURAMIS_R5, 0);
    put(BINTURAMIS_R7, 0);
    put(BINTURAMIS_R0, BINTURAMIS_MVT + BINTURAMIS_FROM_MAIN + BINTURAMIS_STOP);
    for (unsigned row = FIRST; row < LAST; row++) {
        put(BINTURAMIS_R4, Y_OF(row));
        put(BINTURAMIS_R6 + BINTURAMIS_EXECUTE, Y_OF(row + 1));
        steps += finish();
    }
    return steps;
}

static int has_moved_up(unsigned row)
{
    const uint8_t *now = picture + BINTURAMIS_ROW_BYTES * row;
    return memcmp(now, before + BINTURAMIS_ROW_BYTES * (row + 1), BINTURAMIS_ROW_BYTES) == 0;
}

/* While a move runs, an access is refused, and a NOP ends it. */
static void end_a_move(void)
{
    put(BINTURAMIS_R0 + BINTURAMIS_EXECUTE, BINTURAMIS_MVT + BINTURAMIS_FROM_MAIN + BINTURAMIS_NO_STOP);
    uint32_t refused = binturamis_write(&processor, memory, sizeof memory, BINTURAMIS_R4, 0);
    printf("status %02X, refusal %u", (unsigned)get(BINTURAMIS_R0), (unsigned)binturamis_number(refused));
    put(BINTURAMIS_R0 + BINTURAMIS_EXECUTE, BINTURAMIS_NOP);
    printf(", status %02X\n", (unsigned)get(BINTURAMIS_R0));
}

int main(void)
{
    for (size_t i = 0; i < sizeof rom; i++)
        rom[i] = (uint8_t)(7 * i % 251); /* a board has its characters here */
    binturamis_power_up(&processor);
    put_indirect(BINTURAMIS_ROR, Y_OF(1));
    for (unsigned row = FIRST; row <= LAST; row++)
        put_row(row, recipes[row - FIRST]);
    draw("the first four recipes");
    print_list("before");
    memcpy(before, picture, sizeof picture);

    unsigned steps = scroll_up();
    put_row(LAST, recipes[LAST - FIRST + 1]);
    draw("the scroll");
    print_list("after");
    printf("%u steps\n", steps);
    for (unsigned row = FIRST; row < LAST; row++)
        if (!has_moved_up(row))
            return 1;
    end_a_move();
    return 0;
}
