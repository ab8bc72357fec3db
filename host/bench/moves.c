/* Moves on a panel of 40 columns, each by calls of the C interface. */
#include "moves.h"

/*
 * Z3 of the main pointer and of the auxiliary one, both in R6. The rows aside are those of the page with the other Z3, so that they are in
 * another district and have the same R7.
 */
#define MAIN_Z3 0x80u
#define AUXILIARY_Z3 0x40u

/* The bits of a pointer's first register that are Y and Z2, which either pointer has alike. */
#define Y_AND_Z2 0x3Fu

static uint32_t written(struct panel *panel, uint8_t address, uint8_t value)
{
    return binturamis_write(&panel->processor, panel->memory, sizeof panel->memory, address, value);
}

static uint32_t stepped(struct panel *panel, unsigned times)
{
    uint32_t answers = 0;
    for (unsigned time = 0; time < times; time++)
        answers |= binturamis_step(&panel->processor, panel->memory, sizeof panel->memory);
    return answers;
}

static uint8_t main_aside(const struct panel *panel, unsigned row)
{
    return panel->rows[row].r6 ^ MAIN_Z3;
}

/* Z3 of the auxiliary pointer, as R6 has it, where that one is on the page. */
static uint8_t auxiliary_on_page(const struct panel *panel)
{
    return (panel->rows[0].r6 & MAIN_Z3) != 0 ? AUXILIARY_Z3 : 0;
}

uint8_t dor_on_page(const struct panel *panel)
{
    return (panel->rows[0].r6 & MAIN_Z3) != 0 ? 0xFFu : 0x00u;
}

void put_row_aside(struct panel *panel, unsigned row, struct cell cells[BINTURAMIS_COLUMNS])
{
    put(panel, BINTURAMIS_R6, main_aside(panel, row));
    put(panel, BINTURAMIS_R7, panel->rows[row].r7);
    put(panel, BINTURAMIS_R0, BINTURAMIS_KRF + BINTURAMIS_INCREMENT);
    for (unsigned column = 0; column < BINTURAMIS_COLUMNS; column++) {
        put(panel, BINTURAMIS_R2, cells[column].b);
        put(panel, BINTURAMIS_R3, cells[column].a);
        put(panel, BINTURAMIS_R1 + BINTURAMIS_EXECUTE, cells[column].c);
    }
}

/* The auxiliary pointer, aside, is the source; R6 has all that the main one, the destination, needs. */
static void begin(struct panel *panel, uint8_t command, unsigned from, uint8_t r6, unsigned column)
{
    const uint8_t across = (uint8_t)(panel->rows[from].r7 + column);
    put(panel, BINTURAMIS_R4, panel->rows[from].r6 & Y_AND_Z2);
    put(panel, BINTURAMIS_R5, across);
    put(panel, BINTURAMIS_R6, r6 | (auxiliary_on_page(panel) ^ AUXILIARY_Z3));
    put(panel, BINTURAMIS_R7, across);
    put(panel, BINTURAMIS_R0 + BINTURAMIS_EXECUTE, (uint8_t)(command + BINTURAMIS_FROM_AUXILIARY + BINTURAMIS_NO_STOP));
}

void begin_to_page(struct panel *panel, uint8_t command, unsigned from, unsigned to, unsigned column)
{
    begin(panel, command, from, panel->rows[to].r6, column);
}

void begin_aside(struct panel *panel, uint8_t command, unsigned from, unsigned to, unsigned column)
{
    begin(panel, command, from, main_aside(panel, to), column);
}

void step(struct panel *panel, unsigned times)
{
    expect_accepted("a step", stepped(panel, times));
}

/* From the main pointer, by what R6 has of it, to a row of the page. A move that had not ended would have the next write refused. */
static uint32_t copied(struct panel *panel, uint8_t r6, unsigned to)
{
    uint32_t answers = written(panel, BINTURAMIS_R4, panel->rows[to].r6 & Y_AND_Z2);
    answers |= written(panel, BINTURAMIS_R6 + BINTURAMIS_EXECUTE, r6 | auxiliary_on_page(panel));
    answers |= stepped(panel, BINTURAMIS_COLUMNS);
    return answers;
}

void scroll(struct panel *panel, unsigned aside)
{
    const unsigned last = BINTURAMIS_ROWS - 1;
    uint32_t answers = written(panel, BINTURAMIS_R0, BINTURAMIS_MVT + BINTURAMIS_FROM_MAIN + BINTURAMIS_STOP);
    answers |= written(panel, BINTURAMIS_R5, panel->rows[last].r7);
    answers |= written(panel, BINTURAMIS_R7, panel->rows[last].r7);
    for (unsigned row = 1; row < last; row++)
        answers |= copied(panel, panel->rows[row + 1].r6, row);
    answers |= copied(panel, main_aside(panel, aside), last);
    expect_accepted("a scroll", answers);
}

void draw_some(struct panel *panel, unsigned rows)
{
    uint32_t answer = binturamis_draw(&panel->processor, panel->memory, sizeof panel->memory, panel->rom, sizeof panel->rom,
                                      panel->picture, sizeof panel->picture);
    expect_accepted("a draw", answer);
    if (binturamis_value(answer) < rows)
        fail("fewer rows were redrawn than were moved");
}
