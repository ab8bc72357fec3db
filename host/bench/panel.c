/* The operations of a panel in 40 columns, each by calls of the C interface. */
#include <stdio.h>
#include <stdlib.h>

#include "panel.h"

_Noreturn void fail(const char *what)
{
    fprintf(stderr, "bench: %s\n", what);
    exit(1);
}

void expect_accepted(const char *what, uint32_t answer)
{
    if (binturamis_number(answer) != BINTURAMIS_ACCEPTED) {
        fprintf(stderr, "bench: %s got refusal %u\n", what, (unsigned)binturamis_number(answer));
        exit(1);
    }
}

void expect_rows(uint32_t answer, unsigned rows)
{
    expect_accepted("a draw", answer);
    if (binturamis_value(answer) != rows) {
        fprintf(stderr, "bench: %u rows were redrawn where %u were marked\n", (unsigned)binturamis_value(answer), rows);
        exit(1);
    }
}

static uint32_t written(struct panel *panel, uint8_t address, uint8_t value)
{
    return binturamis_write(&panel->processor, panel->memory, sizeof panel->memory, address, value);
}

void put(struct panel *panel, uint8_t address, uint8_t value)
{
    expect_accepted("a write", written(panel, address, value));
}

static uint8_t get(struct panel *panel, uint8_t address)
{
    uint32_t answer = binturamis_read(&panel->processor, panel->memory, sizeof panel->memory, address);
    expect_accepted("a read", answer);
    return (uint8_t)binturamis_value(answer); /* a register is a byte */
}

void put_indirect(struct panel *panel, uint8_t r, uint8_t value)
{
    put(panel, BINTURAMIS_R1, value);
    put(panel, BINTURAMIS_R0 + BINTURAMIS_EXECUTE, BINTURAMIS_IND + r);
}

/* The registers of a cell, by writes that do not execute. Inline, so that the count is of these calls alone. */
static inline uint32_t cell_written(struct panel *panel, unsigned row, unsigned column, struct cell cell)
{
    uint32_t answers = written(panel, BINTURAMIS_R1, cell.c);
    answers |= written(panel, BINTURAMIS_R2, cell.b);
    answers |= written(panel, BINTURAMIS_R3, cell.a);
    answers |= written(panel, BINTURAMIS_R6, panel->rows[row].r6);
    answers |= written(panel, BINTURAMIS_R7, (uint8_t)(panel->rows[row].r7 + column));
    return answers;
}

/*
 * The answers are asked all at once, so that the count is of the calls. The value of an accepted write is 0, and of these writes only those that
 * execute can be refused, all by the same number: so all answers joined are that of the refused ones.
 */
void put_cell(struct panel *panel, unsigned row, unsigned column, struct cell cell)
{
    uint32_t answers = cell_written(panel, row, column, cell);
    answers |= written(panel, BINTURAMIS_R0 + BINTURAMIS_EXECUTE, BINTURAMIS_KRF);
    expect_accepted("a write of a cell", answers);
}

void put_registers(struct panel *panel, unsigned row, unsigned column, struct cell cell, unsigned times)
{
    uint32_t answers = 0;
    for (unsigned time = 0; time < times; time++)
        answers |= cell_written(panel, row, column, cell);
    expect_accepted("a write of a register", answers);
}

struct cell get_cell(struct panel *panel, unsigned row, unsigned column)
{
    struct cell cell;
    put(panel, BINTURAMIS_R6, panel->rows[row].r6);
    put(panel, BINTURAMIS_R7, (uint8_t)(panel->rows[row].r7 + column));
    put(panel, BINTURAMIS_R0 + BINTURAMIS_EXECUTE, BINTURAMIS_KRF + BINTURAMIS_READ);
    cell.c = get(panel, BINTURAMIS_R1);
    cell.b = get(panel, BINTURAMIS_R2);
    cell.a = get(panel, BINTURAMIS_R3);
    return cell;
}

static uint32_t next_cell(struct panel *panel, struct cell cell)
{
    uint32_t answers = written(panel, BINTURAMIS_R2, cell.b);
    answers |= written(panel, BINTURAMIS_R3, cell.a);
    answers |= written(panel, BINTURAMIS_R1 + BINTURAMIS_EXECUTE, cell.c);
    return answers;
}

void put_page(struct panel *panel, struct cell page[BINTURAMIS_ROWS][BINTURAMIS_COLUMNS])
{
    uint32_t answers = written(panel, BINTURAMIS_R0, BINTURAMIS_KRF + BINTURAMIS_INCREMENT);
    for (unsigned row = 0; row < BINTURAMIS_ROWS; row++) {
        answers |= written(panel, BINTURAMIS_R6, panel->rows[row].r6);
        answers |= written(panel, BINTURAMIS_R7, panel->rows[row].r7);
        for (unsigned column = 0; column < BINTURAMIS_COLUMNS; column++)
            answers |= next_cell(panel, page[row][column]);
    }
    expect_accepted("a write of a page", answers);
}

void begin_printing(struct panel *panel, unsigned row, unsigned column, struct cell cell)
{
    put_registers(panel, row, column, cell, 1);
    put(panel, BINTURAMIS_R0, BINTURAMIS_KRF + BINTURAMIS_INCREMENT);
}

void print(struct panel *panel, uint8_t c)
{
    put(panel, BINTURAMIS_R1 + BINTURAMIS_EXECUTE, c);
}

void turn(struct panel *panel, uint8_t phase)
{
    expect_accepted("a phase change", binturamis_turn(&panel->processor, panel->memory, sizeof panel->memory, phase));
}

void draw(struct panel *panel, unsigned rows)
{
    uint32_t answer = binturamis_draw(&panel->processor, panel->memory, sizeof panel->memory, panel->rom, sizeof panel->rom,
                                      panel->picture, sizeof panel->picture);
    expect_rows(answer, rows);
}
