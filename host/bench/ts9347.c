/* The operations of a panel with the TS9347, each by the same calls of the C interface as those of a panel. */
#include "ts9347.h"

static uint32_t written(struct panel *panel, uint8_t address, uint8_t value)
{
    struct ts9347 *ts9347 = ts9347_of(panel);
    return binturamis_write(&panel->processor, ts9347->memory, sizeof ts9347->memory, address, value);
}

static void put_accepted(struct panel *panel, uint8_t address, uint8_t value)
{
    expect_accepted("a write", written(panel, address, value));
}

void put_ts9347_indirect(struct panel *panel, uint8_t r, uint8_t value)
{
    put_accepted(panel, BINTURAMIS_R1, value);
    put_accepted(panel, BINTURAMIS_R0 + BINTURAMIS_EXECUTE, (uint8_t)(BINTURAMIS_IND + r));
}

/* The registers of a cell, by writes that do not execute. Inline, so that the count is of these calls alone. */
static inline uint32_t cell_written(struct panel *panel, unsigned row, unsigned column, struct cell cell)
{
    uint32_t answers = written(panel, BINTURAMIS_R1, cell.c);
    answers |= written(panel, BINTURAMIS_R2, cell.b);
    answers |= written(panel, BINTURAMIS_R3, cell.a);
    answers |= written(panel, BINTURAMIS_R6, panel->rows[row].r6);
    answers |= written(panel, BINTURAMIS_R7, (uint8_t)(panel->rows[row].r7 + column));
    return answers;
}

/* As with a cell of the other part the answers are asked all at once. */
void put_ts9347_cell(struct panel *panel, unsigned row, unsigned column, struct cell cell)
{
    uint32_t answers = cell_written(panel, row, column, cell);
    answers |= written(panel, BINTURAMIS_R0 + BINTURAMIS_EXECUTE, BINTURAMIS_KRF);
    expect_accepted("a write of a cell", answers);
}

void put_ts9347_registers(struct panel *panel, unsigned row, unsigned column, struct cell cell, unsigned times)
{
    uint32_t answers = 0;
    for (unsigned time = 0; time < times; time++)
        answers |= cell_written(panel, row, column, cell);
    expect_accepted("a write of a register", answers);
}

static uint32_t next_cell(struct panel *panel, struct cell cell)
{
    uint32_t answers = written(panel, BINTURAMIS_R2, cell.b);
    answers |= written(panel, BINTURAMIS_R3, cell.a);
    answers |= written(panel, BINTURAMIS_R1 + BINTURAMIS_EXECUTE, cell.c);
    return answers;
}

void put_ts9347_page(struct panel *panel, struct cell page[BINTURAMIS_ROWS][BINTURAMIS_COLUMNS])
{
    uint32_t answers = written(panel, BINTURAMIS_R0, BINTURAMIS_KRF + BINTURAMIS_INCREMENT);
    for (unsigned row = 0; row < BINTURAMIS_ROWS; row++) {
        answers |= written(panel, BINTURAMIS_R6, panel->rows[row].r6);
        answers |= written(panel, BINTURAMIS_R7, panel->rows[row].r7);
        for (unsigned column = 0; column < BINTURAMIS_COLUMNS; column++)
            answers |= next_cell(panel, page[row][column]);
    }
    expect_accepted("a write of a page", answers);
}

void begin_ts9347_printing(struct panel *panel, unsigned row, unsigned column, struct cell cell)
{
    put_ts9347_registers(panel, row, column, cell, 1);
    put_accepted(panel, BINTURAMIS_R0, BINTURAMIS_KRF + BINTURAMIS_INCREMENT);
}

void print_ts9347(struct panel *panel, uint8_t c)
{
    put_accepted(panel, BINTURAMIS_R1 + BINTURAMIS_EXECUTE, c);
}

void turn_ts9347(struct panel *panel, uint8_t phase)
{
    struct ts9347 *ts9347 = ts9347_of(panel);
    expect_accepted("a phase change", binturamis_turn(&panel->processor, ts9347->memory, sizeof ts9347->memory, phase));
}

void draw_ts9347(struct panel *panel, unsigned rows)
{
    struct ts9347 *ts9347 = ts9347_of(panel);
    expect_rows(binturamis_draw(&panel->processor, ts9347->memory, sizeof ts9347->memory, ts9347->rom, sizeof ts9347->rom, panel->picture,
                                sizeof panel->picture),
                rows);
}
