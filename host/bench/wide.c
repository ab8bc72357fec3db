/* The operations of a panel in 80 columns, each by calls of the C interface. */
#include "wide.h"

/* Z0 of the main pointer: the right one of the two cells of a column. */
#define RIGHT 0x80u

static uint32_t written(struct panel *panel, uint8_t address, uint8_t value)
{
    return binturamis_write(&panel->processor, panel->memory, sizeof panel->memory, address, value);
}

static uint8_t get(struct panel *panel, uint8_t address)
{
    uint32_t answer = binturamis_read(&panel->processor, panel->memory, sizeof panel->memory, address);
    expect_accepted("a read", answer);
    return (uint8_t)binturamis_value(answer); /* a register is a byte */
}

static uint32_t pointed(struct panel *panel, unsigned row, unsigned position)
{
    uint32_t answers = written(panel, BINTURAMIS_R6, panel->rows[row].r6);
    answers |= written(panel, BINTURAMIS_R7, (uint8_t)(panel->rows[row].r7 + position / 2 + RIGHT * (position % 2)));
    return answers;
}

/* As with a cell of 40 columns the answers are asked all at once. */
void put_code(struct panel *panel, unsigned row, unsigned position, struct code code)
{
    uint32_t answers = written(panel, BINTURAMIS_R1, code.c);
    answers |= written(panel, BINTURAMIS_R3, code.attributes);
    answers |= pointed(panel, row, position);
    answers |= written(panel, BINTURAMIS_R0 + BINTURAMIS_EXECUTE, BINTURAMIS_KRL);
    expect_accepted("a write of a code", answers);
}

static uint32_t next_code(struct panel *panel, struct code code)
{
    uint32_t answers = written(panel, BINTURAMIS_R3, code.attributes);
    answers |= written(panel, BINTURAMIS_R1 + BINTURAMIS_EXECUTE, code.c);
    return answers;
}

void put_codes(struct panel *panel, struct code page[BINTURAMIS_ROWS][BINTURAMIS_80_COLUMNS])
{
    uint32_t answers = written(panel, BINTURAMIS_R0, BINTURAMIS_KRL + BINTURAMIS_INCREMENT);
    for (unsigned row = 0; row < BINTURAMIS_ROWS; row++) {
        answers |= pointed(panel, row, 0);
        for (unsigned position = 0; position < BINTURAMIS_80_COLUMNS; position++)
            answers |= next_code(panel, page[row][position]);
    }
    expect_accepted("a write of a page", answers);
}

struct code get_code(struct panel *panel, unsigned row, unsigned position)
{
    struct code code;
    expect_accepted("a write", pointed(panel, row, position));
    put(panel, BINTURAMIS_R0 + BINTURAMIS_EXECUTE, BINTURAMIS_KRL + BINTURAMIS_READ);
    code.c = get(panel, BINTURAMIS_R1);
    code.attributes = get(panel, BINTURAMIS_R3);
    return code;
}

void begin_printing_codes(struct panel *panel, unsigned row, unsigned position, struct code code)
{
    expect_accepted("a write", pointed(panel, row, position));
    put(panel, BINTURAMIS_R3, code.attributes);
    put(panel, BINTURAMIS_R0, BINTURAMIS_KRL + BINTURAMIS_INCREMENT);
}

void draw_wide(struct panel *panel, unsigned rows)
{
    struct wide *wide = wide_of(panel);
    expect_rows(binturamis_draw(&panel->processor, panel->memory, sizeof panel->memory, panel->rom, sizeof panel->rom, wide->picture,
                                sizeof wide->picture),
                rows);
}
