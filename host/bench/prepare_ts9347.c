/* Panels with the TS9347, each made of the bytes of a panel with the EF9345, so that it takes no random byte more than that one. */
#include <string.h>

#include "prepare_ts9347.h"

/* DOR bit 7 is Z4 of the page's first block, and ROR has Z3, Z2 and Z1 in bits 7, 6 and 5. Both pointers have Z4, Z3 and Z2 above Y. */
static struct pointer row_pointer(uint8_t dor, uint8_t ror, unsigned row)
{
    unsigned z = (dor >> 7 & 1u) << 4 | (ror >> 5 & 7u) << 1;
    struct pointer pointer = {
        .r6 = (uint8_t)((z >> 2) << 5 | row_y(ror, row)),
        .r7 = (uint8_t)((z >> 1 & 1) << 6),
    };
    return pointer;
}

/* The memory is the panel's, and then as much of its picture, of which nothing is drawn yet. All three are random bytes. */
static void take_bytes(struct panel *panel)
{
    struct ts9347 *ts9347 = ts9347_of(panel);
    memcpy(ts9347->memory, panel->memory, sizeof panel->memory);
    memcpy(ts9347->memory + sizeof panel->memory, panel->picture, sizeof ts9347->memory - sizeof panel->memory);
    memcpy(ts9347->rom, panel->rom, sizeof ts9347->rom);
}

/* The registers and the phase that the panel has with the other part. */
static void take_registers(struct panel *panel)
{
    uint8_t told[BINTURAMIS_STATE_BYTES];
    binturamis_state(&panel->processor, told);
    uint8_t dor = told[BINTURAMIS_STATE_DOR];
    uint8_t ror = told[BINTURAMIS_STATE_ROR];
    expect_accepted("a power-up", binturamis_power_up_board(&panel->processor, BINTURAMIS_TS9347, BINTURAMIS_BOARD_32));
    put_ts9347_indirect(panel, BINTURAMIS_PAT, told[BINTURAMIS_STATE_PAT]);
    put_ts9347_indirect(panel, BINTURAMIS_DOR, dor);
    put_ts9347_indirect(panel, BINTURAMIS_ROR, ror);
    turn_ts9347(panel, panel->phase);
    for (unsigned row = 0; row < BINTURAMIS_ROWS; row++)
        panel->rows[row] = row_pointer(dor, ror, row);
}

void prepare_ts9347_marked(struct panel *panel, page_kind *kind, unsigned row)
{
    prepare_marked(panel, kind, row);
    take_bytes(panel);
    take_registers(panel);
    put_ts9347_page(panel, panel->pages[1]);
    panel->before = panel->processor;
}

void prepare_ts9347_drawn(struct panel *panel, page_kind *kind, unsigned row)
{
    prepare_ts9347_marked(panel, kind, row);
    draw_ts9347(panel, BINTURAMIS_ROWS);
    panel->before = panel->processor;
}

void prepare_ts9347_changed(struct panel *panel, page_kind *kind, unsigned row)
{
    prepare_ts9347_drawn(panel, kind, row);
    put_ts9347_cell(panel, row, panel->column, panel->pages[0][row][panel->column]);
    panel->before = panel->processor;
    marked_rows(panel);
}

void prepare_ts9347_printing(struct panel *panel, page_kind *kind, unsigned row)
{
    prepare_ts9347_drawn(panel, kind, row);
    begin_ts9347_printing(panel, row, panel->column, panel->pages[1][row][panel->column]);
    panel->before = panel->processor;
}
