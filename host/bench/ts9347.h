/*
 * A panel with the TS9347: a panel with a longer memory and a ROM of its own, and the operations that its controller asks for. What a panel
 * says of its processor, its picture, its pages and the cell that is changed alone is said here of this part.
 */
#ifndef TS9347_H
#define TS9347_H

#include "panel.h"

/* All of it is bytes again. The panel stands first, so that one that is known to have this part leads to all of it. */
struct ts9347 {
    struct panel panel;
    uint8_t memory[BINTURAMIS_TS9347_MEMORY_BYTES];
    uint8_t rom[BINTURAMIS_TS9347_ROM_BYTES];
};

static inline struct ts9347 *ts9347_of(struct panel *panel)
{
    return (struct ts9347 *)panel;
}

/* IND: the value goes to an indirect register by way of R1. */
void put_ts9347_indirect(struct panel *panel, uint8_t r, uint8_t value);

/* KRF, by six writes of which the last executes. */
void put_ts9347_cell(struct panel *panel, unsigned row, unsigned column, struct cell cell);

/* Its five writes that do not execute, so many times over. */
void put_ts9347_registers(struct panel *panel, unsigned row, unsigned column, struct cell cell, unsigned times);

/* KRF with increment, row after row: all cells of the screen. */
void put_ts9347_page(struct panel *panel, struct cell page[BINTURAMIS_ROWS][BINTURAMIS_COLUMNS]);

/* Readies KRF with increment at a cell, whose B and A are written. */
void begin_ts9347_printing(struct panel *panel, unsigned row, unsigned column, struct cell cell);

/* C, by one write, which executes. */
void print_ts9347(struct panel *panel, uint8_t c);

void turn_ts9347(struct panel *panel, uint8_t phase);

/* Draws, and fails unless so many rows were redrawn. */
void draw_ts9347(struct panel *panel, unsigned rows);

#endif
