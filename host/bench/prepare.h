/*
 * How the panels are prepared that the scenarios of the benchmark begin with. The same panels are made in every run.
 *
 * A kind of page says what a panel's two pages hold: the second is what the memory has, the first one what is written over it. The panel has
 * its registers and random memory by then, and the place of the cell that is changed alone. That cell differs in its character at least.
 */
#ifndef PREPARE_H
#define PREPARE_H

#include "panel.h"

typedef void page_kind(struct panel *panel);

/* Random cells out of random memory, which differ from page to page in all three bytes. */
page_kind random_cells;

/* The same without a cell of double height, so that no row depends on the row above it. */
page_kind single_cells;

/* The same with quadrichrome cells alone. The palettes and the slices stay random, so palettes of every length are met. */
page_kind quadrichrome_cells;

/* The same with cells of the user sets alone, G'0 and both G'1s. */
page_kind user_cells;

/* One cell of double height and double width everywhere, on both pages: here no cell can be changed. */
page_kind double_cells;

/* Two pages of text. The cell that is changed alone differs in its colour too. */
page_kind text;

/* Another byte than this one. */
uint8_t other_byte(uint8_t byte);

/* The Y of a row of the screen, by the origin that ROR has. */
unsigned row_y(uint8_t ror, unsigned row);

/* Any PAT, DOR, ROR and phase that a page can be drawn with, and the pointers to its rows. */
void write_registers(struct panel *panel);

/* How many rows are marked, of which the row of the cell that was changed must be one. */
unsigned marked_rows(const struct panel *panel);

/* Each of these takes the row of the cell that is changed alone, and leaves the processor in `before` too. */
typedef void preparation(struct panel *panel, page_kind *kind, unsigned row);

/* A page of which every row is marked. */
preparation prepare_marked;

/* A page that is drawn: no row is marked. */
preparation prepare_drawn;

/* A drawn page on which one cell was changed since, and marked its own row alone. */
preparation prepare_one_row;

/* A drawn page on which one cell was changed since, whatever rows it marked. */
preparation prepare_changed;

/* A drawn page where one write more prints a character: B and A are the cell's own. */
preparation prepare_printing;

#endif
