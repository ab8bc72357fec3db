/*
 * A panel on which moves run: a panel of 40 columns, and the operations that its controller asks for to copy cells. Besides the rows of its
 * page it has as many aside, at the same X and Y in the blocks of another district.
 */
#ifndef MOVES_H
#define MOVES_H

#include "panel.h"

/* All of it is bytes again. The panel stands first, so that one that is known to have moves leads to all of it. */
struct moving {
    struct panel panel;
    binturamis_processor back; /* what every second repetition begins with: it takes back what the one before it has moved */
};

static inline struct moving *moving_of(struct panel *panel)
{
    return (struct moving *)panel;
}

/* A DOR by which every block of slices has the Z3 of the page: none of them is aside. */
uint8_t dor_on_page(const struct panel *panel);

/* KRF with increment: the cells of a row aside. */
void put_row_aside(struct panel *panel, unsigned row, struct cell cells[BINTURAMIS_COLUMNS]);

/* Starts a move, which runs on, from a cell aside to one of the page. */
void begin_to_page(struct panel *panel, uint8_t command, unsigned from, unsigned to, unsigned column);

/* The same from one cell aside to another. */
void begin_aside(struct panel *panel, uint8_t command, unsigned from, unsigned to, unsigned column);

/* So many steps. */
void step(struct panel *panel, unsigned times);

/*
 * Rows 1 to 24 of the page up by one, and a row aside into the last, by 24 times MVT with a stop: for each two writes, of which the second
 * executes, and 40 steps.
 */
void scroll(struct panel *panel, unsigned aside);

/* Draws, and fails unless at least so many rows were redrawn. */
void draw_some(struct panel *panel, unsigned rows);

#endif
