/*
 * A panel in 80 columns: a panel with a longer picture, two pages of codes in place of its cells, and the operations that its controller asks
 * for there. What is said of a panel's pages and of its column is said here of these pages and of a position.
 */
#ifndef WIDE_H
#define WIDE_H

#include "panel.h"

/* A cell's code of twelve bits. */
struct code {
    uint8_t c;
    uint8_t attributes; /* the four bits in both halves, as R3 has them */
};

/* All of it is bytes again. The panel stands first, so that one that is known to be wide leads to all of it. */
struct wide {
    struct panel panel;
    uint8_t picture[BINTURAMIS_80_PICTURE_BYTES];
    struct code pages[2][BINTURAMIS_ROWS][BINTURAMIS_80_COLUMNS];
    uint8_t margin; /* MAT, that the page is drawn with */
};

static inline struct wide *wide_of(struct panel *panel)
{
    return (struct wide *)panel;
}

/* KRL, by five writes of which the last executes. */
void put_code(struct panel *panel, unsigned row, unsigned position, struct code code);

/* KRL with increment, row after row: all codes of the screen. */
void put_codes(struct panel *panel, struct code page[BINTURAMIS_ROWS][BINTURAMIS_80_COLUMNS]);

struct code get_code(struct panel *panel, unsigned row, unsigned position);

/* Readies KRL with increment at a position, whose attributes are written. */
void begin_printing_codes(struct panel *panel, unsigned row, unsigned position, struct code code);

/* Draws into the longer picture, and fails unless so many rows were redrawn. */
void draw_wide(struct panel *panel, unsigned rows);

#endif
