/*
 * Panels on the boards with less memory: a panel, or a wide one, of whose memory the first blocks are lent. Their pages are drawn whole.
 */
#ifndef BOARD_H
#define BOARD_H

#include "prepare.h"

/* Draws on a board of so many blocks, and fails unless so many rows were redrawn. */
void draw_on_board(struct panel *panel, uint8_t blocks, unsigned rows);
void draw_wide_on_board(struct panel *panel, uint8_t blocks, unsigned rows);

/*
 * A page of which every row is marked, on the board of 8 blocks: random memory, with the page and every set that DOR names in blocks that
 * are fitted. The cells are what the memory has, so there is no kind of page.
 */
preparation prepare_8_blocks;

/* The same on the board of 2 blocks, of a wide panel: a page of characters at block 0. Its attributes would be in block 2. */
preparation prepare_wide_2_blocks;

#endif
