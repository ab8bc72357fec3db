/*
 * How the panels are prepared on which moves run: drawn pages of the kinds that panels have, with cells aside that are moved. What is moved
 * differs from what it is moved to as the two pages of a panel differ.
 */
#ifndef PREPARE_MOVES_H
#define PREPARE_MOVES_H

#include "moves.h"
#include "prepare.h"

/* A move of MVT runs to the page's row of the cell that is changed alone, and is at that cell. */
preparation prepare_mvt;

/* The same of MVB and of MVD. */
preparation prepare_mvb;
preparation prepare_mvd;

/* The same of MVT from cells aside to others aside. */
preparation prepare_mvt_aside;

/* The same where no cell of the page can have a slice aside. */
preparation prepare_mvt_apart;

/* No move runs, and rows 1 to 24 aside are what the page may get by a scroll. */
preparation prepare_scroll;

#endif
