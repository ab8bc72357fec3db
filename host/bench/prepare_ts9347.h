/*
 * How the panels with the TS9347 are prepared: each after a panel with the EF9345, with its code bytes, registers and phase, so that the two
 * parts are asked for pages of the same bytes. What the bytes mean is this part's.
 */
#ifndef PREPARE_TS9347_H
#define PREPARE_TS9347_H

#include "prepare.h"
#include "ts9347.h"

/* A page of which every row is marked. */
preparation prepare_ts9347_marked;

/* A page that is drawn: no row is marked. */
preparation prepare_ts9347_drawn;

/* A drawn page on which one cell was changed since, whatever rows it marked. */
preparation prepare_ts9347_changed;

/* A drawn page where one write more prints a character: B and A are the cell's own. */
preparation prepare_ts9347_printing;

#endif
