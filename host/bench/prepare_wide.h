/*
 * How the panels in 80 columns are prepared, as those in 40 are: the same kinds and preparations, of panels that are wide.
 */
#ifndef PREPARE_WIDE_H
#define PREPARE_WIDE_H

#include "prepare.h"
#include "wide.h"

/* Random codes out of random memory, half of them mosaics, which differ from page to page in C and in the attributes. */
page_kind random_codes;

/* Two pages of text. The cell that is changed alone differs in its character and in its colour. */
page_kind wide_text;

/* A page of which every row is marked. */
preparation prepare_wide_marked;

/* A page that is drawn: no row is marked. */
preparation prepare_wide_drawn;

/* A drawn page on which one cell was changed since, and marked its own row alone. */
preparation prepare_wide_row;

/* A drawn page where one write more prints a character: the attributes are the cell's own. */
preparation prepare_wide_printing;

#endif
