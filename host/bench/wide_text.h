/* Text as an operator's page of 80 columns has it. */
#ifndef WIDE_TEXT_H
#define WIDE_TEXT_H

#include "wide.h"

/*
 * Another page at each call: words of letters or of figures in lines of differing length, with one of the two colours to each field, and a
 * table's rules of mosaics above and below its heading. A few headings are underlined, one field is negative, and one or two flash.
 */
void write_wide_text(struct code page[BINTURAMIS_ROWS][BINTURAMIS_80_COLUMNS]);

#endif
