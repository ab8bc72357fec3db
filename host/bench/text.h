/* Text as an operator's page of 40 columns has it. */
#ifndef TEXT_H
#define TEXT_H

#include "panel.h"

/*
 * Another page at each call: G0 characters, words of letters or of figures in lines of differing length, with a colour to each field. Most
 * cells have B = 00; there is a title of double height, a few headings are underlined, and one field or two flash.
 */
void write_text(struct cell page[BINTURAMIS_ROWS][BINTURAMIS_COLUMNS]);

#endif
