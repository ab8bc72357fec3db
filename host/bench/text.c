/* An operator's page, field by field. */
#include <string.h>

#include "random.h"
#include "text.h"
#include "words.h"

/* B of a G0 cell. */
#define PLAIN 0x00u
#define UNDERLINED 0x10u
#define DOUBLE_HEIGHT 0x02u

/* A: the foreground in the high half, the background in the low one. */
#define WHITE 0x70u
#define YELLOW 0x30u
#define CYAN 0x60u
#define WHITE_ON_BLUE 0x74u
#define FLASH 0x08u

/* The title stands in this row and in the next. */
#define TITLE 1u

#define FLASHING_CELLS 8u

static uint8_t colour_of_field(void)
{
    static const uint8_t colours[] = {WHITE, WHITE, WHITE, YELLOW, YELLOW, CYAN, CYAN, WHITE_ON_BLUE};
    return colours[random_byte() % 8];
}

/* A word and the space behind it, in as many cells as there is room for. The answer is its length. */
static unsigned write_word(struct cell *cells, unsigned room, uint8_t b, uint8_t a)
{
    uint8_t characters[WORD];
    unsigned length = random_word(characters, room);
    for (unsigned i = 0; i < length; i++)
        cells[i] = (struct cell){characters[i], b, a};
    return length;
}

/* A field has one word or more, so a word keeps the colour of the word before it as often as not. Blanks end the line. */
static void write_line(struct cell line[BINTURAMIS_COLUMNS], uint8_t b)
{
    unsigned end = 16 + random_byte() % (BINTURAMIS_COLUMNS - 16 + 1);
    uint8_t a = colour_of_field();
    unsigned column = 0;
    while (column < end) {
        column += write_word(line + column, end - column, b, a);
        if (random_byte() % 2)
            a = colour_of_field();
    }
    for (; column < BINTURAMIS_COLUMNS; column++)
        line[column] = (struct cell){SPACE, PLAIN, WHITE};
}

/* Both halves of a double height cell have the same bytes. */
static void write_title(struct cell page[BINTURAMIS_ROWS][BINTURAMIS_COLUMNS])
{
    write_line(page[TITLE], DOUBLE_HEIGHT);
    memcpy(page[TITLE + 1], page[TITLE], sizeof page[TITLE]);
}

static unsigned row_below_the_title(void)
{
    return TITLE + 2 + random_byte() % (BINTURAMIS_ROWS - TITLE - 2);
}

static void flash_field(struct cell line[BINTURAMIS_COLUMNS])
{
    for (unsigned column = 0; column < FLASHING_CELLS; column++)
        line[column].a |= FLASH;
}

void write_text(struct cell page[BINTURAMIS_ROWS][BINTURAMIS_COLUMNS])
{
    for (unsigned row = 0; row < BINTURAMIS_ROWS; row++)
        write_line(page[row], PLAIN);
    write_title(page);
    for (unsigned headings = 3; headings > 0; headings--)
        write_line(page[row_below_the_title()], UNDERLINED);
    for (unsigned fields = 1 + random_byte() % 2; fields > 0; fields--)
        flash_field(page[row_below_the_title()]);
}
