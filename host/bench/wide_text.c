/* An operator's page of 80 columns, field by field. */
#include "random.h"
#include "wide_text.h"
#include "words.h"

/* Attributes, repeated. */
#define PLAIN 0x00u
#define OTHER_COLOUR 0x11u
#define UNDERLINED 0x22u
#define FLASHING 0x44u
#define NEGATIVE 0x88u

/* A rule: the middle two of a mosaic's ten windows. */
#define RULE 0xB0u

/* The heading of the table stands between two rules. */
#define HEADING 3u

#define FIELD 12u

static void write_line(struct code line[BINTURAMIS_80_COLUMNS], uint8_t look)
{
    unsigned end = 32 + random_byte() % (BINTURAMIS_80_COLUMNS - 32 + 1);
    unsigned position = 0;
    while (position < end) {
        uint8_t characters[WORD];
        unsigned length = random_word(characters, end - position);
        uint8_t attributes = look | (random_byte() % 4 == 0 ? OTHER_COLOUR : PLAIN);
        for (unsigned i = 0; i < length; i++)
            line[position++] = (struct code){characters[i], attributes};
    }
    for (; position < BINTURAMIS_80_COLUMNS; position++)
        line[position] = (struct code){SPACE, PLAIN};
}

static void write_rule(struct code line[BINTURAMIS_80_COLUMNS])
{
    for (unsigned position = 0; position < BINTURAMIS_80_COLUMNS; position++)
        line[position] = (struct code){RULE, OTHER_COLOUR};
}

/* A field at the left of a line below the heading. */
static void look_of_field(struct code page[BINTURAMIS_ROWS][BINTURAMIS_80_COLUMNS], uint8_t look)
{
    unsigned row = HEADING + 2 + random_byte() % (BINTURAMIS_ROWS - HEADING - 2);
    for (unsigned position = 0; position < FIELD; position++)
        page[row][position].attributes |= look;
}

void write_wide_text(struct code page[BINTURAMIS_ROWS][BINTURAMIS_80_COLUMNS])
{
    for (unsigned row = 0; row < BINTURAMIS_ROWS; row++)
        write_line(page[row], row == HEADING ? UNDERLINED : PLAIN);
    write_rule(page[HEADING - 1]);
    write_rule(page[HEADING + 1]);
    look_of_field(page, NEGATIVE);
    for (unsigned fields = 1 + random_byte() % 2; fields > 0; fields--)
        look_of_field(page, FLASHING);
}
