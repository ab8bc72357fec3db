/* Panels in 80 columns out of random bytes, prepared by the operations that a controller has. */
#include "prepare_wide.h"
#include "random.h"
#include "wide_text.h"

/* A code that differs in C and in the attributes. */
static struct code other_code(struct code code)
{
    uint8_t nibble = (uint8_t)(1 + random_byte() % 15);
    struct code other = {other_byte(code.c), (uint8_t)(code.attributes ^ 0x11u * nibble)};
    return other;
}

void random_codes(struct panel *panel)
{
    struct wide *wide = wide_of(panel);
    for (unsigned row = 0; row < BINTURAMIS_ROWS; row++)
        for (unsigned position = 0; position < BINTURAMIS_80_COLUMNS; position++) {
            struct code code = get_code(panel, row, position);
            wide->pages[1][row][position] = code;
            wide->pages[0][row][position] = other_code(code);
        }
}

/* The cell that is changed alone may be anything on either page, and is made a letter, which differs in its colour too. */
void wide_text(struct panel *panel)
{
    struct wide *wide = wide_of(panel);
    for (unsigned page = 0; page < 2; page++) {
        write_wide_text(wide->pages[page]);
        wide->pages[page][panel->row][panel->column] = (struct code){(uint8_t)('A' + page), (uint8_t)(0x11u * page)};
    }
}

void prepare_wide_marked(struct panel *panel, page_kind *kind, unsigned row)
{
    struct wide *wide = wide_of(panel);
    fill(panel->memory, sizeof panel->memory);
    fill(panel->rom, sizeof panel->rom);
    fill(wide->picture, sizeof wide->picture);
    panel->row = (uint8_t)row;
    panel->column = random_byte() % BINTURAMIS_80_COLUMNS;
    binturamis_power_up(&panel->processor);
    put_indirect(panel, BINTURAMIS_TGS, BINTURAMIS_TGS_80);
    wide->margin = random_byte();
    put_indirect(panel, BINTURAMIS_MAT, wide->margin);
    write_registers(panel);
    kind(panel);
    put_codes(panel, wide->pages[1]);
    panel->before = panel->processor;
}

void prepare_wide_drawn(struct panel *panel, page_kind *kind, unsigned row)
{
    prepare_wide_marked(panel, kind, row);
    draw_wide(panel, BINTURAMIS_ROWS);
    panel->before = panel->processor;
}

/* No list but its own row's has the byte of a code. */
void prepare_wide_row(struct panel *panel, page_kind *kind, unsigned row)
{
    prepare_wide_drawn(panel, kind, row);
    put_code(panel, row, panel->column, wide_of(panel)->pages[0][row][panel->column]);
    if (marked_rows(panel) != 1)
        fail("a changed code has marked another row");
    panel->before = panel->processor;
}

void prepare_wide_printing(struct panel *panel, page_kind *kind, unsigned row)
{
    prepare_wide_drawn(panel, kind, row);
    begin_printing_codes(panel, row, panel->column, wide_of(panel)->pages[1][row][panel->column]);
    panel->before = panel->processor;
}
