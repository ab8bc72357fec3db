/* Panels on which moves run, prepared by the operations that a controller has. */
#include "prepare_moves.h"

/* The rows aside that have the first page's cells, the second page's, and the cells that a move aside goes to. */
#define FIRST_ASIDE 1u
#define SECOND_ASIDE 2u
#define TO_ASIDE 3u

/* Rows aside are written before a marked page is drawn: some of its cells may have their slices there. */
static void put_rows_aside(struct panel *panel, unsigned row)
{
    put_row_aside(panel, FIRST_ASIDE, panel->pages[0][row]);
    put_row_aside(panel, SECOND_ASIDE, panel->pages[1][row]);
    put_row_aside(panel, TO_ASIDE, panel->pages[1][row]);
    draw(panel, BINTURAMIS_ROWS);
}

static void prepare_aside(struct panel *panel, page_kind *kind, unsigned row)
{
    prepare_marked(panel, kind, row);
    put_rows_aside(panel, row);
}

/* The cell becomes the first page's in one repetition, and the second page's again in the next. */
static void prepare_to_page(struct panel *panel, page_kind *kind, unsigned row, uint8_t command)
{
    prepare_aside(panel, kind, row);
    const binturamis_processor drawn = panel->processor;
    begin_to_page(panel, command, SECOND_ASIDE, row, panel->column);
    moving_of(panel)->back = panel->processor;
    panel->processor = drawn;
    begin_to_page(panel, command, FIRST_ASIDE, row, panel->column);
    panel->before = panel->processor;
}

void prepare_mvt(struct panel *panel, page_kind *kind, unsigned row)
{
    prepare_to_page(panel, kind, row, BINTURAMIS_MVT);
}

void prepare_mvb(struct panel *panel, page_kind *kind, unsigned row)
{
    prepare_to_page(panel, kind, row, BINTURAMIS_MVB);
}

void prepare_mvd(struct panel *panel, page_kind *kind, unsigned row)
{
    prepare_to_page(panel, kind, row, BINTURAMIS_MVD);
}

/* The cells that a move aside goes to become the first page's in one repetition, and the second page's again in the next. */
static void begin_both_aside(struct panel *panel)
{
    const binturamis_processor drawn = panel->processor;
    begin_aside(panel, BINTURAMIS_MVT, SECOND_ASIDE, TO_ASIDE, panel->column);
    moving_of(panel)->back = panel->processor;
    panel->processor = drawn;
    begin_aside(panel, BINTURAMIS_MVT, FIRST_ASIDE, TO_ASIDE, panel->column);
    panel->before = panel->processor;
}

void prepare_mvt_aside(struct panel *panel, page_kind *kind, unsigned row)
{
    prepare_aside(panel, kind, row);
    begin_both_aside(panel);
}

void prepare_mvt_apart(struct panel *panel, page_kind *kind, unsigned row)
{
    prepare_marked(panel, kind, row);
    put_indirect(panel, BINTURAMIS_DOR, dor_on_page(panel));
    put_rows_aside(panel, row);
    begin_both_aside(panel);
}

void prepare_scroll(struct panel *panel, page_kind *kind, unsigned row)
{
    prepare_marked(panel, kind, row);
    for (unsigned aside = 1; aside < BINTURAMIS_ROWS; aside++)
        put_row_aside(panel, aside, panel->pages[0][aside]);
    draw(panel, BINTURAMIS_ROWS);
    panel->before = panel->processor;
}
