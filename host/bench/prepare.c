/* Panels in 40 columns out of random bytes, prepared by the operations that a controller has. */
#include "prepare.h"
#include "random.h"
#include "text.h"

#define QUADRICHROME 0xC0u /* both bits of B set */
#define USER 0x80u         /* the upper of them alone, bit 5 clear or set: G'0 or G'1s */
#define DOUBLE_HEIGHT 0x02u
#define DOUBLE_SIZE 0x0Au /* as B: set G0, double height and double width */

unsigned row_y(uint8_t ror, unsigned row)
{
    return row == 0 ? 0 : 8 + (ror % 32 - 8 + row - 1) % 24;
}

/* ROR has Z3, Z2 and Z1 of the first block in bits 7, 6 and 5 and the origin in the others. */
static struct pointer row_pointer(uint8_t ror, unsigned row)
{
    struct pointer pointer = {
        .r6 = (uint8_t)((ror >> 7 & 1) << 7 | (ror >> 6 & 1) << 5 | row_y(ror, row)),
        .r7 = (uint8_t)((ror >> 5 & 1) << 6),
    };
    return pointer;
}

void write_registers(struct panel *panel)
{
    uint8_t ror = (uint8_t)(random_byte() / 32 * 32 + 8 + random_byte() % 24);
    put_indirect(panel, BINTURAMIS_PAT, random_byte() % 0x80);
    put_indirect(panel, BINTURAMIS_DOR, random_byte());
    put_indirect(panel, BINTURAMIS_ROR, ror);
    panel->phase = random_byte() % 2;
    turn(panel, panel->phase);
    for (unsigned row = 0; row < BINTURAMIS_ROWS; row++)
        panel->rows[row] = row_pointer(ror, row);
}

uint8_t other_byte(uint8_t byte)
{
    return byte ^ (uint8_t)(1 + random_byte() % 255);
}

/* A cell that differs in all three bytes. */
static struct cell other_cell(struct cell cell)
{
    struct cell other = {other_byte(cell.c), other_byte(cell.b), other_byte(cell.a)};
    return other;
}

void random_cells(struct panel *panel)
{
    for (unsigned row = 0; row < BINTURAMIS_ROWS; row++)
        for (unsigned column = 0; column < BINTURAMIS_COLUMNS; column++) {
            struct cell cell = get_cell(panel, row, column);
            panel->pages[1][row][column] = cell;
            panel->pages[0][row][column] = other_cell(cell);
        }
}

/* Both pages' cells of a row, each made into another. */
static void make_row(struct panel *panel, unsigned row, struct cell (*made)(struct cell))
{
    for (unsigned page = 0; page < 2; page++)
        for (unsigned column = 0; column < BINTURAMIS_COLUMNS; column++)
            panel->pages[page][row][column] = made(panel->pages[page][row][column]);
}

static void make_random_cells(struct panel *panel, struct cell (*made)(struct cell))
{
    random_cells(panel);
    for (unsigned row = 0; row < BINTURAMIS_ROWS; row++)
        make_row(panel, row, made);
}

static struct cell single_height(struct cell cell)
{
    if ((cell.b & QUADRICHROME) != QUADRICHROME)
        cell.b &= (uint8_t)~DOUBLE_HEIGHT;
    return cell;
}

static struct cell quadrichrome(struct cell cell)
{
    cell.b |= QUADRICHROME;
    return cell;
}

static struct cell of_user_set(struct cell cell)
{
    cell.b = (uint8_t)((cell.b & ~QUADRICHROME) | USER);
    return cell;
}

static struct cell of_double_size(struct cell cell)
{
    (void)cell;
    return (struct cell){DOUBLE_SIZE, DOUBLE_SIZE, DOUBLE_SIZE};
}

void single_cells(struct panel *panel)
{
    make_random_cells(panel, single_height);
}

void quadrichrome_cells(struct panel *panel)
{
    make_random_cells(panel, quadrichrome);
}

void user_cells(struct panel *panel)
{
    make_random_cells(panel, of_user_set);
}

void double_cells(struct panel *panel)
{
    make_random_cells(panel, of_double_size);
}

/* Text has blanks at the same places and colours that are the same: pages are tried until the cell that is changed alone has neither. */
void text(struct panel *panel)
{
    struct cell *cells[2];
    do {
        for (unsigned page = 0; page < 2; page++) {
            write_text(panel->pages[page]);
            cells[page] = &panel->pages[page][panel->row][panel->column];
        }
    } while (cells[0]->c == cells[1]->c || cells[0]->a == cells[1]->a);
}

void prepare_marked(struct panel *panel, page_kind *kind, unsigned row)
{
    fill(panel->memory, sizeof panel->memory);
    fill(panel->rom, sizeof panel->rom);
    fill(panel->picture, sizeof panel->picture);
    panel->row = (uint8_t)row;
    panel->column = random_byte() % BINTURAMIS_COLUMNS;
    binturamis_power_up(&panel->processor);
    write_registers(panel);
    kind(panel);
    put_page(panel, panel->pages[1]);
    panel->before = panel->processor;
}

static void draw_first(struct panel *panel)
{
    draw(panel, BINTURAMIS_ROWS);
    panel->before = panel->processor;
}

void prepare_drawn(struct panel *panel, page_kind *kind, unsigned row)
{
    prepare_marked(panel, kind, row);
    draw_first(panel);
}

static void change_cell(struct panel *panel)
{
    put_cell(panel, panel->row, panel->column, panel->pages[0][panel->row][panel->column]);
    panel->before = panel->processor;
}

unsigned marked_rows(const struct panel *panel)
{
    uint8_t told[BINTURAMIS_STATE_BYTES];
    unsigned count = 0;
    binturamis_state(&panel->processor, told);
    if (!told[BINTURAMIS_STATE_MARKS + panel->row])
        fail("a changed cell has not marked its row");
    for (unsigned row = 0; row < BINTURAMIS_ROWS; row++)
        count += told[BINTURAMIS_STATE_MARKS + row];
    return count;
}

static void make_row_below_single(struct panel *panel)
{
    if (panel->row + 1u < BINTURAMIS_ROWS)
        make_row(panel, panel->row + 1u, single_height);
    put_page(panel, panel->pages[1]);
}

/* The row below must not reach up, and no cell may have its slices where the change is: pages are tried until it is so. */
void prepare_one_row(struct panel *panel, page_kind *kind, unsigned row)
{
    do {
        prepare_marked(panel, kind, row);
        make_row_below_single(panel);
        draw_first(panel);
        change_cell(panel);
    } while (marked_rows(panel) != 1);
}

void prepare_changed(struct panel *panel, page_kind *kind, unsigned row)
{
    prepare_drawn(panel, kind, row);
    change_cell(panel);
    marked_rows(panel);
}

void prepare_printing(struct panel *panel, page_kind *kind, unsigned row)
{
    prepare_drawn(panel, kind, row);
    begin_printing(panel, row, panel->column, panel->pages[1][row][panel->column]);
    panel->before = panel->processor;
}
