/* Panels on the smaller boards of an EF9345, prepared by the operations that a controller has there. */
#include "board.h"
#include "prepare_wide.h"
#include "random.h"

/* The page at block 0 of which row 1 is at Y 8. */
#define FIRST_PAGE 8u

/* Z0 of the main pointer: the block of the right one of the two cells of a column. */
#define RIGHT 0x80u

static size_t bytes_of(uint8_t blocks)
{
    return (size_t)BINTURAMIS_BLOCK_BYTES * blocks;
}

static void put_on_board(struct panel *panel, uint8_t blocks, uint8_t address, uint8_t value)
{
    expect_accepted("a write", binturamis_write(&panel->processor, panel->memory, bytes_of(blocks), address, value));
}

static void put_indirect_on_board(struct panel *panel, uint8_t blocks, uint8_t r, uint8_t value)
{
    put_on_board(panel, blocks, BINTURAMIS_R1, value);
    put_on_board(panel, blocks, BINTURAMIS_R0 + BINTURAMIS_EXECUTE, (uint8_t)(BINTURAMIS_IND + r));
}

static uint32_t drawn(struct panel *panel, uint8_t blocks, uint8_t *picture, size_t length)
{
    return binturamis_draw(&panel->processor, panel->memory, bytes_of(blocks), panel->rom, sizeof panel->rom, picture, length);
}

void draw_on_board(struct panel *panel, uint8_t blocks, unsigned rows)
{
    expect_rows(drawn(panel, blocks, panel->picture, sizeof panel->picture), rows);
}

void draw_wide_on_board(struct panel *panel, uint8_t blocks, unsigned rows)
{
    struct wide *wide = wide_of(panel);
    expect_rows(drawn(panel, blocks, wide->picture, sizeof wide->picture), rows);
}

static void begin(struct panel *panel, uint8_t blocks)
{
    fill(panel->memory, bytes_of(blocks));
    fill(panel->rom, sizeof panel->rom);
    expect_accepted("a power-up", binturamis_power_up_board(&panel->processor, BINTURAMIS_EF9345, blocks));
}

/* PAT, DOR, ROR and the phase, with which a page can be drawn. */
static void begin_page(struct panel *panel, uint8_t blocks, uint8_t dor, uint8_t ror)
{
    put_indirect_on_board(panel, blocks, BINTURAMIS_PAT, random_byte() % 0x80);
    put_indirect_on_board(panel, blocks, BINTURAMIS_DOR, dor);
    put_indirect_on_board(panel, blocks, BINTURAMIS_ROR, ror);
    panel->phase = random_byte() % 2;
    expect_accepted("a phase change", binturamis_turn(&panel->processor, panel->memory, bytes_of(blocks), panel->phase));
}

/* DOR has the block of G'0 in bits 3 to 0, the pair of blocks of G'1s in 6 to 4, and the upper eight blocks of the others in 7. */
void prepare_8_blocks(struct panel *panel, page_kind *kind, unsigned row)
{
    (void)kind;
    (void)row;
    begin(panel, BINTURAMIS_BOARD_8);
    fill(panel->picture, sizeof panel->picture);
    uint8_t ror = (uint8_t)(random_byte() % 4 * 32 + 8 + random_byte() % 24);
    begin_page(panel, BINTURAMIS_BOARD_8, random_byte() & 0x37u, ror);
    panel->before = panel->processor;
}

/* OCT with increment: the left cells of a row from block 0 on, or the right ones from block 1 on. */
static void put_half_row(struct panel *panel, unsigned row, unsigned is_right)
{
    put_on_board(panel, BINTURAMIS_BOARD_2, BINTURAMIS_R6, (uint8_t)(row == 0 ? 0 : 7 + row));
    put_on_board(panel, BINTURAMIS_BOARD_2, BINTURAMIS_R7, (uint8_t)(RIGHT * is_right));
    for (unsigned position = is_right; position < BINTURAMIS_80_COLUMNS; position += 2)
        put_on_board(panel, BINTURAMIS_BOARD_2, BINTURAMIS_R1 + BINTURAMIS_EXECUTE, wide_of(panel)->pages[1][row][position].c);
}

void prepare_wide_2_blocks(struct panel *panel, page_kind *kind, unsigned row)
{
    struct wide *wide = wide_of(panel);
    begin(panel, BINTURAMIS_BOARD_2);
    fill(wide->picture, sizeof wide->picture);
    panel->row = (uint8_t)row;
    panel->column = random_byte() % BINTURAMIS_80_COLUMNS;
    put_indirect_on_board(panel, BINTURAMIS_BOARD_2, BINTURAMIS_TGS, BINTURAMIS_TGS_80);
    wide->margin = random_byte();
    put_indirect_on_board(panel, BINTURAMIS_BOARD_2, BINTURAMIS_MAT, wide->margin);
    begin_page(panel, BINTURAMIS_BOARD_2, random_byte(), FIRST_PAGE);
    kind(panel);
    put_on_board(panel, BINTURAMIS_BOARD_2, BINTURAMIS_R0, BINTURAMIS_OCT + BINTURAMIS_INCREMENT);
    for (unsigned at = 0; at < 2 * BINTURAMIS_ROWS; at++)
        put_half_row(panel, at / 2, at % 2);
    panel->before = panel->processor;
}
