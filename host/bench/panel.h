/*
 * A panel of the benchmark: a processor with all that it is lent, the two pages of cells that are written to it in turn, and the operations
 * that its controller asks for in 40 columns. An operation that is refused ends the program.
 */
#ifndef PANEL_H
#define PANEL_H

#include "binturamis.h"

struct cell {
    uint8_t c;
    uint8_t b;
    uint8_t a;
};

/* The registers of the main pointer. */
struct pointer {
    uint8_t r6;
    uint8_t r7;
};

/* All of it is bytes, so a panel is written to a file and read again as it stands. */
struct panel {
    binturamis_processor processor;
    binturamis_processor before; /* what a repetition begins with, where all of them must find the same marks */
    uint8_t memory[BINTURAMIS_MEMORY_BYTES];
    uint8_t rom[BINTURAMIS_ROM_BYTES];
    uint8_t picture[BINTURAMIS_PICTURE_BYTES];
    struct pointer rows[BINTURAMIS_ROWS]; /* to column 0 of each row of the screen */
    struct cell pages[2][BINTURAMIS_ROWS][BINTURAMIS_COLUMNS];
    uint8_t row; /* of the cell that is changed alone */
    uint8_t column;
    uint8_t phase; /* that the page is drawn with */
};

_Noreturn void fail(const char *what);

/* Fails where an answer is a refusal. */
void expect_accepted(const char *what, uint32_t answer);

/* Fails unless a draw was accepted and has redrawn so many rows. */
void expect_rows(uint32_t answer, unsigned rows);

void put(struct panel *panel, uint8_t address, uint8_t value);

/* IND: the value goes to an indirect register by way of R1. */
void put_indirect(struct panel *panel, uint8_t r, uint8_t value);

/* KRF, by six writes of which the last executes. */
void put_cell(struct panel *panel, unsigned row, unsigned column, struct cell cell);

/* Its five writes that do not execute, so many times over. */
void put_registers(struct panel *panel, unsigned row, unsigned column, struct cell cell, unsigned times);

struct cell get_cell(struct panel *panel, unsigned row, unsigned column);

/* KRF with increment, row after row: all cells of the screen. */
void put_page(struct panel *panel, struct cell page[BINTURAMIS_ROWS][BINTURAMIS_COLUMNS]);

/* Readies KRF with increment at a cell, whose B and A are written. */
void begin_printing(struct panel *panel, unsigned row, unsigned column, struct cell cell);

/* C, by one write, which executes. */
void print(struct panel *panel, uint8_t c);

void turn(struct panel *panel, uint8_t phase);

/* Draws, and fails unless so many rows were redrawn. */
void draw(struct panel *panel, unsigned rows);

#endif
