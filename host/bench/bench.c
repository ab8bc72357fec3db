/*
 * The benchmark's scenarios: what a panel's controller asks of the library, repeated so that its cost can be counted or timed.
 *
 *     bench prepare SCENARIO              writes the panels that the scenario begins with to standard output
 *     bench repeat SCENARIO REPETITIONS   reads them from standard input, and writes them as the repetitions have left them
 *     bench time SCENARIO                 reads them, and prints how many times as long as the floor a repetition takes
 *
 * Preparing is a run of its own, so that a run that is counted does little besides its repetitions. All memory and every picture are
 * written out at its end, so that nothing of the work is for nothing.
 */
#include <stdio.h>
#include <stdlib.h>
#include <string.h>
#include <time.h>

#include "board.h"
#include "prepare.h"
#include "prepare_moves.h"
#include "prepare_ts9347.h"
#include "prepare_wide.h"

/* A repetition: of a scenario with several panels each takes its turn, and a round is over when all of them have had one. */
struct scenario {
    const char *name;
    size_t size; /* of a panel */
    unsigned panels;
    page_kind *kind;
    preparation *prepare;
    void (*repeat)(struct panel *panel, unsigned long round);
};

/* What a changed cell costs depends on its row and on the registers, so each row has several pages, with registers of their own. */
#define PAGES (4 * BINTURAMIS_ROWS)

#define NARROW sizeof(struct panel)
#define MOVING sizeof(struct moving)
#define WIDE sizeof(struct wide)
#define TS9347 sizeof(struct ts9347)

/* The panels of a scenario, one after the other in the size that it has. */
static union {
    struct panel narrow[PAGES];
    struct moving moving[PAGES];
    struct wide wide[PAGES];
    struct ts9347 ts9347[PAGES];
} panels;

static struct panel *panel_at(const struct scenario *scenario, unsigned long number)
{
    return (struct panel *)((uint8_t *)&panels + scenario->size * number);
}

/* The floor copies a picture to here. */
static uint8_t screen[BINTURAMIS_PICTURE_BYTES];

/* Volatile, so that the compiler can neither leave a copy out nor make it by instructions of its own. */
static void *(*volatile copy)(void *, const void *, size_t) = memcpy;

static void repeat_copy(struct panel *panel, unsigned long round)
{
    (void)round;
    copy(screen, panel->picture, sizeof screen);
}

static void repeat_redraw(struct panel *panel, unsigned long round)
{
    (void)round;
    panel->processor = panel->before;
    draw(panel, BINTURAMIS_ROWS);
}

static void repeat_row(struct panel *panel, unsigned long round)
{
    (void)round;
    panel->processor = panel->before;
    draw(panel, 1);
}

static void repeat_unmarked(struct panel *panel, unsigned long round)
{
    (void)round;
    draw(panel, 0);
}

/* From round to round the cell changes to the other page's and back. */
static void repeat_changed(struct panel *panel, unsigned long round)
{
    panel->processor = panel->before;
    put_cell(panel, panel->row, panel->column, panel->pages[round % 2][panel->row][panel->column]);
}

static void repeat_unchanged(struct panel *panel, unsigned long round)
{
    (void)round;
    put_cell(panel, panel->row, panel->column, panel->pages[0][panel->row][panel->column]);
}

/* The character alone changes, to the other page's and back. */
static void repeat_printed(struct panel *panel, unsigned long round)
{
    panel->processor = panel->before;
    print(panel, panel->pages[round % 2][panel->row][panel->column].c);
}

/* A hundred writes, twenty of each register that a cell needs. */
static void repeat_register(struct panel *panel, unsigned long round)
{
    put_registers(panel, panel->row, panel->column, panel->pages[round % 2][panel->row][panel->column], 20);
}

static void repeat_phase(struct panel *panel, unsigned long round)
{
    (void)round;
    panel->processor = panel->before;
    turn(panel, 1 - panel->phase);
}

static void repeat_refill(struct panel *panel, unsigned long round)
{
    put_page(panel, panel->pages[round % 2]);
    draw(panel, BINTURAMIS_ROWS);
}

/* From round to round the cell that the move is at becomes another and is the first again. */
static void repeat_step(struct panel *panel, unsigned long round)
{
    panel->processor = round % 2 == 0 ? panel->before : moving_of(panel)->back;
    step(panel, 1);
}

/* A hundred steps. */
static void repeat_idle_step(struct panel *panel, unsigned long round)
{
    (void)round;
    step(panel, 100);
}

/* Rows 1 to 24 aside come in one after the other, so that each row gets another than it has; but the two rows of a title are the same. */
static void repeat_scroll(struct panel *panel, unsigned long round)
{
    scroll(panel, 1 + (unsigned)(round % (BINTURAMIS_ROWS - 1)));
    draw_some(panel, BINTURAMIS_ROWS - 2);
}

static void repeat_wide_redraw(struct panel *panel, unsigned long round)
{
    (void)round;
    panel->processor = panel->before;
    draw_wide(panel, BINTURAMIS_ROWS);
}

static void repeat_wide_row(struct panel *panel, unsigned long round)
{
    (void)round;
    panel->processor = panel->before;
    draw_wide(panel, 1);
}

static void repeat_wide_changed(struct panel *panel, unsigned long round)
{
    panel->processor = panel->before;
    put_code(panel, panel->row, panel->column, wide_of(panel)->pages[round % 2][panel->row][panel->column]);
}

static void repeat_wide_printed(struct panel *panel, unsigned long round)
{
    panel->processor = panel->before;
    print(panel, wide_of(panel)->pages[round % 2][panel->row][panel->column].c);
}

/* MAT changes in one bit, which marks every row. */
static void repeat_wide_margin(struct panel *panel, unsigned long round)
{
    (void)round;
    panel->processor = panel->before;
    put_indirect(panel, BINTURAMIS_MAT, wide_of(panel)->margin ^ 1);
}

static void repeat_redraw_8_blocks(struct panel *panel, unsigned long round)
{
    (void)round;
    panel->processor = panel->before;
    draw_on_board(panel, BINTURAMIS_BOARD_8, BINTURAMIS_ROWS);
}

static void repeat_wide_redraw_2_blocks(struct panel *panel, unsigned long round)
{
    (void)round;
    panel->processor = panel->before;
    draw_wide_on_board(panel, BINTURAMIS_BOARD_2, BINTURAMIS_ROWS);
}

static void repeat_ts9347_redraw(struct panel *panel, unsigned long round)
{
    (void)round;
    panel->processor = panel->before;
    draw_ts9347(panel, BINTURAMIS_ROWS);
}

static void repeat_ts9347_changed(struct panel *panel, unsigned long round)
{
    panel->processor = panel->before;
    put_ts9347_cell(panel, panel->row, panel->column, panel->pages[round % 2][panel->row][panel->column]);
}

static void repeat_ts9347_unchanged(struct panel *panel, unsigned long round)
{
    (void)round;
    put_ts9347_cell(panel, panel->row, panel->column, panel->pages[0][panel->row][panel->column]);
}

static void repeat_ts9347_printed(struct panel *panel, unsigned long round)
{
    panel->processor = panel->before;
    print_ts9347(panel, panel->pages[round % 2][panel->row][panel->column].c);
}

static void repeat_ts9347_register(struct panel *panel, unsigned long round)
{
    put_ts9347_registers(panel, panel->row, panel->column, panel->pages[round % 2][panel->row][panel->column], 20);
}

static void repeat_ts9347_phase(struct panel *panel, unsigned long round)
{
    (void)round;
    panel->processor = panel->before;
    turn_ts9347(panel, 1 - panel->phase);
}

/* The first is the floor. */
static const struct scenario scenarios[] = {
    {"copy", NARROW, 1, random_cells, prepare_drawn, repeat_copy},
    {"redraw", NARROW, 1, random_cells, prepare_marked, repeat_redraw},
    {"redraw_text", NARROW, 1, text, prepare_marked, repeat_redraw},
    {"redraw_quadrichrome", NARROW, 1, quadrichrome_cells, prepare_marked, repeat_redraw},
    {"redraw_user", NARROW, 1, user_cells, prepare_marked, repeat_redraw},
    {"redraw_double", NARROW, 1, double_cells, prepare_marked, repeat_redraw},
    {"row", NARROW, BINTURAMIS_ROWS, random_cells, prepare_one_row, repeat_row},
    {"row_text", NARROW, BINTURAMIS_ROWS, text, prepare_one_row, repeat_row},
    {"unmarked", NARROW, 1, random_cells, prepare_drawn, repeat_unmarked},
    {"changed", NARROW, PAGES, random_cells, prepare_drawn, repeat_changed},
    {"changed_text", NARROW, PAGES, text, prepare_drawn, repeat_changed},
    {"changed_quadrichrome", NARROW, PAGES, quadrichrome_cells, prepare_drawn, repeat_changed},
    {"changed_user", NARROW, PAGES, user_cells, prepare_drawn, repeat_changed},
    {"printed", NARROW, PAGES, text, prepare_printing, repeat_printed},
    {"unchanged", NARROW, PAGES, random_cells, prepare_changed, repeat_unchanged},
    {"register", NARROW, 1, random_cells, prepare_drawn, repeat_register},
    {"phase", NARROW, PAGES, random_cells, prepare_drawn, repeat_phase},
    {"phase_text", NARROW, PAGES, text, prepare_drawn, repeat_phase},
    {"refill", NARROW, 1, random_cells, prepare_drawn, repeat_refill},
    {"refill_single", NARROW, 1, single_cells, prepare_drawn, repeat_refill},
    {"refill_text", NARROW, 1, text, prepare_drawn, repeat_refill},
    {"step", MOVING, PAGES, random_cells, prepare_mvt, repeat_step},
    {"step_text", MOVING, PAGES, text, prepare_mvt, repeat_step},
    {"step_quadrichrome", MOVING, PAGES, quadrichrome_cells, prepare_mvt, repeat_step},
    {"step_user", MOVING, PAGES, user_cells, prepare_mvt, repeat_step},
    {"step_mvb", MOVING, PAGES, random_cells, prepare_mvb, repeat_step},
    {"step_mvd", MOVING, PAGES, random_cells, prepare_mvd, repeat_step},
    {"step_aside", MOVING, PAGES, random_cells, prepare_mvt_aside, repeat_step},
    {"step_aside_text", MOVING, PAGES, text, prepare_mvt_aside, repeat_step},
    {"step_apart", MOVING, PAGES, random_cells, prepare_mvt_apart, repeat_step},
    {"step_apart_text", MOVING, PAGES, text, prepare_mvt_apart, repeat_step},
    {"step_idle", NARROW, 1, random_cells, prepare_drawn, repeat_idle_step},
    {"scroll", NARROW, 1, random_cells, prepare_scroll, repeat_scroll},
    {"scroll_text", NARROW, 1, text, prepare_scroll, repeat_scroll},
    {"redraw_80", WIDE, 1, random_codes, prepare_wide_marked, repeat_wide_redraw},
    {"redraw_80_text", WIDE, 1, wide_text, prepare_wide_marked, repeat_wide_redraw},
    {"row_80", WIDE, BINTURAMIS_ROWS, random_codes, prepare_wide_row, repeat_wide_row},
    {"row_80_text", WIDE, BINTURAMIS_ROWS, wide_text, prepare_wide_row, repeat_wide_row},
    {"changed_80", WIDE, PAGES, random_codes, prepare_wide_drawn, repeat_wide_changed},
    {"changed_80_text", WIDE, PAGES, wide_text, prepare_wide_drawn, repeat_wide_changed},
    {"printed_80", WIDE, PAGES, wide_text, prepare_wide_printing, repeat_wide_printed},
    {"phase_80", WIDE, PAGES, random_codes, prepare_wide_drawn, repeat_phase},
    {"phase_80_text", WIDE, PAGES, wide_text, prepare_wide_drawn, repeat_phase},
    {"margin_80", WIDE, 1, random_codes, prepare_wide_drawn, repeat_wide_margin},
    {"redraw_8_blocks", NARROW, 1, NULL, prepare_8_blocks, repeat_redraw_8_blocks},
    {"redraw_80_2_blocks", WIDE, 1, wide_text, prepare_wide_2_blocks, repeat_wide_redraw_2_blocks},
    {"redraw_ts9347", TS9347, 1, random_cells, prepare_ts9347_marked, repeat_ts9347_redraw},
    {"redraw_ts9347_text", TS9347, 1, text, prepare_ts9347_marked, repeat_ts9347_redraw},
    {"changed_ts9347", TS9347, PAGES, random_cells, prepare_ts9347_drawn, repeat_ts9347_changed},
    {"changed_ts9347_text", TS9347, PAGES, text, prepare_ts9347_drawn, repeat_ts9347_changed},
    {"printed_ts9347", TS9347, PAGES, text, prepare_ts9347_printing, repeat_ts9347_printed},
    {"unchanged_ts9347", TS9347, PAGES, random_cells, prepare_ts9347_changed, repeat_ts9347_unchanged},
    {"register_ts9347", TS9347, 1, random_cells, prepare_ts9347_drawn, repeat_ts9347_register},
    {"phase_ts9347", TS9347, PAGES, random_cells, prepare_ts9347_drawn, repeat_ts9347_phase},
};

static const struct scenario *named(const char *name)
{
    for (size_t i = 0; i < sizeof scenarios / sizeof *scenarios; i++)
        if (strcmp(scenarios[i].name, name) == 0)
            return &scenarios[i];
    fprintf(stderr, "bench: there is no scenario %s\n", name);
    exit(2);
}

static void read_panels(const struct scenario *scenario)
{
    if (fread(&panels, scenario->size, scenario->panels, stdin) != scenario->panels || getchar() != EOF)
        fail("standard input has not the panels of the scenario");
}

static void write_panels(const struct scenario *scenario)
{
    if (fwrite(&panels, scenario->size, scenario->panels, stdout) != scenario->panels || fflush(stdout) != 0)
        fail("the panels cannot be written");
}

static void prepare(const struct scenario *scenario)
{
    for (unsigned i = 0; i < scenario->panels; i++)
        scenario->prepare(panel_at(scenario, i), scenario->kind, i % BINTURAMIS_ROWS);
    write_panels(scenario);
}

/*
 * What counts the instructions knows by its calls where a repetition begins and the one before it ends. So it must be neither inlined nor
 * dropped.
 */
__attribute__((noinline)) static void begin_repetition(void)
{
    __asm__ volatile("");
}

static void repeat(const struct scenario *scenario, unsigned long repetitions)
{
    for (unsigned long i = 0; i < repetitions; i++) {
        begin_repetition();
        scenario->repeat(panel_at(scenario, i % scenario->panels), i / scenario->panels);
    }
    begin_repetition();
}

static void repeat_and_write(const struct scenario *scenario, const char *word)
{
    char *end;
    unsigned long repetitions = strtoul(word, &end, 10);
    if (end == word || *end != '\0')
        fail("the repetitions are not a number");
    read_panels(scenario);
    repeat(scenario, repetitions);
    write_panels(scenario);
    if (fwrite(screen, sizeof screen, 1, stdout) != 1 || fflush(stdout) != 0)
        fail("the screen cannot be written");
}

/* The clocks that a repetition takes, by so many that they take a quarter of a second. Whole rounds, so that all panels count alike. */
static double clocks_each(const struct scenario *scenario)
{
    for (unsigned long repetitions = 2 * scenario->panels;; repetitions *= 2) {
        clock_t begin = clock();
        repeat(scenario, repetitions);
        clock_t taken = clock() - begin;
        if (taken >= CLOCKS_PER_SEC / 4)
            return (double)taken / (double)repetitions;
    }
}

static void print_time(const struct scenario *scenario)
{
    read_panels(scenario);
    double floor = clocks_each(&scenarios[0]);
    printf("%.3f\n", clocks_each(scenario) / floor);
}

int main(int count, char **words)
{
    if (count == 3 && strcmp(words[1], "prepare") == 0)
        prepare(named(words[2]));
    else if (count == 4 && strcmp(words[1], "repeat") == 0)
        repeat_and_write(named(words[2]), words[3]);
    else if (count == 3 && strcmp(words[1], "time") == 0)
        print_time(named(words[2]));
    else {
        fputs("usage: bench prepare SCENARIO, bench repeat SCENARIO REPETITIONS, or bench time SCENARIO\n", stderr);
        return 2;
    }
    return 0;
}
