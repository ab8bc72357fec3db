/*
 * The C interface of Binturamis, which takes the place of the EF9345 display processor, and of the later TS9347.
 *
 * A host lends four things and keeps them between calls: a processor (64 bytes), the private memory, the character ROM and the picture.
 * It writes and reads the eight registers, lets a move go on step by step, turns the phase for cells that flash, and asks for the marked
 * rows to be drawn again. The kept picture is right only if nothing else writes the memory and the picture, if the ROM stays as it is, and
 * if each call is given the processor that the call before it left. Another picture may be lent to a draw whenever every row is marked, as
 * after a change of TGS: a page of 80 columns has a longer picture than one of 40.
 *
 * Parts and boards. The part is an EF9345 or a TS9347. The private memory of an EF9345 has 2, 8 or 16 blocks of 1,024 bytes, that of a
 * TS9347 has 32. Part and blocks are chosen at power-up and stay; each call is then lent as many bytes of memory as the board has, and a
 * draw as many bytes of ROM as the part has. A byte of a block that the board does not have is not fitted: a draw takes it as 0, and a
 * command that would store or read one is refused. A TS9347 has every block that its pointers can name.
 *
 * Answers. power_up_board, write, read, step, turn and draw answer 65,536 * number + value, the value having 16 bits. Number 0 is accepted;
 * any other is a refusal, by its number below. The value of an accepted read is the register's, that of an accepted draw the rows redrawn,
 * and every other value of an accepted call is 0. binturamis_number and binturamis_value take an answer apart.
 *
 * Buffers. No pointer may be NULL. No two of the things lent to one call may overlap, except the memory and the ROM of a draw, which are
 * only read; nor may anybody else write them meanwhile. A length is the number of bytes that may be touched from its pointer on. Any length
 * may be given: one that is not right is refused by number, and then no byte of any buffer is touched. So a buffer of length 0 is never
 * looked into, but its pointer must still not be NULL: any other address will do. No buffer need be aligned.
 *
 * Threads. There is nothing global: what a call does and answers depends on what it is lent and on nothing else. A processor and its
 * buffers belong to one caller at a time; callers with buffers of their own may call at the same time.
 */
#ifndef BINTURAMIS_H
#define BINTURAMIS_H

#include <stddef.h>
#include <stdint.h>

/* The version of the library and of this header. */
#define BINTURAMIS_VERSION_MAJOR 0u
#define BINTURAMIS_VERSION_MINOR 7u
#define BINTURAMIS_VERSION_PATCH 0u
#define BINTURAMIS_VERSION "0.7.0"

/*
 * The bytes of each thing that is lent. Memory and ROM have these of an EF9345 with 16 blocks. With fewer blocks its memory has
 * BINTURAMIS_BLOCK_BYTES for each; a TS9347 has the two that are named after it. The picture has these in 40 columns, and
 * BINTURAMIS_80_PICTURE_BYTES in 80.
 */
#define BINTURAMIS_PROCESSOR_BYTES 64u
#define BINTURAMIS_MEMORY_BYTES 16384u
#define BINTURAMIS_ROM_BYTES 6400u
#define BINTURAMIS_PICTURE_BYTES 40000u
#define BINTURAMIS_STATE_BYTES 48u
#define BINTURAMIS_TS9347_MEMORY_BYTES 32768u
#define BINTURAMIS_TS9347_ROM_BYTES 3840u

/* The numbers of the parts. */
#define BINTURAMIS_EF9345 0u
#define BINTURAMIS_TS9347 1u

/* A block of the private memory, and how many of them each board has: the first three are an EF9345's, the last is a TS9347's. */
#define BINTURAMIS_BLOCK_BYTES 1024u
#define BINTURAMIS_BOARD_2 2u
#define BINTURAMIS_BOARD_8 8u
#define BINTURAMIS_BOARD_16 16u
#define BINTURAMIS_BOARD_32 32u

/*
 * The picture in 40 columns: 25 rows of ten lines, row r in the 1,600 bytes from 1,600 * r. A line is 160 bytes, two pixels a byte, the
 * left pixel in the low four bits: 320 by 250 pixels, cells of eight by ten.
 */
#define BINTURAMIS_ROWS 25u
#define BINTURAMIS_COLUMNS 40u
#define BINTURAMIS_ROW_BYTES 1600u
#define BINTURAMIS_ROW_LINES 10u
#define BINTURAMIS_LINE_BYTES 160u

/*
 * The picture in 80 columns, which only an EF9345 has: again 25 rows of ten lines, row r in the 2,400 bytes from 2,400 * r. A line is 240
 * bytes, packed in the same way: 480 by 250 pixels, cells of six by ten.
 */
#define BINTURAMIS_80_COLUMNS 80u
#define BINTURAMIS_80_PICTURE_BYTES 60000u
#define BINTURAMIS_80_ROW_BYTES 2400u
#define BINTURAMIS_80_LINE_BYTES 240u

/*
 * The ROM: sets of 128 characters of ten slices. An EF9345 has five, in the order G0, G10, G11, G20, G21; a TS9347 has three, in the
 * order G10, GOE, G0, a blank standing where the part has no character. The slice s of character c of a set is at
 * 1280 * set + 10 * c + s, the first set being 0; its bit 0 is the leftmost pixel. In 80 columns characters are of G0, and their bits 0 to
 * 5 are shown.
 */
#define BINTURAMIS_SET_BYTES 1280u
#define BINTURAMIS_SLICES 10u

/*
 * Refusals. An access (write, read) is checked in the order 1, 2, 10, 3, 4, 11; a step by 1 alone; a phase change in the order 1, 9; a draw
 * in the order 1, 5, 7, 6, 8; power-up of a board in the order 14, 12. The first that applies is answered. After 3, 4 and 11 the register
 * access itself has happened, and nothing else: a refused read still answers the value read. After 12 and 14 the processor is an EF9345
 * with 16 blocks. After every other refusal nothing at all has changed, and the value is 0. Where nothing has changed (1, 2, 5 to 10, and
 * 3, 4 and 11 of a read, which writes no register) no byte of the processor is written either, whatever it holds.
 *
 * 4 looks at the pointer that the command uses, and of a move at both.
 *
 * 10 is answered while a move runs, to every access but two: a read of R0 at BINTURAMIS_R0, which is the status, and a NOP, 0x90 or 0x91,
 * written to BINTURAMIS_R0 + BINTURAMIS_EXECUTE, which ends the move. A step, a phase change and a draw never get it.
 *
 * 11 looks at every byte of the command, of its read forms too: KRF has three, in the blocks Z, Z + 1 and Z + 2 of the pointer's
 * district; KRL has two, in the pointer's own block and in that of the attributes; OCT has one. IND and NOP have none. A move has its bytes
 * at both pointers: MVB one at each, in block Z; MVD two, in Z and Z + 1; MVT three, as KRF. So on the board of 2 blocks, where no district
 * is whole, KRF, KRL and MVT are always refused, OCT stores, MVB moves within and between blocks 0 and 1, and MVD with both pointers at
 * block 0. A TS9347 never gets 11.
 */
#define BINTURAMIS_ACCEPTED 0u
#define BINTURAMIS_WRONG_MEMORY 1u  /* private memory is not 1,024 bytes for each block of the board */
#define BINTURAMIS_WRONG_ADDRESS 2u /* the address's high four bits are not 2 */
#define BINTURAMIS_NOT_LISTED 3u    /* a command to execute is not one of those below */
#define BINTURAMIS_BAD_POINTER 4u   /* its pointer, or either one of a move, has X above 39 or Y from 1 to 7 */
#define BINTURAMIS_WRONG_ROM 5u     /* ROM is not 6,400 bytes, or 3,840 of a TS9347 */
#define BINTURAMIS_WRONG_PICTURE 6u /* picture is not 40,000 bytes, or 60,000 in 80 columns */
#define BINTURAMIS_NOT_BUILT 7u     /* TGS bits 7, 6 or 5, or PAT bit 7, not zero; of an EF9345 with TGS 7 and 6 both set, TGS 5 or PAT 7 */
#define BINTURAMIS_LOW_ORIGIN 8u    /* origin YOR below 8 */
#define BINTURAMIS_WRONG_PHASE 9u   /* phase is not 0 or 1 */
#define BINTURAMIS_BUSY 10u         /* a move runs, and the access is neither a status read nor a NOP that ends it, as said above */
#define BINTURAMIS_NOT_FITTED 11u   /* one of its bytes lies in a block that is not fitted */
#define BINTURAMIS_WRONG_BOARD 12u  /* the number of blocks is not 2, 8 or 16 of an EF9345, or 32 of a TS9347 */
#define BINTURAMIS_UNKNOWN_PART 14u /* the part is not one of the two above */

/*
 * The pointers. The main one is R6 and R7, the auxiliary one R4 and R5: Y in bits 4 to 0 of the first, X in bits 5 to 0 of the second,
 * whose bit 7 is Z0 and bit 6 is Z1. Of a TS9347 bits 7, 6 and 5 of the first are Z4, Z3 and Z2, in both pointers alike. Of an EF9345 bit 5
 * is Z2 and Z3 is bit 7 of R6 for the main pointer, and bit 6 of R6, not of R4, for the auxiliary one. The page begins in an even block:
 * its Z3, Z2 and Z1 are bits 7, 6 and 5 of ROR, and of a TS9347 its Z4 is bit 7 of DOR.
 *
 * The types of a cell in 40 columns, by bits 7 to 4 of B; U is underline, and s is the last figure of G'10 or G'11.
 *
 *     EF9345                                             TS9347
 *     000U G0, 0010 G10, 0011 G11, 010U G20, 011U G21    0-0U G0, 0-10 G10, 0-11 GOE, where bit 6 is not looked at
 *     100U user G'0, in block DOR 3..0                   the same
 *     101s user G'1s, in block 2 * DOR 6..4 + s          the same
 *     11-- quadrichrome, in block 8 * DOR 7 + B 5..3     user Q, in block 8 * DOR 7 + B 5..3: bichrome, never of double width
 */

/* The addresses of the registers. BINTURAMIS_EXECUTE added to one asks for the command in R0 to run after the access. */
#define BINTURAMIS_R0 0x20u /* written: the command; read: the status */
#define BINTURAMIS_R1 0x21u
#define BINTURAMIS_R2 0x22u
#define BINTURAMIS_R3 0x23u
#define BINTURAMIS_R4 0x24u
#define BINTURAMIS_R5 0x25u
#define BINTURAMIS_R6 0x26u
#define BINTURAMIS_R7 0x27u
#define BINTURAMIS_EXECUTE 0x08u

/* The bits of the status. Every command but a move finishes at once. */
#define BINTURAMIS_STATUS_BUSY 0x80u /* a move runs */
#define BINTURAMIS_STATUS_LX 0x40u  /* either of the two below */
#define BINTURAMIS_STATUS_LXM 0x20u /* the main pointer's X went from 39 to 0 */
#define BINTURAMIS_STATUS_LXA 0x10u /* the auxiliary pointer's X did */

/* The commands. A byte that is no sum of these as its line says gets refusal 3. */
#define BINTURAMIS_KRF 0x00u /* R1, R2, R3 (C, B, A) with the cell at the main pointer; INCREMENT, READ may be added */
#define BINTURAMIS_OCT 0x30u /* R1 with one byte; INCREMENT, AUXILIARY, READ may be added */
#define BINTURAMIS_KRL 0x50u /* R1 and R3 with one of the two cells of a column, at the main pointer; INCREMENT, READ may be added */
#define BINTURAMIS_IND 0x80u /* R1 with an indirect register, whose number is added; READ may be added */
#define BINTURAMIS_NOP 0x91u /* nothing, but that it ends a move; 0x90 is the same */
#define BINTURAMIS_MVB 0xD0u /* a move of 1 byte a step; FROM_MAIN or FROM_AUXILIARY, and STOP or NO_STOP, must be added */
#define BINTURAMIS_MVD 0xE0u /* the same of 2 bytes */
#define BINTURAMIS_MVT 0xF0u /* the same of 3 bytes, a whole cell */
#define BINTURAMIS_INCREMENT 0x01u
#define BINTURAMIS_AUXILIARY 0x04u
#define BINTURAMIS_READ 0x08u
#define BINTURAMIS_FROM_MAIN 0x04u      /* the main pointer is the source, the auxiliary one the destination */
#define BINTURAMIS_FROM_AUXILIARY 0x08u /* the other way round */
#define BINTURAMIS_STOP 0x01u           /* the move ends with its row */
#define BINTURAMIS_NO_STOP 0x02u        /* it runs on until a NOP */

/*
 * KRL is the EF9345's alone: a TS9347 refuses it with 3. It is for 80 columns, where the cell of position p, 0 to 79, is one of the two of
 * column X = p / 2. Z0 of the main pointer (R7 bit 7) is 0 for the left one, whose p is even, and 1 for the right one. R1 is C. The four
 * attributes are taken from the high half of R3 for the left cell and from the low half for the right one, so repeated in both they serve
 * either; a read puts them into both. With INCREMENT the pointer goes on to the next position, and from the last one of a row to its first.
 */

/*
 * Moves. MVB, MVD and MVT are the EF9345's alone: a TS9347 refuses them with 3. Executing one clears both LX bits and sets busy; nothing
 * has moved yet. Each binturamis_step then moves one character position: its 1, 2 or 3 bytes, one after another through R1, from the
 * source's X and Y in the blocks Z, Z + 1 and Z + 2 of its district to the destination's. A byte stored marks rows as that of any command
 * does, and is what a later read of the same step finds; R1 ends as the last byte moved. Then X of both pointers goes on, from 39 to 0, and
 * no LX bit is set.
 *
 * With STOP both Y stay, and the move ends with the step in which the source's or the destination's X was 39: within 40 steps. With NO_STOP
 * Y of the main pointer goes on when its X passes 39, from 31 to 8, while 0 stays 0; Y of the auxiliary pointer stays, and the move runs
 * until a NOP is written to BINTURAMIS_R0 + BINTURAMIS_EXECUTE. So with FROM_AUXILIARY one row is copied to row after row.
 *
 * While a move runs no register can be written, and none but the status read (refusal 10); a draw and a phase change do as ever. When it
 * has ended its byte is still the command, so that the next access at an address with BINTURAMIS_EXECUTE runs it again.
 */

/* The numbers of the indirect registers, for IND. */
#define BINTURAMIS_TGS 1u
#define BINTURAMIS_MAT 2u
#define BINTURAMIS_PAT 3u
#define BINTURAMIS_DOR 4u
#define BINTURAMIS_ROR 7u

/* The bits of TGS that say how many columns the page has: both set, 80, which a TS9347 refuses with 7; both clear, 40. */
#define BINTURAMIS_TGS_80 0xC0u

/* The colours of a pixel. */
#define BINTURAMIS_BLACK 0u
#define BINTURAMIS_RED 1u
#define BINTURAMIS_GREEN 2u
#define BINTURAMIS_YELLOW 3u
#define BINTURAMIS_BLUE 4u
#define BINTURAMIS_MAGENTA 5u
#define BINTURAMIS_CYAN 6u
#define BINTURAMIS_WHITE 7u

/* Where each part of the state stands among the 48 bytes of binturamis_state. The bytes past the blocks are 0. */
#define BINTURAMIS_STATE_R1 0u /* R1 to R7 in 0 to 6 */
#define BINTURAMIS_STATE_R2 1u
#define BINTURAMIS_STATE_R3 2u
#define BINTURAMIS_STATE_R4 3u
#define BINTURAMIS_STATE_R5 4u
#define BINTURAMIS_STATE_R6 5u
#define BINTURAMIS_STATE_R7 6u
#define BINTURAMIS_STATE_COMMAND 7u
#define BINTURAMIS_STATE_STATUS 8u /* as R0 is read, busy among the rest */
#define BINTURAMIS_STATE_TGS 9u
#define BINTURAMIS_STATE_MAT 10u
#define BINTURAMIS_STATE_PAT 11u
#define BINTURAMIS_STATE_DOR 12u
#define BINTURAMIS_STATE_ROR 13u
#define BINTURAMIS_STATE_PHASE 14u
#define BINTURAMIS_STATE_MARKS 15u /* row r at 15 + r, 1 if it is marked and else 0 */
#define BINTURAMIS_STATE_PART 40u  /* 0 an EF9345, 1 a TS9347 */
#define BINTURAMIS_STATE_BLOCKS 41u /* of the board: 2, 8 or 16 of an EF9345, 32 of a TS9347 */

#ifdef __cplusplus
extern "C" {
#endif

/*
 * A processor: the registers, whether a move runs, the marks, the phase, the part and the board. Its bytes are the library's; begin with
 * binturamis_power_up or binturamis_power_up_board, and copy it freely, together with the memory and the picture that it belongs to. Bytes
 * that no call has left mean the state that binturamis_state tells of them, its part and board among the rest, and get the answers of that
 * state; an accepted call then leaves bytes of its own for the state after it. A refusal after which nothing has changed writes no byte of
 * the processor.
 */
typedef struct {
    uint8_t bytes[64];
} binturamis_processor;

/*
 * Power-up of an EF9345 with 16 blocks: all registers and both LX bits 0, no move running, command 0x91, phase 0, every row marked. Memory
 * and picture may hold anything.
 */
void binturamis_power_up(binturamis_processor *p);

/*
 * The same of a part with so many blocks: an EF9345 with 2, 8 or 16, or a TS9347 with 32. Every later call lends 1,024 times as many bytes
 * of memory. The value is 0. Refusals: 14 for any other part, 12 for any other number of blocks; then the processor is an EF9345 with 16
 * blocks, and later calls must lend 16,384 bytes of memory, and draws 6,400 of ROM.
 */
uint32_t binturamis_power_up_board(binturamis_processor *p, uint8_t part, uint8_t blocks);

/* Writes the value to the register at the address, and then runs the command if the address asks for it. Refusals: 1, 2, 10, 3, 4, 11. */
uint32_t binturamis_write(binturamis_processor *p, uint8_t *memory, size_t memory_len, uint8_t address, uint8_t value);

/*
 * Reads the register at the address, and then runs the command if the address asks for it; so a read may store too. The value is the
 * register's from before the command, also with refusals 3, 4 and 11. Refusals: 1, 2, 10, 3, 4, 11.
 */
uint32_t binturamis_read(binturamis_processor *p, uint8_t *memory, size_t memory_len, uint8_t address);

/*
 * Lets the move that runs go on by one character position; while none runs it changes nothing. The value is 0: whether the move has ended
 * is told by busy, in the status. A processor whose bytes no call has left may be busy without a move that could run: then the step moves
 * nothing and clears busy. Refusals: 1.
 */
uint32_t binturamis_step(binturamis_processor *p, uint8_t *memory, size_t memory_len);

/* Sets the phase, 0 or 1, and marks the rows with a flashing cell if it has changed. Refusals: 1, 9. */
uint32_t binturamis_turn(binturamis_processor *p, const uint8_t *memory, size_t memory_len, uint8_t phase);

/*
 * Draws the marked rows into the picture, touches no other byte of it, and clears the marks. The value is the number of rows redrawn.
 * Which they are is told by the marks before the draw, from binturamis_state, and how long each is by its TGS. Refusals: 1, 5, 7, 6, 8.
 */
uint32_t binturamis_draw(binturamis_processor *p, const uint8_t *memory, size_t memory_len, const uint8_t *rom, size_t rom_len,
                         uint8_t *picture, size_t picture_len);

/* Tells the state in 48 bytes, at the offsets BINTURAMIS_STATE_. Nothing changes. */
void binturamis_state(const binturamis_processor *p, uint8_t out[48]);

/* The number of an answer: 0, or the refusal's. */
static inline uint32_t binturamis_number(uint32_t answer)
{
    return answer / 65536u;
}

/* The value of an answer: the register read, or the rows redrawn. */
static inline uint16_t binturamis_value(uint32_t answer)
{
    return (uint16_t)(answer % 65536u);
}

#ifdef __cplusplus
}
#endif

#endif
