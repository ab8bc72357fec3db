/*
 * The bridge: carries out calls of the library for a program on a machine that cannot link it. It is compiled for x86-64, runs under an
 * emulator, and serves one call after the other over standard input and output. `host/binturamis` is the other end.
 *
 * It begins by writing its greeting. A request is a byte for the call, two operands, the 64 bytes of the processor, and then each buffer
 * that the call is lent: its length, a start and a count, and so many bytes, which replace those from the start on. A buffer is kept
 * between calls, so that only what has changed is sent; where it grows, it grows by zeros. An answer is the 64 bytes after the call, the
 * number that it answered, the 48 bytes of the state after it, and then for each buffer a start, a count and the bytes that the call changed.
 * Numbers are those of x86-64, low byte first: the answered one has four bytes and every other eight.
 */
#include <stdint.h>
#include <stdio.h>
#include <stdlib.h>
#include <string.h>

#include "binturamis.h"

/* Ends with a newline, and counts up when what goes over the pipes changes. */
#define GREETING "binturamis bridge 5\n"

/* The bytes past a buffer's length that no call may change either. */
#define SPARE 64

enum call { POWER_UP = 'P', POWER_UP_BOARD = 'B', WRITE = 'W', READ = 'R', STEP = 'M', TURN = 'T', DRAW = 'D', STATE = 'S' };

/* A lent buffer, and what the other end knows of it. The two are equal, but while a call's changes have not been sent. */
struct lent {
    uint8_t *bytes;
    uint8_t *known;
    size_t length;
    size_t room;
};

static struct lent memory;
static struct lent rom;
static struct lent picture;

static _Noreturn void fail(const char *what)
{
    fprintf(stderr, "bridge: %s\n", what);
    exit(1);
}

static void receive(void *to, size_t count)
{
    if (fread(to, 1, count, stdin) != count)
        fail("a request was cut short");
}

static void send(const void *from, size_t count)
{
    if (fwrite(from, 1, count, stdout) != count)
        fail("an answer cannot be written");
}

static uint8_t *grown(uint8_t *bytes, size_t from, size_t to)
{
    uint8_t *more = realloc(bytes, to);
    if (more == NULL)
        fail("a buffer is too long to be kept");
    memset(more + from, 0, to - from);
    return more;
}

static void resize(struct lent *buffer, size_t length)
{
    if (length > SIZE_MAX - SPARE)
        fail("a buffer is too long to be kept");
    if (length + SPARE > buffer->room) {
        buffer->bytes = grown(buffer->bytes, buffer->room, length + SPARE);
        buffer->known = grown(buffer->known, buffer->room, length + SPARE);
        buffer->room = length + SPARE;
    }
    if (length > buffer->length) {
        memset(buffer->bytes + buffer->length, 0, length - buffer->length);
        memset(buffer->known + buffer->length, 0, length - buffer->length);
    }
    buffer->length = length;
}

static void receive_buffer(struct lent *buffer)
{
    uint64_t numbers[3]; /* length, start, count */
    receive(numbers, sizeof numbers);
    resize(buffer, numbers[0]);
    if (numbers[1] > buffer->length || numbers[2] > buffer->length - numbers[1])
        fail("a request has bytes outside its buffer");
    receive(buffer->bytes + numbers[1], numbers[2]);
    memcpy(buffer->known + numbers[1], buffer->bytes + numbers[1], numbers[2]);
}

/* The bytes from the first to the last that the call has changed. */
static void send_changes(struct lent *buffer)
{
    size_t start = 0;
    size_t end = buffer->length + SPARE;
    if (memcmp(buffer->bytes, buffer->known, end) == 0)
        start = end = 0;
    while (start < end && buffer->bytes[start] == buffer->known[start])
        start++;
    while (start < end && buffer->bytes[end - 1] == buffer->known[end - 1])
        end--;
    if (end > buffer->length)
        fail("a call has changed a byte past the end of a buffer");
    uint64_t numbers[2] = {start, end - start};
    send(numbers, sizeof numbers);
    send(buffer->bytes + start, end - start);
    memcpy(buffer->known + start, buffer->bytes + start, end - start);
}

/* Does the same to each buffer that a call is lent, in the order of the call's arguments. */
static void each_lent(enum call call, void (*act)(struct lent *))
{
    if (call == WRITE || call == READ || call == STEP || call == TURN || call == DRAW)
        act(&memory);
    if (call == DRAW) {
        act(&rom);
        act(&picture);
    }
}

static uint32_t carry_out(enum call call, const uint8_t operands[2], binturamis_processor *p)
{
    switch (call) {
    case POWER_UP:
        binturamis_power_up(p);
        return 0;
    case POWER_UP_BOARD:
        return binturamis_power_up_board(p, operands[0], operands[1]);
    case WRITE:
        return binturamis_write(p, memory.bytes, memory.length, operands[0], operands[1]);
    case READ:
        return binturamis_read(p, memory.bytes, memory.length, operands[0]);
    case STEP:
        return binturamis_step(p, memory.bytes, memory.length);
    case TURN:
        return binturamis_turn(p, memory.bytes, memory.length, operands[0]);
    case DRAW:
        return binturamis_draw(p, memory.bytes, memory.length, rom.bytes, rom.length, picture.bytes, picture.length);
    case STATE:
        return 0;
    }
    fail("a request has no call that there is");
}

static void serve(enum call call)
{
    uint8_t operands[2];
    binturamis_processor p;
    uint8_t state[BINTURAMIS_STATE_BYTES];
    receive(operands, sizeof operands);
    receive(p.bytes, sizeof p.bytes);
    each_lent(call, receive_buffer);
    uint32_t answer = carry_out(call, operands, &p);
    binturamis_state(&p, state);
    send(p.bytes, sizeof p.bytes);
    send(&answer, sizeof answer);
    send(state, sizeof state);
    each_lent(call, send_changes);
    if (fflush(stdout) != 0)
        fail("an answer cannot be written");
}

int main(void)
{
    send(GREETING, strlen(GREETING));
    if (fflush(stdout) != 0)
        fail("the greeting cannot be written");
    for (int call = getchar(); call != EOF; call = getchar())
        serve((enum call)call);
    return 0;
}
