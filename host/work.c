/*
 * One piece of work, N times: `host/bench` counts the instructions of two values of N and takes the difference.
 * Compiled with -DSECOND it is the C implementation's, else the library's.
 *
 *   work WHAT SIZE N          does it
 *   work WHAT SIZE N time     does it five times and prints the least time of one, in nanoseconds
 *   work WHAT stores          writes a message of each size from 0 to 256 bytes and one of 4,096, for a trace of what that stores (host/stores.awk)
 *   work WHAT times           prints for each size from 0 to 256 bytes the least time of writing it
 *   work sizes                prints the bytes of a unit and of a controller
 */
#include <stdbool.h>
#include <stddef.h>
#include <stdint.h>
#include <stdio.h>
#include <stdlib.h>
#include <string.h>
#include <time.h>

#ifdef SECOND
#include "second/second.h"
typedef struct second_unit unit;
typedef struct second_controller controller;

static void make_unit(unit *u, uint8_t own) { second_unit_make(u, own, 20); }
static void make_controller(controller *c, uint32_t timeout) { second_controller_make(c, timeout); }
static uint32_t step_unit(unit *u, bool bav, bool hsk, uint8_t nibble, uint8_t *command, uint8_t *input, uint8_t *output, size_t room)
{
    return (uint32_t)second_unit_step(u, (struct second_levels){ bav, hsk, nibble }, false, command, 256, input, output, room);
}
static uint32_t cursor(const unit *u)
{
    struct second_screen_view v = second_screen_look(&u->screen);
    return 80u * v.row + v.column;
}
static uint32_t unit_pulls(const unit *u)
{
    struct second_pulls p = second_unit_pulls(u);
    return (uint32_t)p.nibble + 16u * p.hsk + 32u * p.bav;
}
static uint32_t feed(unit *u, uint8_t *input, uint8_t b) { return (uint32_t)second_unit_feed(u, input, b); }
static uint32_t raise_request(unit *u) { return (uint32_t)second_unit_raise(u); }
static uint32_t step_controller(controller *c, bool bav, bool hsk, uint8_t nibble, const uint8_t *data, size_t n, uint8_t *response, size_t room)
{
    struct second_event e = second_controller_step(c, (struct second_levels){ bav, hsk, nibble }, false, data, n, response, room);
    return e.refusal + 16u * e.what;
}
static uint32_t controller_pulls(const controller *c)
{
    struct second_pulls p = second_controller_pulls(c);
    return (uint32_t)p.nibble + 16u * p.hsk + 32u * p.bav;
}
static uint32_t submit(controller *c, uint8_t device, uint8_t command, uint16_t buffer, size_t n, size_t room)
{
    return (uint32_t)second_submit(c, &(struct second_command){ device, command, 0, 0, buffer }, n, room);
}
static uint32_t write_command(const uint8_t *data, size_t n, uint8_t *out, size_t room)
{
    return (uint32_t)second_write_command(&(struct second_command){ 20, 4, 1, 2, 3 }, data, n, out, room);
}
static uint32_t read_command(const uint8_t *message, size_t n)
{
    struct second_command k;
    struct second_part part;
    return (uint32_t)second_read_command(message, n, &k, &part);
}
static uint32_t write_response(const uint8_t *data, size_t n, uint8_t *out, size_t room) { return (uint32_t)second_write_response(data, n, 0, out, room); }
static uint32_t read_response(const uint8_t *message, size_t n)
{
    uint8_t status;
    struct second_part part;
    return (uint32_t)second_read_response(message, n, &status, &part);
}
#else
#include "../include/hexbus.h"
typedef hexbus_unit unit;
typedef hexbus_controller controller;

static void make_unit(unit *u, uint8_t own) { hexbus_unit_make(u, own, 20); }
static void make_controller(controller *c, uint32_t timeout) { hexbus_controller_make(c, timeout); }
static uint32_t step_unit(unit *u, bool bav, bool hsk, uint8_t nibble, uint8_t *command, uint8_t *input, uint8_t *output, size_t room)
{
    return hexbus_unit_step(u, bav, hsk, nibble, false, command, 256, input, output, room);
}
static uint32_t cursor(const unit *u)
{
    hexbus_screen_looks l;
    hexbus_screen_look(u, &l);
    return 80u * l.row + l.column;
}
static uint32_t unit_pulls(const unit *u) { return hexbus_unit_pulls(u); }
static uint32_t feed(unit *u, uint8_t *input, uint8_t b) { return hexbus_unit_feed(u, input, b); }
static uint32_t raise_request(unit *u) { return hexbus_unit_raise(u); }
static uint32_t step_controller(controller *c, bool bav, bool hsk, uint8_t nibble, const uint8_t *data, size_t n, uint8_t *response, size_t room)
{
    hexbus_event e;
    uint32_t refusal = hexbus_controller_step(c, bav, hsk, nibble, false, data, n, response, room, &e);
    return refusal + 16u * e.kind;
}
static uint32_t controller_pulls(const controller *c) { return hexbus_controller_pulls(c); }
static uint32_t submit(controller *c, uint8_t device, uint8_t command, uint16_t buffer, size_t n, size_t room)
{
    static const uint8_t lent[65536];

    return hexbus_controller_submit(c, &(hexbus_command){ device, command, 0, 0, buffer, 0 }, lent, n, lent, room);
}
static uint32_t write_command(const uint8_t *data, size_t n, uint8_t *out, size_t room)
{
    return hexbus_command_write(&(hexbus_command){ 20, 4, 1, 2, 3, 0 }, data, n, out, room);
}
static uint32_t read_command(const uint8_t *message, size_t n)
{
    hexbus_command k;
    return hexbus_command_read(message, n, &k);
}
static uint32_t write_response(const uint8_t *data, size_t n, uint8_t *out, size_t room) { return hexbus_response_write(0, data, n, out, room); }
static uint32_t read_response(const uint8_t *message, size_t n)
{
    hexbus_response r;
    return hexbus_response_read(message, n, &r);
}
#endif

/* The most units on a bus, and the code of the first; the others have the codes behind it. All of them are serial units. */
enum { MOST = 16, FIRST = 100 };

static uint8_t data[65536], response[65536], message[65536 + 16];
static uint8_t command[MOST][256], input[MOST][256], output[MOST][256];
static unit units[MOST];
static controller master;
static volatile uint32_t sink;

/* A round of the bus. */
static uint32_t round_of(size_t count, size_t n, size_t room)
{
    uint32_t all = controller_pulls(&master);
    uint32_t nibble = all & 15u, lines = all & 48u, answer;

    for (size_t i = 0; i < count; i++) {
        uint32_t p = unit_pulls(&units[i]);

        nibble &= p & 15u;
        lines |= p & 48u;
    }
    for (size_t i = 0; i < count; i++)
        step_unit(&units[i], (lines & 32u) != 0, (lines & 16u) != 0, (uint8_t)nibble, command[i], input[i], output[i], sizeof output[i]);
    answer = step_controller(&master, (lines & 32u) != 0, (lines & 16u) != 0, (uint8_t)nibble, data, n, response, room);
    return answer;
}

/* Stops where the work is not what its name says: a figure for something else would be worse than none. */
static void must(bool holds, const char *what)
{
    if (holds)
        return;
    fprintf(stderr, "work: %s\n", what);
    exit(2);
}

/* Rounds until the frame that runs has ended, and the two of its rest; whether it ended as it should: 1 is an end, 2 a request handed over. */
static void frame_ends(size_t count, size_t n, size_t room, uint32_t as)
{
    uint32_t answer;

    do
        answer = round_of(count, n, room);
    while (answer == 0);
    must(answer == 16 * as, "a frame does not end as it should");
    round_of(count, 0, 0);
    round_of(count, 0, 0);
}

static void frame(size_t count, uint8_t device, uint8_t code, uint16_t buffer, size_t n, size_t room)
{
    must(submit(&master, device, code, buffer, n, room) == 0, "a command is refused");
    frame_ends(count, n, room, 1);
}

static void make_bus(size_t count)
{
    make_controller(&master, 8);
    for (size_t i = 0; i < count; i++)
        make_unit(&units[i], (uint8_t)(FIRST + i));
    data[0] = 0x80;
    data[1] = 0;
    data[2] = 0xC0;
    if (count > 0)
        frame(count, FIRST, 0x00, 4, 3, 4);
}

/* ---- Steps ------------------------------------------------------------- */

static uint32_t step(bool bav, bool hsk, uint8_t nibble)
{
    return step_unit(&units[0], bav, hsk, nibble, command[0], input[0], output[0], sizeof output[0]);
}

/* HSK as the other end of a handshake shows it: low in two rounds of four. */
static bool low(long i)
{
    return i % 4 == 1 || i % 4 == 2;
}

/* A command's header sent to a unit that is alone, four rounds to a nibble. */
static void send(const uint8_t header[9])
{
    step(true, false, 15);
    for (size_t i = 0; i < 72; i++)
        step(true, low((long)i), i % 4 == 0 ? 15 : (uint8_t)(header[i / 8] >> 4 * (i / 4 % 2) & 15u));
}

/* What is pulled in four rounds of a handshake. */
static uint32_t pulled_by_unit(void)
{
    uint32_t all = 0;

    for (long i = 0; i < 4; i++) {
        step(true, low(i), 15);
        all |= unit_pulls(&units[0]);
    }
    return all;
}

static void unit_idle(size_t size, long n)
{
    (void)size;
    for (long i = 0; i < n; i++)
        sink = step(false, false, 15);
}

static void unit_sitting_out(size_t size, long n)
{
    static const uint8_t other[9] = { 99, 4, 0, 0, 0, 0, 0, 0, 0 };

    (void)size;
    send(other);
    for (long i = 0; i < n; i++)
        sink = step(true, low(i), 7);
    must((pulled_by_unit() & 48u) == 0, "the unit does not sit out");
}

/* 65,535 data bytes are announced; before the last of them comes the unit is set back. */
static void unit_listening(size_t size, long n)
{
    static const uint8_t huge[9] = { FIRST, 4, 0, 0, 0, 0, 0, 0xFF, 0xFF };
    unit kept;

    (void)size;
    send(huge);
    kept = units[0];
    for (long i = 0; i < n; i++) {
        if (i % 400000 == 0)
            units[0] = kept;
        sink = step(true, low(i), (uint8_t)(i & 15));
    }
    must((pulled_by_unit() & 16u) != 0, "the unit does not listen");
}

/* A read of 128 bytes is answered; before the last nibble the unit is set back. */
static void unit_responding(size_t size, long n)
{
    unit kept;

    (void)size;
    make_bus(1);
    for (int i = 0; i < 128; i++)
        feed(&units[0], input[0], (uint8_t)i);
    must(submit(&master, FIRST, 0x03, 128, 0, 128) == 0, "a command is refused");
    for (int i = 0; i < 72 + 8; i++)
        round_of(1, 0, 128);
    kept = units[0];
    for (long i = 0; i < n; i++) {
        if (i % 900 == 0)
            units[0] = kept;
        sink = step(true, low(i), 15);
    }
    must((pulled_by_unit() & 16u) != 0, "the unit does not respond");
}

static void controller_idle(size_t size, long n)
{
    (void)size;
    make_controller(&master, 200);
    for (long i = 0; i < n; i++)
        sink = step_controller(&master, false, false, 15, data, 0, response, 0);
}

static void controller_sending(size_t size, long n)
{
    controller kept;

    (void)size;
    make_controller(&master, 200);
    submit(&master, FIRST, 4, 0, 65535, 0);
    kept = master;
    for (long i = 0; i < n; i++) {
        if (i % 400000 == 0)
            master = kept;
        sink = step_controller(&master, true, low(i), 15, data, 65535, response, 0);
    }
    must((controller_pulls(&master) & 32u) != 0, "the controller does not send");
}

/* A response of 65,535 data bytes: its length is taken first. */
static void controller_listening(size_t size, long n)
{
    controller kept;

    (void)size;
    make_controller(&master, 65535);
    submit(&master, FIRST, 3, 65535, 0, 65535);
    for (int i = 0; i < 3 + 3 * 18; i++)
        step_controller(&master, true, false, 15, data, 0, response, 65535);
    for (int i = 0; i < 16; i++)
        step_controller(&master, true, low(i), 15, data, 0, response, 65535);
    kept = master;
    for (long i = 0; i < n; i++) {
        if (i % 400000 == 0)
            master = kept;
        sink = step_controller(&master, true, low(i), (uint8_t)(i & 15), data, 0, response, 65535);
    }
    must((controller_pulls(&master) & 32u) != 0, "the controller does not listen");
}

/* ---- Frames and rounds ------------------------------------------------- */

/* The bus as it stands, before each frame again. */
static unit kept_unit;
static controller kept_master;

static void keep(void)
{
    kept_unit = units[0];
    kept_master = master;
}

static void again(void)
{
    units[0] = kept_unit;
    master = kept_master;
}

static void frame_write(size_t size, long n)
{
    make_bus(1);
    keep();
    for (long i = 0; i < n; i++) {
        again();
        frame(1, FIRST, 0x04, 0, size, 0);
    }
}

static void frame_read(size_t size, long n)
{
    make_bus(1);
    for (size_t i = 0; i < size; i++)
        must(feed(&units[0], input[0], (uint8_t)i) == 0, "a byte is refused");
    keep();
    for (long i = 0; i < n; i++) {
        again();
        frame(1, FIRST, 0x03, (uint16_t)size, 0, size);
    }
}

static void frame_enable(size_t size, long n)
{
    (void)size;
    make_bus(1);
    keep();
    for (long i = 0; i < n; i++) {
        again();
        frame(1, FIRST, 0x08, 0, 0, 0);
    }
}

/* A service frame: from the unit's pull of BAV to its request handed over, and the rest. */
static void frame_service(size_t size, long n)
{
    (void)size;
    make_bus(1);
    frame(1, FIRST, 0x08, 0, 0, 0);
    must(raise_request(&units[0]) == 0, "a request is refused");
    while ((unit_pulls(&units[0]) & 32u) == 0)
        round_of(1, 0, 0);
    keep();
    for (long i = 0; i < n; i++) {
        again();
        frame_ends(1, 0, 0, 2);
    }
}

static void round_idle(size_t size, long n)
{
    make_bus(size);
    for (long i = 0; i < n; i++)
        sink = round_of(size, 0, 0);
}

/* A frame of 99 rounds with its answer, two of rest, and the next one is submitted. */
static void round_in_frames(size_t size, long n)
{
    make_bus(size);
    for (long i = 0; i < n; i++) {
        if (i % 101 == 0)
            must(submit(&master, FIRST, 0x09, 0, 0, 0) == 0, "a command is refused");
        sink = round_of(size, 0, 0);
    }
}

/* ---- Screens ----------------------------------------------------------- */

enum { SCREEN = 30, TEXT = 256 };
static uint8_t cells[24 * 80], text[TEXT];

static uint32_t screen_step(bool bav, bool hsk, uint8_t nibble)
{
    return step_unit(&units[0], bav, hsk, nibble, command[0], input[0], cells, sizeof cells);
}

/* So many nibbles of a command to a video unit that is alone, three rounds to a nibble. */
static void send_screen(uint8_t code, const uint8_t *bytes, size_t size, size_t nibbles)
{
    const uint8_t header[9] = { SCREEN, code, 0, 0, 0, 4, 0, (uint8_t)size, (uint8_t)(size >> 8) };

    screen_step(false, false, 15);
    screen_step(true, false, 15);
    for (size_t i = 0; i < nibbles; i++) {
        uint8_t nibble = (uint8_t)((i < 18 ? header[i / 2] : bytes[i / 2 - 9]) >> 4 * (i % 2) & 15);

        screen_step(true, true, nibble);
        screen_step(true, true, nibble);
        screen_step(true, false, 15);
    }
}

/* The step that takes the last nibble of a write, on a screen that is open with its cursor there; where the cursor is then. */
static void screen_write(size_t size, long n, uint8_t row, uint32_t then)
{
    static const uint8_t opening[3] = { 80, 0, 0xC0 };
    const uint8_t place[4] = { 0x1B, '=', row, 0 }, last = size > 0 ? text[size - 1] >> 4 : 0;
    unit kept;

    must(size <= TEXT, "a text is longer than 256 bytes");
    make_unit(&units[0], SCREEN);
    send_screen(0x00, opening, 3, 24);
    send_screen(0x04, place, 4, 26);
    send_screen(0x04, text, size, 2 * (9 + size) - 1);
    kept = units[0];
    for (long i = 0; i < n; i++) {
        units[0] = kept;
        sink = screen_step(true, true, last);
    }
    must(cursor(&units[0]) == then, "the text is not written");
}

/* Characters from the upper left corner on. */
static void screen_text(size_t size, long n)
{
    memset(text, 'a', TEXT);
    screen_write(size, n, 0, (uint32_t)size);
}

/* The same in lines of 14, each with its carriage return and line feed. */
static void screen_lines(size_t size, long n)
{
    memset(text, 'a', TEXT);
    for (size_t i = 16; i <= TEXT; i += 16)
        memcpy(text + i - 2, "\r\n", 2);
    screen_write(size, n, 0, (uint32_t)(size / 16 * 80 + size % 16));
}

static void screen_cursor(size_t size, long n)
{
    for (size_t i = 0; i < TEXT; i += 4)
        memcpy(text + i, (const uint8_t[4]){ 0x1B, '=', 7, (uint8_t)(i / 4) }, 4);
    screen_write(size, n, 0, size < 4 ? 0 : (uint32_t)(7 * 80 + size / 4 - 1));
}

/* Line feeds on the last line. */
static void screen_scroll(size_t size, long n)
{
    memset(text, '\n', TEXT);
    screen_write(size, n, 23, 23 * 80);
}

/* ---- Messages ---------------------------------------------------------- */

static void command_write(size_t size, long n)
{
    for (long i = 0; i < n; i++)
        sink = write_command(data, size, message, sizeof message);
}

static void command_read(size_t size, long n)
{
    must(write_command(data, size, message, sizeof message) == 0, "a message is refused");
    for (long i = 0; i < n; i++)
        sink = read_command(message, 9 + size);
}

static void response_write(size_t size, long n)
{
    for (long i = 0; i < n; i++)
        sink = write_response(data, size, message, sizeof message);
}

static void response_read(size_t size, long n)
{
    must(write_response(data, size, message, sizeof message) == 0, "a message is refused");
    for (long i = 0; i < n; i++)
        sink = read_response(message, 3 + size);
}

/* This file's own code stands between these (`host/bench`). */
extern const char __start_harness[], __stop_harness[];
static volatile uint32_t mark;

/* A store to `mark` begins each call, and one ends it. The first line says where a trace finds `mark`, this code and the message. */
__attribute__((noinline)) static void stores(uint32_t (*write)(const uint8_t *data, size_t n, uint8_t *out, size_t room))
{
    printf("%08lx %08lx %08lx %08lx %08lx\n", (unsigned long)(uintptr_t)&mark, (unsigned long)(uintptr_t)__start_harness,
           (unsigned long)(uintptr_t)__stop_harness, (unsigned long)(uintptr_t)message, (unsigned long)(uintptr_t)(message + sizeof message));
    must(write(data, 1, message, sizeof message) == 0, "a message is refused");
    for (size_t n = 0; n <= 4096; n = n == 256 ? 4096 : n + 1) {
        mark = 1;
        sink = write(data, n, message, sizeof message);
        mark = 0;
    }
}

static const struct {
    const char *what;
    void (*does)(size_t size, long n);
} works[] = {
    { "unit-idle", unit_idle }, { "unit-listening", unit_listening }, { "unit-responding", unit_responding },
    { "unit-sitting-out", unit_sitting_out }, { "controller-idle", controller_idle }, { "controller-sending", controller_sending },
    { "controller-listening", controller_listening }, { "frame-write", frame_write }, { "frame-read", frame_read },
    { "frame-enable", frame_enable }, { "frame-service", frame_service }, { "round-idle", round_idle }, { "round-in-frames", round_in_frames },
    { "screen-text", screen_text }, { "screen-lines", screen_lines }, { "screen-cursor", screen_cursor }, { "screen-scroll", screen_scroll },
    { "command-write", command_write }, { "command-read", command_read }, { "response-write", response_write },
    { "response-read", response_read },
};

/* A new unit each time. */
static double nanoseconds(size_t which, size_t size, long n)
{
    clock_t begin;

    make_unit(&units[0], FIRST);
    begin = clock();
    works[which].does(size, n);
    return (double)(clock() - begin) * 1e9 / CLOCKS_PER_SEC / (double)n;
}

static double least_time(size_t which, size_t size, long n, int runs)
{
    double least = nanoseconds(which, size, n);

    while (--runs > 0) {
        double t = nanoseconds(which, size, n);

        least = t < least ? t : least;
    }
    return least;
}

int main(int argc, char **argv)
{
    size_t which = 0, size;
    long n;

    if (argc == 2 && strcmp(argv[1], "sizes") == 0) {
        printf("%zu %zu\n", sizeof(unit), sizeof(controller));
        return 0;
    }
    if (argc == 3 && strcmp(argv[2], "stores") == 0) {
        must(strcmp(argv[1], "command-write") == 0 || strcmp(argv[1], "response-write") == 0, "what this stores is not counted");
        stores(argv[1][0] == 'c' ? write_command : write_response);
        return 0;
    }
    must(argc >= 3, "work WHAT SIZE N [time]");
    while (which < sizeof works / sizeof works[0] && strcmp(works[which].what, argv[1]) != 0)
        which++;
    must(which < sizeof works / sizeof works[0], "this is not measured");
    if (strcmp(argv[2], "times") == 0) {
        for (size = 0; size <= 256; size++)
            printf("%zu %.2f\n", size, least_time(which, size, 50000, 3));
        return 0;
    }
    must(argc >= 4, "work WHAT SIZE N [time]");
    size = strtoul(argv[2], NULL, 10);
    n = atol(argv[3]);
    if (argc > 4) {
        printf("%.1f\n", least_time(which, size, n, 5));
        return 0;
    }
    make_unit(&units[0], FIRST);
    works[which].does(size, n);
    return 0;
}
