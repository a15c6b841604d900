/* The marked cases M1 to M10 of document 01, the video unit's and other worked examples. */
#include "second.h"

#include <stdio.h>
#include <string.h>

static unsigned failures;

#define CHECK(condition) check((condition), #condition, __LINE__)

static void check(bool holds, const char *text, int line)
{
    if (holds)
        return;
    failures++;
    printf("line %d: %s\n", line, text);
}

#define LENGTH(array) (sizeof(array) / sizeof((array)[0]))

/* ---- A small bus ------------------------------------------------------- */

enum { UNITS = 4, RESPONSE = 300, WIRE = 2 * (RESPONSE + 3) };

struct rig {
    struct second_controller controller;
    struct second_station stations[UNITS];
    uint8_t response[RESPONSE];
    uint8_t wire[WIRE];          /* nibbles placed by responding units */
    unsigned wired;
    unsigned rounds;
    bool busy;
};

static void rig_make(struct rig *rig, uint32_t time_out, uint32_t retry)
{
    memset(rig, 0, sizeof *rig);
    CHECK(second_controller_make(&rig->controller, time_out) == 0);
    for (unsigned i = 0; i < UNITS; i++)
        CHECK(second_unit_make(&rig->stations[i].unit, (uint8_t)(20 + i), retry) == 0);
}

static struct second_event rig_round(struct rig *rig, const uint8_t *data, size_t length)
{
    struct second_event event = second_bus_round(
        &rig->controller, rig->busy, data, length, rig->response, sizeof rig->response,
        rig->stations, UNITS);

    rig->rounds++;
    for (unsigned i = 0; i < UNITS; i++) {
        const struct second_unit *unit = &rig->stations[i].unit;

        if (unit->phase == SECOND_RESPONDING && unit->line.pulls.hsk
            && rig->wired < WIRE)
            rig->wire[rig->wired++] = unit->line.pulls.nibble;
    }
    return event;
}

/* Rounds until something happens; nothing if that takes too many. */
static struct second_event rig_run(struct rig *rig, const uint8_t *data, size_t length)
{
    struct second_event event = { .what = SECOND_NOTHING };

    rig->wired = 0;
    rig->rounds = 0;
    while (rig->rounds < 20000 && event.what == SECOND_NOTHING && event.refusal == 0)
        event = rig_round(rig, data, length);
    return event;
}

static void rig_rest(struct rig *rig, unsigned rounds)
{
    while (rounds-- > 0)
        CHECK(rig_round(rig, NULL, 0).what == SECOND_NOTHING);
}

static struct second_event rig_send(struct rig *rig, uint8_t device, uint8_t command,
                                    uint16_t buffer_length, const uint8_t *data,
                                    size_t length)
{
    struct second_command fields = { .device = device, .command = command,
                                     .logical_unit = 1, .buffer_length = buffer_length };

    while (!second_controller_look(&rig->controller).may_start)
        (void)rig_round(rig, NULL, 0);
    CHECK(second_submit(&rig->controller, &fields, length, sizeof rig->response) == 0);
    return rig_run(rig, data, length);
}

static uint8_t rig_status(struct rig *rig, uint8_t device, uint8_t command,
                          uint16_t buffer_length, const uint8_t *data, size_t length)
{
    struct second_event event = rig_send(rig, device, command, buffer_length, data, length);

    CHECK(event.refusal == 0 && event.what == SECOND_ENDED);
    return event.value;
}

/* The response on the wire is exactly these bytes, low nibble first. */
static bool wire_is(const struct rig *rig, const uint8_t *bytes, size_t length)
{
    if (rig->wired != 2 * length)
        return false;
    for (size_t i = 0; i < length; i++)
        if (rig->wire[2 * i] != (bytes[i] & 15) || rig->wire[2 * i + 1] != bytes[i] >> 4)
            return false;
    return true;
}

static const uint8_t update_80[] = { 0x50, 0x00, 0xC0 };

static void rig_open(struct rig *rig, uint8_t device, uint8_t attributes)
{
    uint8_t data[] = { 0, 0, attributes };

    CHECK(rig_status(rig, device, 0x00, 4, data, sizeof data) == 0);
}

/* ---- Messages ---------------------------------------------------------- */

static const uint8_t m1[] = { 0x14, 0x00, 0x01, 0x00, 0x00, 0x04, 0x00, 0x03, 0x00,
                              0x50, 0x00, 0xC0 };
static const struct second_command m1_fields = {
    .device = 20, .command = 0, .logical_unit = 1, .record = 0, .buffer_length = 4
};

static void check_messages(void)
{
    static uint8_t large[65536 + 16];
    uint8_t buffer[16];
    struct second_command fields;
    struct second_part part;
    uint8_t status;

    /* M1, and M1 of M10. */
    memset(buffer, 0xEE, sizeof buffer);
    CHECK(second_write_command(&m1_fields, update_80, 3, buffer, 11) == 11);
    CHECK(buffer[0] == 0xEE && buffer[9] == 0xEE);
    CHECK(second_write_command(&m1_fields, update_80, 3, buffer, 12) == 0);
    CHECK(memcmp(buffer, m1, sizeof m1) == 0 && buffer[12] == 0xEE);
    CHECK(second_command_nibble(&m1_fields, update_80, 3, 0) == 4);
    CHECK(second_command_nibble(&m1_fields, update_80, 3, 1) == 1);
    for (size_t i = 0; i < 2 * sizeof m1; i++)
        CHECK(second_command_nibble(&m1_fields, update_80, 3, i)
              == (i % 2 == 0 ? m1[i / 2] & 15 : m1[i / 2] >> 4));
    CHECK(second_command_nibble(&m1_fields, update_80, 3, 24) == 15);
    CHECK(second_read_command(m1, sizeof m1, &fields, &part) == 0);
    CHECK(fields.device == 20 && fields.command == 0 && fields.logical_unit == 1);
    CHECK(fields.record == 0 && fields.buffer_length == 4);
    CHECK(part.offset == 9 && part.length == 3);

    /* M10, and the same for responses. */
    CHECK(second_read_command(m1, 8, &fields, &part) == 9);
    CHECK(second_read_command((const uint8_t[9]){ 20, 0, 0, 0, 0, 0, 0, 1, 0 }, 9,
                              &fields, &part) == 10);
    CHECK(second_read_response((const uint8_t[2]){ 0, 0 }, 2, &status, &part) == 9);
    CHECK(second_read_response((const uint8_t[3]){ 1, 0, 0 }, 3, &status, &part) == 10);
    CHECK(second_read_response((const uint8_t[4]){ 1, 0, 7, 5 }, 4, &status, &part) == 0);
    CHECK(status == 5 && part.offset == 2 && part.length == 1);

    memset(buffer, 0xEE, sizeof buffer);
    CHECK(second_write_response(update_80, 3, 0x0F, buffer, 5) == 11);
    CHECK(second_write_response(update_80, 3, 0x0F, buffer, 6) == 0);
    CHECK(memcmp(buffer, (const uint8_t[7]){ 3, 0, 0x50, 0, 0xC0, 0x0F, 0xEE }, 7) == 0);
    for (size_t i = 0; i < 12; i++)
        CHECK(second_response_nibble(update_80, 3, 0x0F, i)
              == (i % 2 == 0 ? buffer[i / 2] & 15 : buffer[i / 2] >> 4));
    CHECK(second_response_nibble(update_80, 3, 0x0F, 12) == 15);

    CHECK(second_write_command(&m1_fields, large, 65536, large, 1) == 2);
    CHECK(second_write_response(large, 65536, 0, large, 1) == 2);
    CHECK(second_write_command(&m1_fields, large, 65535, large, sizeof large) == 0);
    CHECK(second_read_command(large, 65535 + 9, &fields, &part) == 0);
    CHECK(part.length == 65535);
}

static void check_classes(void)
{
    static const uint8_t ranges[][2] = {
        { 0, 0 }, { 1, 8 }, { 10, 11 }, { 12, 13 }, { 14, 15 }, { 16, 17 }, { 18, 19 },
        { 20, 23 }, { 30, 33 }, { 40, 43 }, { 50, 53 }, { 60, 67 }, { 70, 73 },
        { 80, 87 }, { 90, 93 }, { 94, 95 }, { 100, 109 }, { 110, 117 }, { 240, 244 },
        { 245, 254 }, { 255, 255 }
    };

    for (unsigned code = 0; code < 256; code++) {
        unsigned expected = 0;

        for (unsigned i = 0; i < LENGTH(ranges); i++)
            if (ranges[i][0] <= code && code <= ranges[i][1])
                expected = i + 1;
        CHECK(second_class((uint8_t)code) == expected);
    }
}

/* ---- The serial peripheral --------------------------------------------- */

static void check_open(void)
{
    static const struct {
        uint8_t data[4];
        uint8_t length, status, accepted;
        uint16_t buffer_length;
    } cases[] = {
        { { 0x50, 0, 0xC0 }, 2, 0x02, 0, 4 },              /* M4 */
        { { 0x50, 0, 0x00 }, 3, 0x13, 0, 4 },              /* M5 */
        { { 0x50, 0, 0xE0 }, 3, 0x11, 0, 4 },              /* M5 */
        { { 0x50, 0, 0x20 }, 3, 0x13, 0, 4 },              /* append before relative */
        { { 0x00, 0, 0x40 }, 3, 0x00, 128, 4 },            /* M6 with P5 */
        { { 0x80, 0, 0x80 }, 3, 0x00, 128, 4 },            /* M6 */
        { { 0x81, 0, 0xC0 }, 3, 0x0C, 0, 4 },              /* M6 */
        { { 0x00, 1, 0xC0 }, 3, 0x0C, 0, 4 },
        { { 0x50, 0, 0xC0 }, 3, 0x0C, 0, 3 },
        { { 0x50, 0, 0xC0, 'B' }, 4, 0x0C, 0, 3 },         /* 0C before 01 */
        { { 0x50, 0, 0xC0, 'B' }, 4, 0x01, 0, 4 },
        { { 0x01, 0, 0xDF }, 3, 0x00, 1, 65 },             /* bits 4-0 are ignored */
    };
    struct rig rig;

    for (unsigned i = 0; i < LENGTH(cases); i++) {
        struct second_unit_view view;

        rig_make(&rig, 200, 20);
        CHECK(rig_status(&rig, 20, 0x00, cases[i].buffer_length, cases[i].data,
                         cases[i].length) == cases[i].status);
        view = second_unit_look(&rig.stations[0].unit);
        CHECK(view.accepted == cases[i].accepted);
        CHECK(view.mode == (cases[i].status == 0 ? cases[i].data[2] >> 6 : 0));
    }

    /* M1 to M3 on the wire. */
    rig_make(&rig, 200, 20);
    CHECK(rig_status(&rig, 20, 0x00, 4, update_80, 3) == 0);
    CHECK(wire_is(&rig, (const uint8_t[]){ 4, 0, 0x50, 0, 0, 0, 0 }, 7));
    CHECK(memcmp(rig.response, (const uint8_t[]){ 0x50, 0, 0, 0, 0 }, 5) == 0);
    CHECK(memcmp(rig.stations[0].command, update_80, 3) == 0);
    CHECK(rig.stations[0].command[3] == 0);
    CHECK(rig_status(&rig, 20, 0x00, 4, update_80, 3) == 5);
    CHECK(wire_is(&rig, (const uint8_t[]){ 0, 0, 5 }, 3));
}

static void feed(struct second_station *station, const char *text)
{
    for (; *text != 0; text++)
        CHECK(second_unit_feed(&station->unit, station->input, (uint8_t)*text) == 0);
}

static void check_read(void)
{
    struct rig rig;
    struct second_station *station = &rig.stations[0];
    struct second_event event;

    /* M7, and a read of what is left. */
    rig_make(&rig, 200, 20);
    CHECK(second_unit_feed(&station->unit, station->input, 0x41) == 7);
    CHECK(rig_status(&rig, 20, 0x03, 5, NULL, 0) == 0x04);
    CHECK(rig_status(&rig, 20, 0x00, 4, update_80, 3) == 0);
    feed(station, "ABC");
    event = rig_send(&rig, 20, 0x03, 5, NULL, 0);
    CHECK(event.what == SECOND_ENDED && event.value == 0 && event.count == 3);
    CHECK(wire_is(&rig, (const uint8_t[]){ 3, 0, 0x41, 0x42, 0x43, 0 }, 6));
    feed(station, "ABC");
    (void)rig_send(&rig, 20, 0x03, 2, NULL, 0);
    CHECK(wire_is(&rig, (const uint8_t[]){ 2, 0, 0x41, 0x42, 0 }, 5));
    (void)rig_send(&rig, 20, 0x03, 2, NULL, 0);
    CHECK(wire_is(&rig, (const uint8_t[]){ 1, 0, 0x43, 0 }, 4));
    CHECK(station->unit.input.head == 6 && station->unit.input.count == 0);

    /* At most the accepted length; a full queue; room used again. */
    for (unsigned i = 0; i < 256; i++)
        CHECK(second_unit_feed(&station->unit, station->input, (uint8_t)i) == 0);
    CHECK(second_unit_feed(&station->unit, station->input, 0) == 6);
    event = rig_send(&rig, 20, 0x03, 300, NULL, 0);
    CHECK(event.count == 80 && rig.response[79] == 79);
    CHECK(second_unit_look(&station->unit).input_count == 176);

    /* Opened with 0, a record of 100 bytes is read at once (P5), and of 129 bytes 128. */
    CHECK(rig_status(&rig, 20, 0x01, 0, NULL, 0) == 0);
    rig_open(&rig, 20, 0x40);
    for (unsigned i = 0; i < 100; i++)
        CHECK(second_unit_feed(&station->unit, station->input, (uint8_t)(i + 1)) == 0);
    event = rig_send(&rig, 20, 0x03, 128, NULL, 0);
    CHECK(event.count == 100 && rig.response[0] == 1 && rig.response[99] == 100);
    for (unsigned i = 0; i < 129; i++)
        CHECK(second_unit_feed(&station->unit, station->input, (uint8_t)i) == 0);
    event = rig_send(&rig, 20, 0x03, 300, NULL, 0);
    CHECK(event.count == 128 && rig.response[127] == 127);
    CHECK(second_unit_look(&station->unit).input_count == 1);

    /* M8. Close: the input queue is emptied. */
    CHECK(rig_status(&rig, 20, 0x01, 0, NULL, 0) == 0);
    CHECK(second_unit_look(&station->unit).input_count == 0);
    rig_open(&rig, 20, 0x80);
    CHECK(rig_status(&rig, 20, 0x03, 5, NULL, 0) == 0x0F);
    CHECK(wire_is(&rig, (const uint8_t[]){ 0, 0, 0x0F }, 3));
    CHECK(second_unit_feed(&station->unit, station->input, 0x41) == 7);
}

static void check_write(void)
{
    static uint8_t data[257];
    struct rig rig;
    struct second_station *station = &rig.stations[1];
    uint8_t byte = 0;

    for (unsigned i = 0; i < sizeof data; i++)
        data[i] = (uint8_t)(3 * i);
    rig_make(&rig, 200, 20);
    CHECK(!second_unit_take(&station->unit, station->output, &byte));
    rig_open(&rig, 21, 0x80);
    CHECK(rig_status(&rig, 21, 0x04, 0, data, 257) == 0x08);
    CHECK(station->command[0] == 0 && station->command[5] == 0);
    CHECK(rig_status(&rig, 21, 0x04, 0, data, 250) == 0);
    CHECK(rig_status(&rig, 21, 0x04, 0, data, 7) == 0x08);
    CHECK(station->unit.output.count == 250);
    CHECK(second_unit_take(&station->unit, station->output, &byte) && byte == 0);
    CHECK(second_unit_take(&station->unit, station->output, &byte) && byte == 3);
    CHECK(rig_status(&rig, 21, 0x04, 0, data, 8) == 0);
    CHECK(station->output[0] == 18 && station->output[1] == 21 && station->output[255] == 15);

    /* Output stays at a close; a reset to code 0 empties it, unanswered. */
    CHECK(rig_status(&rig, 21, 0x01, 0, NULL, 0) == 0);
    CHECK(station->unit.output.count == 256);
    rig_open(&rig, 21, 0x40);
    CHECK(rig_status(&rig, 21, 0x04, 0, data, 1) == 0x0E);
    CHECK(rig_status(&rig, 21, 0xFE, 0, data, 1) == 0xFF);
    CHECK(station->unit.output.count == 256 && station->unit.mode == SECOND_INPUT);
    CHECK(rig_status(&rig, 0, 0x01, 0, NULL, 0) == 0xFF);
    CHECK(station->unit.mode == SECOND_INPUT);
    CHECK(rig_status(&rig, 0, 0xFF, 0, NULL, 0) == 0xFF);
    CHECK(station->unit.output.count == 0 && station->unit.mode == SECOND_CLOSED);
    CHECK(rig_status(&rig, 21, 0x07, 1, NULL, 0) == 0x0D);
    CHECK(rig_status(&rig, 21, 0x07, 1, data, 257) == 0x0D);
    CHECK(rig_status(&rig, 21, 0x08, 0, NULL, 0) == 0x04);
    CHECK(rig_status(&rig, 24, 0x00, 4, update_80, 3) == 0xFF);
}

/* ---- Rounds ------------------------------------------------------------ */

/* Four rounds a nibble; M1 and its answer end in round 154 after the first. */
static void check_timing(void)
{
    struct rig rig;
    struct second_unit *unit = &rig.stations[0].unit;
    struct second_event event;

    rig_make(&rig, 8, 4);
    CHECK(second_submit(&rig.controller, &m1_fields, 3, 300) == 0);
    CHECK(second_submit(&rig.controller, &m1_fields, 3, 300) == 1);
    (void)rig_round(&rig, update_80, 3);                    /* 0: BAV pulled */
    CHECK(rig.controller.line.pulls.bav && !rig.controller.line.pulls.hsk);
    CHECK(unit->phase == SECOND_IDLE);
    (void)rig_round(&rig, update_80, 3);                    /* 1 */
    CHECK(unit->phase == SECOND_SELECTING && !rig.controller.line.pulls.hsk);
    (void)rig_round(&rig, update_80, 3);                    /* 2: first nibble */
    CHECK(rig.controller.line.pulls.hsk && rig.controller.line.pulls.nibble == 4);
    (void)rig_round(&rig, update_80, 3);                    /* 3: taken */
    CHECK(!rig.controller.line.pulls.hsk && rig.controller.line.pulls.nibble == 4);
    CHECK(unit->line.pulls.hsk && unit->place == 1);
    (void)rig_round(&rig, update_80, 3);                    /* 4 */
    CHECK(!unit->line.pulls.hsk && rig.controller.line.pulls.nibble == 4);
    (void)rig_round(&rig, update_80, 3);                    /* 5: done */
    CHECK(rig.controller.line.pulls.nibble == 15 && rig.controller.place == 1);
    (void)rig_round(&rig, update_80, 3);                    /* 6: the second */
    CHECK(rig.controller.line.pulls.hsk && rig.controller.line.pulls.nibble == 1);
    event = rig_run(&rig, update_80, 3);
    CHECK(rig.rounds == 154 - 6 && event.value == 0 && event.count == 4);
    CHECK(!rig.controller.line.pulls.bav && unit->phase == SECOND_SITTING_OUT);
    CHECK(second_submit(&rig.controller, &m1_fields, 3, 300) == 1);
    rig_rest(&rig, 1);
    CHECK(unit->phase == SECOND_IDLE);
    CHECK(second_submit(&rig.controller, &m1_fields, 3, 300) == 1);
    rig_rest(&rig, 1);
    CHECK(second_submit(&rig.controller, &m1_fields, 3, 300) == 0);

    /* A null message: 18 nibbles, done in round 73; the time-out from 74. */
    rig_make(&rig, 8, 4);
    event = rig_send(&rig, 0, 0xFE, 0, NULL, 0);
    CHECK(event.value == 0xFF && event.count == 0 && rig.rounds == 1 + 73 + 8);
}

/* BAV is pulled in the fourth high round, kept until HSK is seen low. */
static void check_request(void)
{
    static uint8_t memory[3][256];
    const struct second_levels quiet = { false, false, 15 };
    const struct second_levels bav = { true, false, 15 };
    const struct second_levels both = { true, true, 7 };
    struct second_unit unit;

    CHECK(second_unit_make(&unit, 0, 20) == 5 && second_unit_make(&unit, 1, 3) == 5);
    CHECK(second_unit_make(&unit, 1, 65536) == 5 && second_unit_make(&unit, 1, 65535) == 0);
    CHECK(second_unit_make(&unit, 20, 4) == 0);
    CHECK(second_unit_raise(&unit) == 7);
    unit.enabled = true;
    CHECK(second_unit_raise(&unit) == 0 && second_unit_raise(&unit) == 0);
#define STEP(levels) second_unit_step(&unit, levels, false, memory[0], 256, memory[1], memory[2], 256)
    for (unsigned i = 0; i < 3; i++)
        CHECK(STEP(quiet) == 0 && !unit.line.pulls.bav);
    CHECK(STEP(((struct second_levels){ false, false, 16 })) == 5);
    CHECK(second_unit_step(&unit, quiet, false, memory[0], 255, memory[1], memory[2], 256) == 11);
    CHECK(second_unit_step(&unit, quiet, false, memory[0], 256, memory[1], memory[2], 255) == 11);
    CHECK(STEP(quiet) == 0 && unit.line.pulls.bav);
    CHECK(STEP(bav) == 0 && unit.line.pulls.bav && unit.phase == SECOND_SELECTING);
    CHECK(STEP(bav) == 0 && unit.line.pulls.bav);
    CHECK(STEP(both) == 0 && !unit.line.pulls.bav && unit.line.pulls.hsk);
    CHECK(STEP(quiet) == 0 && unit.phase == SECOND_IDLE && !unit.line.pulls.hsk);
    CHECK(!unit.line.pulls.bav);                    /* the count began anew */
    CHECK(STEP(both) == 0 && unit.phase == SECOND_SITTING_OUT && !unit.line.pulls.hsk);
#undef STEP
}

/* ---- The ring ---------------------------------------------------------- */

static bool ring_is(const struct rig *rig, const uint8_t *codes, unsigned count)
{
    struct second_controller_view view = second_controller_look(&rig->controller);

    if (view.ring_count != count)
        return false;
    for (unsigned i = 0; i < count; i++)
        if (view.ring[i].code != codes[i])
            return false;
    return true;
}

static void enable(struct rig *rig, uint8_t device)
{
    rig_open(rig, device, 0xC0);
    CHECK(rig_status(rig, device, 0x08, 0, NULL, 0) == 0);
}

static void check_ring(void)
{
    struct rig rig;
    struct second_unit *units[UNITS];
    struct second_event event;

    rig_make(&rig, 20, 4);
    for (unsigned i = 0; i < UNITS; i++)
        units[i] = &rig.stations[i].unit;
    for (uint8_t device = 20; device < 23; device++)
        enable(&rig, device);
    CHECK(rig_status(&rig, 20, 0x08, 0, NULL, 0) == 0);
    CHECK(ring_is(&rig, (const uint8_t[]){ 20, 21, 22 }, 3));

    /* M9: one service frame, asked for by 20 itself. */
    CHECK(second_unit_raise(units[0]) == 0);
    event = rig_run(&rig, NULL, 0);
    CHECK(event.what == SECOND_HANDED_OVER && event.value == 20);
    CHECK(!units[0]->requesting && units[0]->enabled);
    enable(&rig, 23);
    CHECK(ring_is(&rig, (const uint8_t[]){ 21, 22, 20, 23 }, 4));

    /* 21 and 22 say no, the marked 20 gets a null message, then 23. */
    CHECK(second_unit_raise(units[0]) == 0 && second_unit_raise(units[3]) == 0);
    event = rig_run(&rig, NULL, 0);
    CHECK(event.what == SECOND_HANDED_OVER && event.value == 23);
    CHECK(units[0]->requesting);
    CHECK(ring_is(&rig, (const uint8_t[]){ 21, 22, 20, 23 }, 4));
    CHECK(second_acknowledge(&rig.controller, 21) == 8);
    CHECK(second_acknowledge(&rig.controller, 24) == 8);
    CHECK(second_acknowledge(&rig.controller, 20) == 0);
    CHECK(second_acknowledge(&rig.controller, 20) == 8);
    event = rig_run(&rig, NULL, 0);
    CHECK(event.what == SECOND_HANDED_OVER && event.value == 20);

    /* 09 and 01 remove; a reset leaves the ring as it is. */
    CHECK(rig_status(&rig, 22, 0x09, 0, NULL, 0) == 0);
    CHECK(ring_is(&rig, (const uint8_t[]){ 23, 21, 20 }, 3));
    CHECK(rig_status(&rig, 20, 0x01, 0, NULL, 0) == 0);
    CHECK(second_acknowledge(&rig.controller, 20) == 8);
    CHECK(rig_status(&rig, 0, 0xFF, 0, NULL, 0) == 0xFF);
    CHECK(ring_is(&rig, (const uint8_t[]){ 23, 21 }, 2));
}

static void check_submit(void)
{
    struct second_controller c;
    struct second_command fields = { .device = 99, .command = 0x08, .buffer_length = 4 };
    const struct second_levels quiet = { false, false, 15 };

    CHECK(second_controller_make(&c, 7) == 5 && second_controller_make(&c, 65536) == 5);
    CHECK(second_controller_make(&c, 8) == 0);
    for (uint8_t i = 0; i < 16; i++)
        c.ring[i].code = (uint8_t)(i + 1);
    c.ring_count = 16;
    CHECK(second_submit(&c, &fields, 65536, 0) == 2);
    CHECK(second_submit(&c, &fields, 0, 0) == 4);
    fields.device = 0;
    CHECK(second_submit(&c, &fields, 0, 4) == 4);
    fields.device = 16;
    CHECK(second_submit(&c, &fields, 0, 3) == 11);
    fields.command = 0x0A;
    CHECK(second_submit(&c, &fields, 0, 3) == 3);
    fields.command = 0x08;
    CHECK(second_submit(&c, &fields, 0, 4) == 0);
    CHECK(second_submit(&c, &fields, 65536, 0) == 1);
    CHECK(second_controller_step(&c, (struct second_levels){ true, true, 16 }, false,
                                 NULL, 1, NULL, 3).refusal == 5);
    CHECK(second_controller_step(&c, quiet, false, NULL, 1, NULL, 3).refusal == 10);
    CHECK(second_controller_step(&c, quiet, false, NULL, 0, NULL, 3).refusal == 11);
    CHECK(!c.line.pulls.bav);
}

/* ---- One party driven by hand ------------------------------------------ */

static const struct second_levels bus_high = { true, false, 15 };

/* A controller whose command has gone out to nobody: three rounds a nibble. */
static void send_all(struct second_controller *c, uint16_t buffer_length,
                     uint8_t *response, size_t length)
{
    struct second_command fields = { .device = 9, .command = 0x03,
                                     .buffer_length = buffer_length };

    CHECK(second_controller_make(c, 8) == 0);
    CHECK(second_submit(c, &fields, 0, length) == 0);
    for (unsigned i = 0; i < 2 + 18 * 3; i++)
        CHECK(second_controller_step(c, bus_high, false, NULL, 0, response, length).what
              == SECOND_NOTHING);
}

/* A nibble shown for two rounds, then HSK high; the controller is busy in one. */
static struct second_event show(struct second_controller *c, uint8_t nibble,
                                uint8_t *response, size_t length)
{
    struct second_levels low = { true, true, nibble };

    CHECK(second_controller_step(c, low, false, NULL, 0, response, length).what == 0);
    CHECK(c->line.pulls.hsk && c->line.pulls.bav);
    CHECK(second_controller_step(c, low, true, NULL, 0, response, length).what == 0);
    CHECK(c->line.pulls.hsk);
    CHECK(second_controller_step(c, low, false, NULL, 0, response, length).what == 0);
    CHECK(!c->line.pulls.hsk);
    return second_controller_step(c, bus_high, false, NULL, 0, response, length);
}

static void check_listening(void)
{
    struct second_controller c;
    struct second_event event;
    uint8_t response[4] = { 0xEE, 0xEE, 0xEE, 0xEE };

    /* Three bytes announced, one and a half come: the time-out counts anew. */
    send_all(&c, 4, response, 4);
    for (unsigned i = 0; i < 7; i++) {
        CHECK(show(&c, (uint8_t[]){ 3, 0, 0, 0, 1, 2, 5 }[i], response, 4).what == 0);
        CHECK(response[0] == (i < 5 ? 0xEE : 0x21));
        for (unsigned j = 0; j < 6; j++) {
            event = second_controller_step(&c, bus_high, false, NULL, 0, response, 4);
            CHECK(event.what == SECOND_NOTHING);
        }
    }
    event = second_controller_step(&c, bus_high, false, NULL, 0, response, 4);
    CHECK(event.what == SECOND_ENDED && event.value == 0xFF && event.count == 1);
    CHECK(response[0] == 0x21 && response[1] == 0xEE && !c.line.pulls.bav);

    /* A length that is too large, low byte under the buffer length. */
    send_all(&c, 4, response, 4);
    for (unsigned i = 0; i < 3; i++)
        CHECK(show(&c, (uint8_t[]){ 2, 0, 1 }[i], response, 4).what == 0);
    event = show(&c, 0, response, 4);
    CHECK(event.what == SECOND_ENDED && event.value == 0xFF && event.count == 0);
    CHECK(response[0] == 0x21 && !c.line.pulls.bav);

    /* A status other than 00 with data: both are reported. */
    send_all(&c, 1, response, 1);
    for (unsigned i = 0; i < 7; i++)
        CHECK(show(&c, (uint8_t[]){ 1, 0, 0, 0, 15, 7, 4 }[i], response, 1).what == 0);
    event = show(&c, 3, response, 1);
    CHECK(event.what == SECOND_ENDED && event.value == 0x34 && event.count == 1);
    CHECK(response[0] == 0x7F && response[1] == 0xEE);
}

/* The marked entry's frame is FE to code 0; an answer to it is dropped. */
static void check_null(void)
{
    struct second_controller c;

    CHECK(second_controller_make(&c, 8) == 0);
    c.ring_count = 2;
    c.ring[0] = (struct second_entry){ 21, true };
    c.ring[1] = (struct second_entry){ 22, false };
    for (unsigned i = 0; i < 2 + 18 * 3; i++) {
        CHECK(second_controller_step(&c, bus_high, false, NULL, 0, NULL, 0).what == 0);
        if (c.line.pulls.hsk)
            CHECK(c.line.pulls.nibble == (c.place == 2 ? 0xE : c.place == 3 ? 0xF : 0));
    }
    CHECK(c.ring[0].code == 22 && c.ring[1].code == 21 && c.ring[1].marked);
    for (unsigned i = 0; i < 6; i++)
        CHECK(show(&c, 0, NULL, 0).what == SECOND_NOTHING);
    CHECK(!c.line.pulls.bav && !c.ring[0].marked);
    CHECK(!second_controller_look(&c).may_start);
}

static uint8_t lent[2][256], lent_output[SECOND_SCREEN_SIZE];

static void unit_see(struct second_unit *unit, bool bav_low, bool hsk_low, uint8_t nibble,
                     bool busy)
{
    struct second_levels seen = { bav_low, hsk_low, nibble };

    CHECK(second_unit_step(unit, seen, busy, lent[0], 256, lent[1], lent_output,
                           sizeof lent_output) == 0);
}

/* A unit asked by hand; it stands in the round where HSK was seen high. */
static void ask(struct second_unit *unit, uint8_t device, uint8_t command,
                uint16_t buffer_length)
{
    struct second_command fields = { .device = device, .command = command,
                                     .buffer_length = buffer_length };

    unit_see(unit, false, false, 15, false);
    unit_see(unit, true, false, 15, false);
    for (size_t i = 0; i < 18; i++) {
        uint8_t nibble = second_command_nibble(&fields, NULL, 0, i);
        bool takes = unit->phase != SECOND_SITTING_OUT;

        unit_see(unit, true, true, nibble, false);
        CHECK(unit->line.pulls.hsk == takes);
        unit_see(unit, true, true, nibble, true);
        CHECK(unit->line.pulls.hsk == (unit->phase != SECOND_SITTING_OUT));
        unit_see(unit, true, true, nibble, false);
        CHECK(!unit->line.pulls.hsk);
        unit_see(unit, true, false, 15, false);
    }
}

/* So many nibbles of the response are done. */
static void answer_nibbles(struct second_unit *unit, unsigned count)
{
    unit_see(unit, true, false, 15, false);
    CHECK(!unit->line.pulls.hsk);
    while (count-- > 0) {
        unit_see(unit, true, false, 15, true);
        CHECK(unit->line.pulls.hsk);
        unit_see(unit, true, true, unit->line.pulls.nibble, true);
        CHECK(!unit->line.pulls.hsk);
        unit_see(unit, true, true, unit->line.pulls.nibble, true);
        unit_see(unit, true, false, unit->line.pulls.nibble, true);
        CHECK(unit->line.pulls.nibble == 15);
    }
}

/* A request is not cleared, nor are bytes gone, before the last nibble is done. */
static void check_waiting(void)
{
    struct second_unit unit;

    CHECK(second_unit_make(&unit, 20, 65535) == 0);
    unit.mode = SECOND_UPDATE;
    unit.accepted = 80;
    unit.enabled = true;
    CHECK(second_unit_raise(&unit) == 0);
    ask(&unit, 20, 0x0A, 0);
    answer_nibbles(&unit, 5);
    CHECK(unit.requesting && unit.phase == SECOND_RESPONDING);
    unit_see(&unit, false, false, 15, false);
    CHECK(unit.requesting && unit.phase == SECOND_IDLE);
    ask(&unit, 20, 0x0A, 0);
    answer_nibbles(&unit, 6);
    CHECK(!unit.requesting && unit.phase == SECOND_SITTING_OUT);

    CHECK(second_unit_feed(&unit, lent[1], 'A') == 0);
    ask(&unit, 20, 0x03, 9);
    CHECK(second_unit_feed(&unit, lent[1], 'B') == 0);
    answer_nibbles(&unit, 7);
    CHECK(unit.input.count == 2);
    unit_see(&unit, true, false, 15, false);
    unit_see(&unit, true, true, 15, false);
    unit_see(&unit, false, false, 15, false);      /* BAV high comes first */
    CHECK(unit.input.count == 2 && unit.phase == SECOND_IDLE);
    ask(&unit, 20, 0x03, 9);
    answer_nibbles(&unit, 10);
    CHECK(unit.input.count == 0 && unit.phase == SECOND_SITTING_OUT);

    ask(&unit, 21, 0x01, 0);
    CHECK(unit.mode == SECOND_UPDATE && unit.phase == SECOND_SITTING_OUT);
    ask(&unit, 0, 0xFF, 0);
    CHECK(unit.mode == SECOND_CLOSED && unit.phase == SECOND_SITTING_OUT);
}

/* ---- The screen of a video unit ---------------------------------------- */

enum { COLUMNS = SECOND_COLUMNS, SCREEN = SECOND_SCREEN_SIZE };

/* A cell of the pattern: no blank, and unlike those around it. */
static uint8_t cell(unsigned row, unsigned column)
{
    return (uint8_t)(0x21 + (column + 11 * row) % 94);
}

static void paint(uint8_t *cells)
{
    for (unsigned i = 0; i < SCREEN; i++)
        cells[i] = cell(i / COLUMNS, i % COLUMNS);
}

/* What must be there: the pattern, with rows of it moved, blanks and bytes. */
static uint8_t wanted[SCREEN];

static void rows_from(unsigned first, unsigned last, unsigned from)
{
    for (unsigned row = first; row <= last; row++)
        for (unsigned column = 0; column < COLUMNS; column++)
            wanted[row * COLUMNS + column] = cell(row - first + from, column);
}

static void cells_from(unsigned row, unsigned column, unsigned count, unsigned from)
{
    for (unsigned i = 0; i < count; i++)
        wanted[row * COLUMNS + column + i] = cell(row, from + i);
}

static void blank(unsigned row, unsigned column, unsigned count)
{
    memset(wanted + row * COLUMNS + column, ' ', count);
}

/* The cells stay, but for what has been put into `wanted`. */
static struct second_screen screen;
static uint8_t cells[SCREEN + 1];

#define ESC "\x1B"
#define TEXT(literal) (const uint8_t *)(literal), sizeof(literal) - 1

/* A painted screen after the first text, with the cursor there. */
static void set_up(const uint8_t *text, size_t length, uint8_t row, uint8_t column)
{
    const uint8_t cursor[] = { 0x1B, '=', row, column };

    second_screen_clear(&screen, cells);
    second_screen_write(&screen, cells, text, length);
    second_screen_write(&screen, cells, cursor, sizeof cursor);
    CHECK(screen.row == row && screen.column == column);
    paint(cells);
    paint(wanted);
}

static bool is_at(const uint8_t *text, size_t length, uint8_t row, uint8_t column)
{
    second_screen_write(&screen, cells, text, length);
    return screen.row == row && screen.column == column
        && memcmp(cells, wanted, SCREEN) == 0;
}

static void check_screen(void)
{
    static const struct { const char *text; uint8_t length, count; } skipped[] = {
        { ESC "6", 2, 24 }, { ESC "7", 2, 24 }, { ESC "K", 2, 24 }, { ESC "L", 2, 24 },
        { ESC "0" ESC "6", 4, 23 }, { ESC "2" ESC "7", 4, 23 },
        { ESC "0" ESC "2" ESC "K", 6, 22 }, { ESC "2" ESC "0" ESC "L", 6, 22 },
        { ESC ".", 2, 1 }, { ESC "G", 2, 1 }, { ESC "C", 2, 1 }, { ESC "P", 2, 1 },
        { ESC "S", 2, 2 }, { ESC "B", 2, 9 }, { ESC "D", 2, 0 }, { ESC "d", 2, 0 },
        { ESC "*", 2, 0 }, { ESC "O", 2, 0 }, { ESC ESC, 2, 0 }, { ESC "\n", 2, 0 },
    };

    /* 3.1: power up. */
    memset(cells, 'x', sizeof cells);
    second_screen_clear(&screen, cells);
    memset(wanted, ' ', SCREEN);
    CHECK(is_at(NULL, 0, 0, 0) && screen.scrolls && screen.wraps && !screen.asked);
    CHECK(screen.first == 0 && screen.last == 23 && cells[SCREEN] == 'x');

    /* A character; at the end of a line; at the end of the page. */
    set_up(NULL, 0, 4, 78);
    wanted[4 * COLUMNS + 78] = 'a';
    CHECK(is_at(TEXT("a"), 4, 79));
    wanted[4 * COLUMNS + 79] = 0xFF;
    CHECK(is_at(TEXT("\xFF"), 5, 0));
    set_up(NULL, 0, 23, 79);
    rows_from(0, 22, 1);
    wanted[22 * COLUMNS + 79] = 'a';
    blank(23, 0, 80);
    CHECK(is_at(TEXT("a"), 23, 0));
    set_up(TEXT(ESC "m" ESC "0"), 23, 79);
    wanted[23 * COLUMNS + 79] = 'a';
    CHECK(is_at(TEXT("a"), 1, 0));
    set_up(TEXT(ESC "4"), 23, 79);
    wanted[23 * COLUMNS + 79] = 'b';
    CHECK(is_at(TEXT("ab"), 23, 79));

    /* Backspace and forward space. */
    set_up(NULL, 0, 3, 1);
    CHECK(is_at(TEXT("\b"), 3, 0) && is_at(TEXT("\b"), 2, 79));
    CHECK(is_at(TEXT("\f"), 3, 0) && is_at(TEXT("\f"), 3, 1));
    set_up(TEXT(ESC "0" ESC "2"), 1, 0);
    CHECK(is_at(TEXT("\b"), 22, 79) && is_at(TEXT("\f"), 1, 0));
    set_up(TEXT(ESC "4"), 3, 0);
    CHECK(is_at(TEXT("\b"), 3, 0) && is_at(TEXT(ESC "=\x03\x4F\f"), 3, 79));

    /* Line feed, line up, carriage return. */
    set_up(NULL, 0, 22, 7);
    CHECK(is_at(TEXT("\n"), 23, 7));
    rows_from(0, 22, 1);
    blank(23, 0, 80);
    CHECK(is_at(TEXT("\n"), 23, 7) && is_at(TEXT("\r"), 23, 0));
    set_up(TEXT(ESC "0" ESC "2"), 22, 7);
    rows_from(1, 21, 2);
    blank(22, 0, 80);
    CHECK(is_at(TEXT("\n"), 22, 7));
    set_up(TEXT(ESC "m" ESC "2"), 22, 7);
    CHECK(is_at(TEXT("\n"), 0, 7) && is_at(TEXT("\v"), 22, 7) && is_at(TEXT("\v"), 21, 7));
    set_up(TEXT(ESC "0"), 1, 7);
    rows_from(2, 23, 1);
    blank(1, 0, 80);
    CHECK(is_at(TEXT("\v"), 1, 7));

    /* Erase page; codes that do nothing. */
    set_up(TEXT(ESC "0" ESC "2"), 5, 7);
    CHECK(is_at(TEXT("\0\a\t\x0E\x11\x13\x15\x1A\x1C\x1E"), 5, 7));
    blank(1, 0, 22 * 80);
    CHECK(is_at(TEXT("\x1F"), 1, 0));

    /* Characters and lines inserted and deleted. */
    set_up(NULL, 0, 6, 70);
    cells_from(6, 71, 9, 70);
    blank(6, 70, 1);
    CHECK(is_at(TEXT(ESC "Q"), 6, 70));
    set_up(NULL, 0, 6, 70);
    cells_from(6, 70, 9, 71);
    blank(6, 79, 1);
    CHECK(is_at(TEXT(ESC "W"), 6, 70));
    set_up(TEXT(ESC "2"), 6, 70);
    rows_from(7, 22, 6);
    blank(6, 0, 80);
    CHECK(is_at(TEXT(ESC "E"), 6, 70));
    set_up(TEXT(ESC "2"), 6, 70);
    rows_from(6, 21, 7);
    blank(22, 0, 80);
    CHECK(is_at(TEXT(ESC "R"), 6, 0));

    /* To the end of the line and of the page. */
    set_up(TEXT(ESC "2"), 22, 79);
    blank(22, 79, 1);
    CHECK(is_at(TEXT(ESC "Y"), 22, 79));
    set_up(TEXT(ESC "2"), 6, 70);
    blank(6, 70, 10);
    CHECK(is_at(TEXT(ESC "T"), 6, 70));
    blank(7, 0, 16 * 80);
    CHECK(is_at(TEXT(ESC "Y"), 6, 70));

    /* Set cursor: out of range, on a protected line; arguments are no codes. */
    set_up(NULL, 0, 6, 70);
    CHECK(is_at(TEXT(ESC "=\x18\x00"), 6, 70) && is_at(TEXT(ESC "=\x00\x50"), 6, 70));
    CHECK(is_at(TEXT(ESC "=\x1B\x1B"), 6, 70) && is_at(TEXT(ESC "=\x17\x1B"), 23, 27));
    CHECK(is_at(TEXT(ESC "2"), 22, 27) && is_at(TEXT(ESC "3"), 22, 27));
    CHECK(is_at(TEXT(ESC "=\x00\x1F"), 0, 31) && is_at(TEXT(ESC "0"), 1, 31));
    CHECK(is_at(TEXT(ESC "=\x00\x05"), 1, 5) && is_at(TEXT(ESC "1"), 1, 5));

    /* Skipped, with arguments that are escapes. */
    for (unsigned i = 0; i < LENGTH(skipped); i++) {
        uint8_t text[32];

        set_up(NULL, 0, 6, 70);
        memset(text, 0x1B, sizeof text);
        memcpy(text, skipped[i].text, skipped[i].length);
        CHECK(is_at(text, (size_t)skipped[i].length + skipped[i].count, 6, 70));
        CHECK(!second_screen_look(&screen).reading);
        wanted[6 * COLUMNS + 70] = 'M';
        CHECK(is_at(TEXT("M"), 6, 71));
    }
    CHECK(cells[SCREEN] == 'x');
}

/* ---- Totality ---------------------------------------------------------- */

static uint32_t random_state = 1;

static uint32_t draw(uint32_t below)
{
    random_state = random_state * 1664525u + 1013904223u;
    return (random_state >> 8) % below;
}

/* A text in two parts leaves what it leaves in one, whatever stands in it. */
static void check_cuts(unsigned texts)
{
    static const uint8_t often[] = "\x1B\x1B\x1B\x1B=0123456789.GBCKLPDdSMmQWERTY\b\n\v\f\r\x1F\x16\x4F";
    static uint8_t other[SCREEN];
    struct second_screen whole;

    second_screen_clear(&screen, cells);
    second_screen_clear(&whole, other);
    while (texts-- > 0) {
        uint8_t text[40];
        size_t length = draw(41), cut = draw((uint32_t)length + 1);

        for (size_t i = 0; i < length; i++)
            text[i] = (uint8_t)(draw(4) == 0 ? draw(256) : often[draw(sizeof often)]);
        second_screen_write(&screen, cells, text, cut);
        second_screen_write(&screen, cells, text + cut, length - cut);
        for (size_t i = 0; i < length; i++)
            second_screen_byte(&whole, other, text[i]);
        CHECK(memcmp(cells, other, SCREEN) == 0);
        CHECK(memcmp(&screen, &whole, sizeof whole) == 0);
        CHECK(screen.first <= screen.row && screen.row <= screen.last && screen.column < COLUMNS);
    }
}

/* The unit's checks in their order, on the bus. */
static void check_video(void)
{
    static const struct {
        uint8_t data[4];
        uint8_t length, status, accepted;
        uint16_t buffer_length;
    } openings[] = {
        { { 0x81, 0, 0x40 }, 2, 0x02, 0, 3 }, { { 0x81, 0, 0x20 }, 3, 0x13, 0, 3 },
        { { 0x81, 0, 0x60 }, 3, 0x15, 0, 3 }, { { 0x50, 0, 0x40 }, 3, 0x15, 0, 4 },
        { { 0x81, 0, 0xE0 }, 3, 0x11, 0, 3 }, { { 0x50, 0, 0xA0 }, 3, 0x11, 0, 4 },
        { { 0x81, 0, 0xC0, 'R' }, 4, 0x0C, 0, 4 }, { { 0x50, 0, 0xC0, 'R' }, 4, 0x0C, 0, 3 },
        { { 0x50, 0, 0xC0, 'R' }, 4, 0x01, 0, 4 }, { { 0x80, 0, 0x9F }, 3, 0x00, 128, 4 },
        { { 0x00, 0, 0xC0 }, 3, 0x00, 128, 4 },
    };
    static uint8_t data[257];
    struct rig rig;
    struct second_station *station = &rig.stations[3];
    struct second_unit *unit = &station->unit;

    for (unsigned i = 0; i < LENGTH(openings); i++) {
        rig_make(&rig, 200, 20);
        CHECK(second_unit_make(unit, 33, 20) == 0);
        CHECK(rig_status(&rig, 33, 0x00, openings[i].buffer_length, openings[i].data,
                         openings[i].length) == openings[i].status);
        CHECK(unit->accepted == openings[i].accepted);
        CHECK(station->output[0] == (openings[i].status == 0 ? ' ' : 0));
    }

    /* Open in update mode: text, a pending address, reads with small buffers. */
    CHECK(rig_status(&rig, 33, 0x04, 0, TEXT(ESC "=\x05\x07" ESC)) == 0);
    CHECK(second_screen_look(&unit->screen).reading);
    CHECK(rig_status(&rig, 33, 0x03, 80, NULL, 0) == 0 && rig.wired == 6);
    CHECK(rig_status(&rig, 33, 0x04, 0, TEXT("9Hi")) == 0 && unit->screen.asked);
    CHECK(memcmp(station->output + 5 * COLUMNS + 6, " Hi ", 4) == 0);
    CHECK(rig_status(&rig, 33, 0x03, 80, NULL, 0) == 0 && !unit->screen.asked);
    CHECK(wire_is(&rig, (const uint8_t[]){ 2, 0, 5, 9, 0 }, 5));
    CHECK(rig_status(&rig, 33, 0x03, 80, NULL, 0) == 0);
    CHECK(wire_is(&rig, (const uint8_t[]){ 0, 0, 0 }, 3));
    CHECK(rig_status(&rig, 33, 0x04, 0, TEXT(ESC "9")) == 0);
    CHECK(rig_status(&rig, 33, 0x03, 1, NULL, 0) == 0 && !unit->screen.asked);
    CHECK(wire_is(&rig, (const uint8_t[]){ 1, 0, 5, 0 }, 4));
    CHECK(rig_status(&rig, 33, 0x04, 0, TEXT(ESC "9")) == 0);
    CHECK(rig_status(&rig, 33, 0x03, 0, NULL, 0) == 0 && !unit->screen.asked);
    CHECK(rig.wired == 6);

    /* 08 and 09 are not supported; over 256 bytes; the poll; the host's calls. */
    CHECK(rig_status(&rig, 33, 0x08, 0, NULL, 0) == 0x0D);
    CHECK(rig_status(&rig, 33, 0x09, 0, data, 257) == 0x0D);
    CHECK(rig_status(&rig, 33, 0x04, 0, data, 257) == 0x08);
    CHECK(memcmp(station->output + 5 * COLUMNS + 6, " Hi ", 4) == 0);
    CHECK(rig_status(&rig, 33, 0x00, 4, update_80, 3) == 0x05);
    CHECK(second_unit_feed(unit, station->input, 'A') == 7 && second_unit_raise(unit) == 7);
    CHECK(!second_unit_take(unit, station->output, data));

    /* Close keeps all; FF on a closed unit too; open clears; FF clears and closes. */
    CHECK(rig_status(&rig, 33, 0x04, 0, TEXT(ESC "m" ESC "9" ESC)) == 0);
    CHECK(rig_status(&rig, 33, 0x01, 0, NULL, 0) == 0);
    CHECK(rig_status(&rig, 33, 0x01, 0, NULL, 0) == 0x04);
    CHECK(rig_status(&rig, 33, 0x04, 0, data, 256) == 0x04);
    CHECK(rig_status(&rig, 33, 0x03, 2, NULL, 0) == 0x04);
    CHECK(rig_status(&rig, 0, 0xFF, 0, NULL, 0) == 0xFF);
    CHECK(memcmp(station->output + 5 * COLUMNS + 6, " Hi ", 4) == 0 && unit->screen.asked);
    CHECK(!unit->screen.scrolls && second_screen_look(&unit->screen).reading);
    rig_open(&rig, 33, 0x80);
    CHECK(station->output[5 * COLUMNS + 7] == ' ' && !unit->screen.asked);
    CHECK(unit->screen.scrolls && !second_screen_look(&unit->screen).reading);
    CHECK(rig_status(&rig, 33, 0x04, 0, TEXT("Hi" ESC "9")) == 0);
    CHECK(rig_status(&rig, 33, 0x03, 2, NULL, 0) == 0x0F && unit->screen.asked);
    CHECK(rig_status(&rig, 33, 0xFF, 0, NULL, 0) == 0xFF);
    CHECK(unit->mode == SECOND_CLOSED && !unit->screen.asked);
    CHECK(unit->screen.column == 0 && station->output[0] == ' ');
    for (unsigned i = 0; i < SCREEN; i++)
        CHECK(station->output[i] == ' ');

    /* Polled by hand; an address is pending until the last nibble is done. */
    ask(unit, 33, 0x0A, 0);
    CHECK(unit->answer_status == 0x0A && unit->total == 6);
    unit->mode = SECOND_UPDATE;
    unit->accepted = 80;
    unit->screen.asked = true;
    ask(unit, 33, 0x03, 2);
    answer_nibbles(unit, 9);
    CHECK(unit->screen.asked && unit->phase == SECOND_RESPONDING);
    unit_see(unit, false, false, 15, false);
    ask(unit, 33, 0x03, 2);
    answer_nibbles(unit, 10);
    CHECK(!unit->screen.asked && unit->phase == SECOND_SITTING_OUT);
}

static void check_queue(struct second_queue queue)
{
    CHECK(queue.count <= SECOND_QUEUE_SIZE);
}

/* Any levels at any time: no step leaves the state's bounds. */
static void check_unit_any(uint8_t code, unsigned steps)
{
    static uint8_t memory[2][256], output[SECOND_SCREEN_SIZE + 1];
    const size_t needed = code == 30 ? SECOND_SCREEN_SIZE : SECOND_QUEUE_SIZE;
    struct second_unit unit;

    CHECK(second_unit_make(&unit, code, 4) == 0);
    output[needed] = 0xEE;
    while (steps-- > 0) {
        struct second_levels seen = { draw(64) != 0, draw(2) != 0, (uint8_t)draw(17) };
        struct second_unit before = unit;
        uint8_t byte;
        int refusal = second_unit_step(&unit, seen, draw(4) == 0, memory[0],
                                       draw(50) == 0 ? 255 : 256, memory[1], output,
                                       draw(50) == 0 ? needed - 1 : needed);

        if (refusal != 0)
            CHECK(memcmp(&before, &unit, sizeof unit) == 0);
        if (draw(8) == 0)
            (void)second_unit_feed(&unit, memory[1], (uint8_t)draw(256));
        if (draw(8) == 0)
            (void)second_unit_take(&unit, output, &byte);
        if (draw(8) == 0)
            (void)second_unit_raise(&unit);
        check_queue(unit.input);
        check_queue(unit.output);
        CHECK(unit.line.pulls.nibble <= 15 && unit.phase <= SECOND_SITTING_OUT);
        CHECK(output[needed] == 0xEE);
    }
}

static void check_controller_any(unsigned steps)
{
    static uint8_t data[8], response[8];
    struct second_controller c;
    size_t length = 0;

    CHECK(second_controller_make(&c, 8) == 0);
    while (steps-- > 0) {
        struct second_levels seen = { draw(2) != 0, draw(2) != 0,
                                      (uint8_t)(draw(3) == 0 ? draw(17) : 0) };
        struct second_command fields = { .device = (uint8_t)draw(30),
                                         .command = (uint8_t)(draw(2) != 0 ? 8 : draw(12)),
                                         .buffer_length = (uint16_t)draw(10) };
        struct second_controller before = c;
        struct second_event event = second_controller_step(
            &c, seen, draw(4) == 0, data, draw(50) == 0 ? 9 : length, response,
            draw(50) == 0 ? 0 : sizeof response);

        if (event.refusal != 0)
            CHECK(memcmp(&before, &c, sizeof c) == 0);
        CHECK(event.count <= sizeof response);
        if (draw(8) == 0) {
            size_t wanted = draw(9);

            if (second_submit(&c, &fields, wanted, sizeof response) == 0)
                length = wanted;
        }
        if (draw(8) == 0)
            (void)second_acknowledge(&c, (uint8_t)draw(30));
        CHECK(c.ring_count <= SECOND_RING_SIZE && c.line.pulls.nibble <= 15);
    }
}

/* With hosts busy at random, every fed byte is read once and in order. */
static void check_busy(unsigned frames)
{
    struct rig rig;
    struct second_station *station = &rig.stations[2];
    uint8_t fed = 0, expected = 0;

    rig_make(&rig, 60, 4);
    rig_open(&rig, 22, 0xC0);
    while (frames-- > 0) {
        struct second_command fields = { .device = 22, .command = 0x03,
                                         .buffer_length = (uint16_t)draw(100) };
        struct second_event event = { .what = SECOND_NOTHING };

        rig_rest(&rig, 3);
        CHECK(second_submit(&rig.controller, &fields, 0, sizeof rig.response) == 0);
        while (event.what == SECOND_NOTHING) {
            rig.busy = draw(3) == 0;
            for (unsigned i = 0; i < UNITS; i++)
                rig.stations[i].busy = draw(3) == 0;
            if (draw(16) == 0
                && second_unit_feed(&station->unit, station->input, fed) == 0)
                fed++;
            event = rig_round(&rig, NULL, 0);
        }
        CHECK(event.what == SECOND_ENDED && event.value == 0);
        for (unsigned i = 0; i < event.count; i++)
            CHECK(rig.response[i] == expected++);
    }
    CHECK((uint8_t)(expected + station->unit.input.count) == fed);
}

int main(void)
{
    check_messages();
    check_classes();
    check_open();
    check_read();
    check_write();
    check_timing();
    check_request();
    check_ring();
    check_submit();
    check_listening();
    check_null();
    check_waiting();
    check_screen();
    check_cuts(20000);
    check_video();
    check_unit_any(20, 200000);
    check_unit_any(30, 200000);
    check_controller_any(200000);
    check_busy(200);
    printf("%s\n", failures == 0 ? "all hold" : "FAILED");
    return failures != 0;
}
