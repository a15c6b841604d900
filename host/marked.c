/* The papers' marked cases, M1 to M10, through the library's C calls. */
#include "../include/hexbus.h"

#include <stdio.h>
#include <string.h>

static int failures;

static void expect(bool holds, const char *what)
{
    if (!holds) {
        printf("marked: %s does not hold\n", what);
        failures++;
    }
}

/* One controller and one unit, wired. */
static hexbus_controller master;
static hexbus_unit unit;
static uint8_t command[256], input[256], output[256], response[16];

static void make_bus(void)
{
    memset(response, 0xEE, sizeof response);
    expect(hexbus_controller_make(&master, 20) == 0, "making a controller");
    expect(hexbus_unit_make(&unit, 20, 20) == 0, "making a unit");
}

static hexbus_event round_of(const uint8_t *data, size_t n, size_t room)
{
    uint32_t c = hexbus_controller_pulls(&master), u = hexbus_unit_pulls(&unit);
    bool bav = ((c | u) & HEXBUS_BAV) != 0, hsk = ((c | u) & HEXBUS_HSK) != 0;
    uint8_t nibble = (uint8_t)(c & u & HEXBUS_NIBBLE);
    hexbus_event e;

    expect(hexbus_unit_step(&unit, bav, hsk, nibble, false, command, sizeof command, input, output, sizeof output) == 0, "a unit's step");
    expect(hexbus_controller_step(&master, bav, hsk, nibble, false, data, n, response, room, &e) == 0, "the controller's step");
    return e;
}

static hexbus_event run(uint8_t device, uint8_t code, uint16_t buffer, const uint8_t *data, size_t n)
{
    hexbus_command k = { device, code, 1, 0, buffer, 0 };
    hexbus_event e = { 0, 0, 0 };

    expect(hexbus_controller_submit(&master, &k, data, n, response, buffer) == 0, "submitting");
    for (int i = 0; i < 2000 && e.kind == HEXBUS_NOTHING; i++)
        e = round_of(data, n, buffer);
    round_of(data, 0, 0);
    round_of(data, 0, 0);
    return e;
}

static bool answers(hexbus_event e, uint8_t status, const uint8_t *data, size_t n)
{
    return e.kind == HEXBUS_ENDED && e.value == status && e.count == n && memcmp(response, data, n) == 0 && response[n] == 0xEE;
}

static void opening(const char *name, uint8_t length, uint8_t attributes, size_t n, uint8_t status)
{
    const uint8_t data[3] = { length, 0, attributes };
    const uint8_t accepted[4] = { (uint8_t)(length == 0 ? 128 : length), 0, 0, 0 };
    hexbus_event e;

    make_bus();
    e = run(20, 0x00, 4, data, n);
    expect(answers(e, status, accepted, status == 0 ? 4 : 0), name);
}

static void reading(const char *name, uint16_t buffer, const uint8_t *data, size_t n)
{
    const uint8_t update[3] = { 80, 0, 0xC0 };

    make_bus();
    run(20, 0x00, 4, update, 3);
    memset(response, 0xEE, sizeof response);
    for (uint8_t b = 0x41; b <= 0x43; b++)
        expect(hexbus_unit_feed(&unit, input, b) == 0, "feeding");
    expect(answers(run(20, 0x03, buffer, update, 0), 0x00, data, n), name);
}

int main(void)
{
    static const uint8_t m1[12] = { 0x14, 0x00, 0x01, 0x00, 0x00, 0x04, 0x00, 0x03, 0x00, 0x50, 0x00, 0xC0 };
    const hexbus_command open = { 20, 0x00, 1, 0, 4, 0 };
    const uint8_t output_mode[3] = { 80, 0, 0x80 };
    uint8_t out[12];
    hexbus_command fields;

    expect(hexbus_command_write(&open, m1 + 9, 3, out, 12) == 0 && memcmp(out, m1, 12) == 0, "M1, the bytes");
    expect(hexbus_command_nibble(&open, m1 + 9, 3, 0) == 4 && hexbus_command_nibble(&open, m1 + 9, 3, 1) == 1, "M1, first nibbles");
    opening("M2", 80, 0xC0, 3, 0x00);
    expect(run(20, 0x00, 4, m1 + 9, 3).value == 0x05, "M3");
    opening("M4", 80, 0xC0, 2, 0x02);
    opening("M5, attributes 00", 80, 0x00, 3, 0x13);
    opening("M5, attributes E0", 80, 0xE0, 3, 0x11);
    opening("M6, 0", 0, 0xC0, 3, 0x00);
    opening("M6, 128", 128, 0xC0, 3, 0x00);
    opening("M6, 129", 129, 0xC0, 3, 0x0C);
    reading("M7, buffer 5", 5, (const uint8_t *)"ABC", 3);
    reading("M7, buffer 2", 2, (const uint8_t *)"AB", 2);
    make_bus();
    run(20, 0x00, 4, output_mode, 3);
    expect(run(20, 0x03, 5, output_mode, 0).value == 0x0F, "M8");

    /* M9: the ring 20, 21, 22 turns once, then 23 joins: 21, 22, 20, 23. No unit but 20 is there, so the answers are played. */
    {
        static const uint8_t codes[4] = { 20, 21, 22, 23 };
        static const uint8_t order[4] = { 21, 22, 20, 23 };

        make_bus();
        for (int i = 0; i < 4; i++) {
            if (i == 3) {
                expect(hexbus_unit_make(&unit, 20, 4) == 0, "making a unit");
                hexbus_event e;
                expect(hexbus_controller_step(&master, true, false, 15, false, input, 0, response, 0, &e) == 0, "a service frame");
                for (int j = 0; j < 300 && (hexbus_controller_pulls(&master) & HEXBUS_BAV) != 0; j++)
                    round_of(input, 0, 0);
                round_of(input, 0, 0);
                round_of(input, 0, 0);
            }
            expect(hexbus_unit_make(&unit, codes[i], 20) == 0, "making a unit");
            run(codes[i], 0x00, 4, m1 + 9, 3);
            expect(run(codes[i], 0x08, 0, input, 0).value == 0x00, "enabling");
        }
        for (unsigned i = 0; i < 4; i++)
            expect(hexbus_controller_entry(&master, i) == order[i], "M9");
    }

    expect(hexbus_command_read(m1, 8, &fields) == 9, "M10, 8 bytes");
    memcpy(out, m1, 12);
    out[7] = 1;
    expect(hexbus_command_read(out, 9, &fields) == 10, "M10, 9 bytes announcing 1");
    expect(hexbus_command_write(&open, m1 + 9, 3, out, 11) == 11, "M10, into 11 bytes");
    expect(hexbus_command_write(&open, m1 + 9, 3, out, 12) == 0, "M10, into 12");
    if (failures == 0)
        printf("marked: M1 to M10 hold\n");
    return failures != 0;
}
