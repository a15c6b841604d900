/*
 * The papers' worked examples and limits through the library's C calls, beside M1 to M10 (marked.c). What each comes to stands here as the
 * papers say it. A row is a call, its answer, and what can be looked at afterwards; no third text where that stays as it was. The other end
 * of the lines is played, so that a unit and a controller are each alone.
 *
 * In the texts bytes are hexadecimal, n*b is n bytes that count up from b, n#b is b n times, 'x is the character x, ^x an escape with x behind
 * it, and all else is decimal. Lines: B where BAV is low, H where HSK is, and the nibble.
 */
#include "../include/hexbus.h"

#include <stdarg.h>
#include <stdio.h>
#include <stdlib.h>
#include <string.h>

/* The rest of a command's header, all zeros. */
#define ZEROS " 00 00 00 00 00 00 00"

enum { MOST = 65536, BEFORE = 0xEE, GUARD = 16, WAIT = 2, SILENCE = 8, TEXT = 600 };

struct row {
    const char *call, *answer, *after;
};

static unsigned run, failures;
static const char *section;

static void expect(bool holds, const char *call, const char *what)
{
    run++;
    if (holds)
        return;
    failures++;
    printf("vectors: %s: %s: %s\n", section, call, what);
}

/* ---- Texts ------------------------------------------------------------- */

/* A text that is put together piece by piece. */
static char made[TEXT];
static size_t made_length;

static void clear_text(void)
{
    made_length = 0;
    made[0] = 0;
}

static void say(const char *format, ...)
{
    va_list rest;
    int n;

    va_start(rest, format);
    n = vsnprintf(made + made_length, sizeof made - made_length, format, rest);
    va_end(rest);
    made_length += n > 0 && (size_t)n < sizeof made - made_length ? (size_t)n : 0;
}

/* Bytes, sixteen or more that count up as n*b. */
static void say_bytes(const uint8_t *bytes, size_t n)
{
    for (size_t i = 0; i < n;) {
        size_t last = i + 1;

        while (last < n && bytes[last] == (uint8_t)(bytes[last - 1] + 1u))
            last++;
        if (last - i < 16) {
            say(" %02X", bytes[i++]);
        } else {
            say(" %zu*%02X", last - i, bytes[i]);
            i = last;
        }
    }
}

/* The words of a call, one after the other. */
static const char *rest_of;

static bool next_is(const char *word)
{
    size_t n = strlen(word);

    while (*rest_of == ' ')
        rest_of++;
    if (strncmp(rest_of, word, n) != 0 || (rest_of[n] != ' ' && rest_of[n] != 0))
        return false;
    rest_of += n;
    return true;
}

static uint32_t number(int base)
{
    char *end;
    unsigned long n = strtoul(rest_of, &end, base);

    rest_of = end;
    return (uint32_t)n;
}

/* Where this word stands: its number; else the other one. */
static uint32_t option(const char *word, uint32_t other)
{
    return next_is(word) ? number(10) : other;
}

/* The bytes that a text goes on with. */
static size_t read_bytes(uint8_t *bytes)
{
    size_t n = 0;

    for (;;) {
        char *end;
        unsigned long value, count = 1;

        bool counts = true;

        while (*rest_of == ' ')
            rest_of++;
        if (*rest_of == '^' || *rest_of == '\'') {
            if (*rest_of == '^')
                bytes[n++] = 0x1B;
            bytes[n++] = (uint8_t)rest_of[1];
            rest_of += 2;
            continue;
        }
        if (strcspn(rest_of, "*#") < strcspn(rest_of, " ")) {
            count = strtoul(rest_of, &end, 10);
            counts = *end == '*';
            rest_of = end + 1;
        }
        value = strtoul(rest_of, &end, 16);
        if (end == rest_of)
            return n;
        rest_of = end;
        while (count-- > 0)
            bytes[n++] = (uint8_t)(counts ? value++ : value);
    }
}

/* Lent memory: filled with EE, with some bytes of it behind its end. */
struct lent {
    uint8_t bytes[MOST + 2 * GUARD];
};

static void fill(struct lent *m)
{
    memset(m->bytes, BEFORE, sizeof m->bytes);
}

static bool untouched_from(const struct lent *m, size_t n)
{
    while (n < sizeof m->bytes && m->bytes[n] == BEFORE)
        n++;
    return n == sizeof m->bytes;
}

/* ---- Messages ---------------------------------------------------------- */

/*
 * A command's five fields, or a response's status; data; bytes. The first four: source document 000, 7.1 and 7.2. As messages they hold, but no
 * unit answers 7.1 so: its options are refused, and a requested length of 0 accepts 128 (02, P5), not 80.
 */
static const struct row messages[] = {
    { "command 20 00 1 0 4", "00 00 80 42 3D 34 38 30 30 2C 50 3D 4F", "14 00 01 00 00 04 00 0D 00 00 00 80 42 3D 34 38 30 30 2C 50 3D 4F" },
    { "response 00", "50 00 00 00", "04 00 50 00 00 00 00" },
    { "command 20 03 1 0 80", "", "14 03 01 00 00 50 00 00 00" },
    { "response 00", "32 37 32 39 35", "05 00 32 37 32 39 35 00" },
    { "command 20 00 1 0 4", "50 00 C0", "14 00 01 00 00 04 00 03 00 50 00 C0" },
    { "command 20 04 7 513 1027", "", "14 04 07 01 02 03 04 00 00" },
    { "command 20 04 7 513 1027", "00", "14 04 07 01 02 03 04 01 00 00" },
    { "command 20 04 7 513 1027", "255*00", "14 04 07 01 02 03 04 FF 00 255*00" },
    { "command 20 04 7 513 1027", "256*00", "14 04 07 01 02 03 04 00 01 256*00" },
    { "command 20 04 7 513 1027", "65535*00", "14 04 07 01 02 03 04 FF FF 65535*00" },
    { "command 255 FF 255 65535 65535", "FF", "FF FF FF FF FF FF FF 01 00 FF" },
    { "response 0D", "", "00 00 0D" },
    { "response 0D", "00", "01 00 00 0D" },
    { "response 0D", "255*00", "FF 00 255*00 0D" },
    { "response 0D", "256*00", "00 01 256*00 0D" },
    { "response 0D", "65535*00", "FF FF 65535*00 0D" },
    { "response FF", "FF", "01 00 FF FF" },
};

static hexbus_command fields;
static uint8_t status;
static uint8_t data[MOST], bytes[MOST + GUARD];
static struct lent space;

static hexbus_refusal write(bool command, size_t n, size_t room)
{
    return command ? hexbus_command_write(&fields, data, n, space.bytes, room) : hexbus_response_write(status, data, n, space.bytes, room);
}

static hexbus_refusal read(bool command, size_t n, hexbus_command *k, hexbus_response *r)
{
    return command ? hexbus_command_read(bytes, n, k) : hexbus_response_read(bytes, n, r);
}

static uint8_t nibble(bool command, size_t n, size_t i)
{
    return command ? hexbus_command_nibble(&fields, data, n, i) : hexbus_response_nibble(status, data, n, i);
}

static bool same_fields(const hexbus_command *k, size_t n)
{
    return k->device == fields.device && k->command == fields.command && k->logical_unit == fields.logical_unit
        && k->record_number == fields.record_number && k->buffer_length == fields.buffer_length && k->data_length == n;
}

/* Written with room to spare, just enough and one too little; read back; every nibble and two past the end. */
static void whole_message(const struct row *row, bool command, size_t n, size_t length)
{
    hexbus_command k;
    hexbus_response r;
    bool all = true;

    for (size_t spare = 0; spare < 2; spare++) {
        fill(&space);
        expect(write(command, n, length + spare * GUARD) == 0, row->call, "is written");
        expect(memcmp(space.bytes, bytes, length) == 0, row->call, "its bytes");
        expect(untouched_from(&space, length), row->call, "no byte past it is written");
    }
    fill(&space);
    expect(write(command, n, length - 1) == HEXBUS_SHORT_BUFFER, row->call, "11 for a buffer that is one too short");
    expect(untouched_from(&space, 0), row->call, "nothing is written there");
    expect(read(command, length, &k, &r) == 0, row->call, "is read");
    expect(command ? same_fields(&k, n) : r.status == status && r.data_length == n, row->call, "its fields");
    for (size_t i = 0; i < 2 * length + 2; i++)
        all = all && nibble(command, n, i) == (i / 2 >= length ? 15 : i % 2 == 0 ? bytes[i / 2] & 15 : bytes[i / 2] >> 4);
    expect(all, row->call, "its nibbles");
}

/* Every slice that is shorter or longer: 9 for one that cannot hold the fields, else 10; its words stay. */
static void cut_message(const struct row *row, bool command, size_t length)
{
    const size_t least = command ? HEXBUS_COMMAND_HEAD : HEXBUS_RESPONSE_LEAST;
    bool all = true;

    for (size_t n = 0; n < length + GUARD; n++) {
        hexbus_command k = { 1, 2, 3, 4, 5, 6 }, k_before = k;
        hexbus_response r = { 7, 8 }, r_before = r;

        if (n == length || (n > 3 * GUARD && n + GUARD < length))
            continue;
        all = all && read(command, n, &k, &r) == (n < least ? HEXBUS_SHORT_MESSAGE : HEXBUS_OTHER_LENGTH)
            && memcmp(&k, &k_before, sizeof k) == 0 && memcmp(&r, &r_before, sizeof r) == 0;
    }
    expect(all, row->call, "other slices of it");
}

static void check_messages(void)
{
    section = "messages";
    for (size_t i = 0; i < sizeof messages / sizeof messages[0]; i++) {
        const struct row *row = &messages[i];
        bool command;
        size_t n, length;

        rest_of = row->call;
        command = next_is("command");
        if (command) {
            fields.device = number(10);
            fields.command = number(16);
            fields.logical_unit = number(10);
            fields.record_number = number(10);
            fields.buffer_length = number(10);
        } else {
            next_is("response");
            status = (uint8_t)number(16);
        }
        rest_of = row->answer;
        n = read_bytes(data);
        rest_of = row->after;
        memset(bytes, BEFORE, sizeof bytes);
        length = read_bytes(bytes);
        whole_message(row, command, n, length);
        cut_message(row, command, length);
    }
    for (int command = 0; command < 2; command++)
        for (size_t room = 0; room <= MOST + GUARD; room += MOST + GUARD) {
            fill(&space);
            expect(write(command != 0, MOST, room) == HEXBUS_TOO_LONG, "data of 65536", "2, whatever the room");
            expect(untouched_from(&space, 0), "data of 65536", "nothing is written");
        }
}

/* Byte i of data of so many bytes: no two that stand a power of 2 apart are alike. */
static uint8_t patterned(size_t n, size_t i)
{
    return (uint8_t)(31 * i + 3 * (i >> 8) + n);
}

/*
 * Data of each size up to four blocks of the copy and more, and the longest: written into just enough room every byte has its place, and none
 * past the message changes; in one byte less nothing does.
 */
static void check_sizes(void)
{
    section = "sizes";
    fields = (hexbus_command){ 20, 4, 7, 513, 1027, 0 };
    status = 0x0D;
    for (size_t n = 0; n <= 65535; n = n == 600 ? 65535 : n + 1)
        for (int command = 0; command < 2; command++) {
            const uint8_t head[9] = { 20, 4, 7, 1, 2, 3, 4, (uint8_t)n, (uint8_t)(n >> 8) };
            const size_t before = command ? 9 : 2, length = before + n + !command;
            bool all;

            for (size_t i = 0; i < n; i++)
                data[i] = patterned(n, i);
            fill(&space);
            all = write(command != 0, n, length) == 0 && memcmp(space.bytes, head + 9 - before, before) == 0 && untouched_from(&space, length)
                && (command || space.bytes[length - 1] == status);
            for (size_t i = 0; i < n; i++)
                all = all && space.bytes[before + i] == patterned(n, i);
            expect(all, command ? "a command" : "a response", "data of each size");
            fill(&space);
            expect(write(command != 0, n, length - 1) == HEXBUS_SHORT_BUFFER && untouched_from(&space, 0), command ? "a command" : "a response",
                   "of each size, in one byte less");
        }
}

/* ---- Device codes ------------------------------------------------------ */

static void check_classes(void)
{
    static const uint8_t ranges[21][2] = {
        { 0, 0 }, { 1, 8 }, { 10, 11 }, { 12, 13 }, { 14, 15 }, { 16, 17 }, { 18, 19 }, { 20, 23 }, { 30, 33 }, { 40, 43 }, { 50, 53 },
        { 60, 67 }, { 70, 73 }, { 80, 87 }, { 90, 93 }, { 94, 95 }, { 100, 109 }, { 110, 117 }, { 240, 244 }, { 245, 254 }, { 255, 255 }
    };

    section = "classes";
    for (unsigned code = 0; code < 256; code++) {
        unsigned class = 0;
        char name[16];

        for (unsigned i = 0; i < 21; i++)
            if (ranges[i][0] <= code && code <= ranges[i][1])
                class = i + 1;
        snprintf(name, sizeof name, "code %u", code);
        expect(hexbus_class((uint8_t)code) == class, name, "its class");
    }
}

/* ---- The other end of the lines ---------------------------------------- */

struct end {
    bool bav, hsk;
    uint8_t nibble;
    uint8_t stage;               /* of its sender */
    bool ready;                  /* its listener */
    size_t place;                /* nibbles of the message that are done or taken */
    uint8_t taken[MOST + 2 * GUARD];
};

static struct end end;

static void quiet_end(void)
{
    end.bav = end.hsk = false;
    end.nibble = 15;
    end.stage = 0;
    end.ready = true;
    end.place = 0;
}

static void end_sends(const uint8_t *message, bool hsk)
{
    switch (end.stage) {
    case 0:
        end.hsk = true;
        end.nibble = (uint8_t)((unsigned)message[end.place / 2] >> 4 * (end.place % 2) & 15u);
        end.stage = 1;
        return;
    case 1:
        end.hsk = false;
        end.stage = 2;
        return;
    default:
        if (hsk)
            return;
        end.nibble = 15;
        end.stage = 0;
        end.place++;
    }
}

static void end_listens(bool hsk, uint8_t level)
{
    bool held = end.hsk;
    uint8_t *byte = &end.taken[end.place / 2];

    end.hsk = end.ready && hsk;
    if (end.hsk) {
        *byte = (uint8_t)(end.place % 2 == 0 ? level : *byte | level << 4);
        end.place++;
        end.ready = false;
    } else {
        end.ready = end.ready || (!held && !hsk);
    }
}

/* What both ends see. */
struct seen {
    bool bav, hsk;
    uint8_t nibble;
};

static struct seen levels(hexbus_pulls pulls)
{
    return (struct seen){ end.bav || (pulls & HEXBUS_BAV) != 0, end.hsk || (pulls & HEXBUS_HSK) != 0, (uint8_t)(end.nibble & pulls & HEXBUS_NIBBLE) };
}

static struct seen read_levels(void)
{
    struct seen s = { false, false, 15 };

    while (*rest_of == ' ')
        rest_of++;
    s.bav = *rest_of++ == 'B';
    s.hsk = *rest_of++ == 'H';
    s.nibble = (uint8_t)number(10);
    return s;
}

static void say_pulls(hexbus_pulls pulls)
{
    say("%c%c %u", (pulls & HEXBUS_BAV) != 0 ? 'B' : '-', (pulls & HEXBUS_HSK) != 0 ? 'H' : '-', (unsigned)(pulls & HEXBUS_NIBBLE));
}

/* A host that is free in every n-th round; never for 0. */
static bool is_busy(unsigned n, unsigned round)
{
    return n == 0 || round % n != 0;
}

/* ---- A unit ------------------------------------------------------------ */

/*
 * frame BYTES: a whole frame; the response, and the round in which it ends, the first being that in which BAV is pulled. BAV goes high
 * behind the round after "cut", the host is free in every n-th round after "free", and a byte is fed in the round after "feeding".
 * feed BYTES: the last one's answer. drain: all bytes that can be taken. see: a step at these levels; what is pulled then. So much of the
 * output is lent as stands after "output", and first, in a step that is refused, as stands after "short".
 */
static const struct row unit_rows[] = {
    { "make 0 20", "5", "" }, { "make 20 3", "5", "" }, { "make 20 65536", "5", "" }, { "make 20 4294967295", "5", "" },
    { "make 0 3", "5", "" }, { "make 255 65535", "0", "closed 0 in 0 out 0" }, { "make 1 4", "0", "" }, { "make 20 20", "0", "" },
    /* open, write, read, poll, enable, disable, close */
    { "frame 14 00 01 00 00 04 00 03 00 50 00 C0", " 04 00 50 00 00 00 00 in 155", "update 80 in 0 out 0" },
    { "frame 14 04 00 00 00 00 00 03 00 41 42 43", " 00 00 00 in 123", "update 80 in 0 out 3" },
    { "take", "41", "update 80 in 0 out 2" }, { "take", "42", "update 80 in 0 out 1" }, { "take", "43", "update 80 in 0 out 0" },
    { "take", "nothing", NULL },
    { "feed 44 45 46", "0", "update 80 in 3 out 0" },
    { "frame 14 03 00 00 00 02 00 00 00", " 02 00 44 45 00 in 115", "update 80 in 1 out 0" },
    { "frame 14 03 00 00 00 02 00 00 00", " 01 00 46 00 in 107", "update 80 in 0 out 0" },
    { "frame 14 03 00 00 00 02 00 00 00", " 00 00 00 in 99", NULL },
    { "feed 32 37 32 39 35", "0", "update 80 in 5 out 0" },   /* source document 000, 7.2 */
    { "frame 14 03 01 00 00 50 00 00 00", " 05 00 32 37 32 39 35 00 in 139", "update 80 in 0 out 0" },
    { "frame 14 0A 00 00 00 00 00 00 00", " 00 00 0A in 99", NULL },
    { "raise", "7", NULL },
    { "frame 14 08 00 00 00 00 00 00 00", " 00 00 00 in 99", "update 80 in 0 out 0 enabled" },
    { "frame 14 0A 00 00 00 00 00 00 00", " 00 00 0A in 99", NULL },
    { "raise", "0", "update 80 in 0 out 0 enabled requesting" }, { "raise", "0", NULL },
    { "frame 14 0A 00 00 00 00 00 00 00", " 00 00 00 in 99", "update 80 in 0 out 0 enabled" },
    { "frame 14 0A 00 00 00 00 00 00 00", " 00 00 0A in 99", NULL },
    { "raise", "0", "update 80 in 0 out 0 enabled requesting" },
    { "frame 14 09 00 00 00 00 00 00 00", " 00 00 00 in 99", "update 80 in 0 out 0" },
    { "raise", "7", NULL },
    { "frame 14 04 00 00 00 00 00 02 00 61 62", " 00 00 00 in 115", "update 80 in 0 out 2" },
    { "frame 14 08 00 00 00 00 00 00 00", " 00 00 00 in 99", "update 80 in 0 out 2 enabled" },
    { "raise", "0", "update 80 in 0 out 2 enabled requesting" }, { "feed 51", "0", "update 80 in 1 out 2 enabled requesting" },
    { "frame 14 01 00 00 00 00 00 00 00", " 00 00 00 in 99", "closed 0 in 0 out 2" },
    { "take", "61", "closed 0 in 0 out 1" }, { "take", "62", "closed 0 in 0 out 0" },
    /* closed */
    { "frame 14 03 00 00 00 50 00 00 00", " 00 00 04 in 99", NULL }, { "frame 14 04 00 00 00 50 00 01 00 41", " 00 00 04 in 107", NULL },
    { "frame 14 08 00 00 00 50 00 00 00", " 00 00 04 in 99", NULL }, { "frame 14 09 00 00 00 50 00 00 00", " 00 00 04 in 99", NULL },
    { "frame 14 01 00 00 00 50 00 00 00", " 00 00 04 in 99", NULL }, { "frame 14 0A 00 00 00 50 00 00 00", " 00 00 0A in 99", NULL },
    { "feed 41", "7", NULL }, { "raise", "7", NULL },
    /* codes that are not supported; FE and FF; code 0, and another's */
    { "frame 14 02 00 00 00 00 00 00 00", " 00 00 0D in 99", NULL }, { "frame 14 0B 00 00 00 00 00 00 00", " 00 00 0D in 99", NULL },
    { "frame 14 0D 00 00 00 00 00 00 00", " 00 00 0D in 99", NULL }, { "frame 14 FD 00 00 00 00 00 00 00", " 00 00 0D in 99", NULL },
    { "frame 14 FE 00 00 00 00 00 00 00", "none", NULL }, { "frame 00 FE 00 00 00 00 00 00 00", "none", NULL },
    { "frame 14 00 00 00 00 04 00 03 00 80 00 40", " 04 00 80 00 00 00 00 in 155", "input 128 in 0 out 0" },
    { "frame 00 01 00 00 00 00 00 00 00", "none", NULL }, { "frame 15 01 00 00 00 00 00 00 00", "none", NULL },
    { "frame 14 01 FF FF FF 00 00 00 00", " 00 00 00 in 99", "closed 0 in 0 out 0" },
    { "frame 00 00 00 00 00 04 00 03 00 50 00 C0", "none", NULL }, { "frame 15 00 00 00 00 04 00 03 00 50 00 C0", "none", NULL },
    { "frame 14 00 00 00 00 04 00 03 00 50 00 C0", " 04 00 50 00 00 00 00 in 155", "update 80 in 0 out 0" },
    { "frame 14 04 00 00 00 00 00 01 00 31", " 00 00 00 in 107", "update 80 in 0 out 1" }, { "feed 32", "0", "update 80 in 1 out 1" },
    { "frame 14 08 00 00 00 00 00 00 00", " 00 00 00 in 99", "update 80 in 1 out 1 enabled" },
    { "raise", "0", "update 80 in 1 out 1 enabled requesting" },
    { "frame 14 FE 00 00 00 00 00 00 00", "none", NULL }, { "frame 15 FF 00 00 00 00 00 00 00", "none", NULL },
    { "frame 00 FF 00 00 00 00 00 00 00", "none", "closed 0 in 0 out 0" },
    { "frame 14 00 00 00 00 04 00 03 00 50 00 C0", " 04 00 50 00 00 00 00 in 155", "update 80 in 0 out 0" },
    { "frame 14 FF 00 00 00 00 00 00 00", "none", "closed 0 in 0 out 0" },
    /* open: what is looked at first */
    { "frame 14 00 00 00 00 04 00 00 00", " 00 00 02 in 99", NULL }, { "frame 14 00 00 00 00 00 00 02 00 81 FF", " 00 00 02 in 115", NULL },
    { "frame 14 00 00 00 00 04 00 03 00 50 00 20", " 00 00 13 in 123", NULL }, { "frame 14 00 00 00 00 03 00 03 00 81 00 3F", " 00 00 13 in 123", NULL },
    { "frame 14 00 00 00 00 03 00 04 00 81 00 E0 42", " 00 00 11 in 131", NULL },
    { "frame 14 00 00 00 00 04 00 03 00 FF FF C0", " 00 00 0C in 123", NULL }, { "frame 14 00 00 00 00 04 00 03 00 00 01 C0", " 00 00 0C in 123", NULL },
    { "frame 14 00 00 00 00 03 00 03 00 50 00 C0", " 00 00 0C in 123", NULL },
    { "frame 14 00 00 00 00 04 00 04 00 81 00 C0 42", " 00 00 0C in 131", NULL },
    { "frame 14 00 00 00 00 04 00 04 00 50 00 C0 42", " 00 00 01 in 131", NULL },
    { "frame 14 00 01 00 00 04 00 0D 00 00 00 80 42 3D 34 38 30 30 2C 50 3D 4F", " 00 00 01 in 203", NULL },   /* 7.1 has options */
    { "frame 14 00 00 00 00 FF FF 03 00 01 00 DF", " 04 00 01 00 00 00 00 in 155", "update 1 in 0 out 0" },
    { "frame 14 00 00 00 00 00 00 00 00", " 00 00 05 in 99", NULL }, { "frame 14 01 00 00 00 00 00 00 00", " 00 00 00 in 99", "closed 0 in 0 out 0" },
    /* open for input, for output */
    { "frame 14 00 00 00 00 04 00 03 00 00 00 40", " 04 00 80 00 00 00 00 in 155", "input 128 in 0 out 0" },
    { "frame 14 04 00 00 00 00 00 01 00 41", " 00 00 0E in 107", NULL }, { "frame 14 04 00 00 00 00 00 00 00", " 00 00 0E in 99", NULL },
    { "frame 14 01 00 00 00 00 00 00 00", " 00 00 00 in 99", "closed 0 in 0 out 0" },
    { "frame 14 00 00 00 00 04 00 03 00 50 00 80", " 04 00 50 00 00 00 00 in 155", "output 80 in 0 out 0" },
    { "feed 41", "7", NULL }, { "raise", "7", NULL },
    { "frame 14 01 00 00 00 00 00 00 00", " 00 00 00 in 99", "closed 0 in 0 out 0" },
    /* requested length 0 (02, P5): 128 bytes are read at once, the 129th is not; 80 by name is 80; buffer 3 and an option byte as before */
    { "frame 14 00 00 00 00 03 00 03 00 00 00 C0", " 00 00 0C in 123", NULL },
    { "frame 14 00 00 00 00 04 00 04 00 00 00 C0 42", " 00 00 01 in 131", NULL },
    { "frame 14 00 00 00 00 04 00 03 00 00 00 C0", " 04 00 80 00 00 00 00 in 155", "update 128 in 0 out 0" },
    { "feed 100*20", "0", "update 128 in 100 out 0" },
    { "frame 14 03 00 00 00 80 00 00 00", " 64 00 100*20 00 in 899", "update 128 in 0 out 0" },
    { "feed 100*20", "0", "update 128 in 100 out 0" },
    { "frame 14 03 00 00 00 50 00 00 00", " 50 00 80*20 00 in 739", "update 128 in 20 out 0" },
    { "frame 14 03 00 00 00 50 00 00 00", " 14 00 20*70 00 in 259", "update 128 in 0 out 0" },
    { "feed 128*20", "0", "update 128 in 128 out 0" },
    { "frame 14 03 00 00 00 FF FF 00 00", " 80 00 128*20 00 in 1123", "update 128 in 0 out 0" },
    { "feed 129*20", "0", "update 128 in 129 out 0" },
    { "frame 14 03 00 00 00 FF FF 00 00", " 80 00 128*20 00 in 1123", "update 128 in 1 out 0" },
    { "frame 14 03 00 00 00 FF FF 00 00", " 01 00 A0 00 in 107", "update 128 in 0 out 0" },
    { "frame 14 01 00 00 00 00 00 00 00", " 00 00 00 in 99", "closed 0 in 0 out 0" },
    { "frame 14 00 00 00 00 04 00 03 00 50 00 40", " 04 00 50 00 00 00 00 in 155", "input 80 in 0 out 0" },
    { "feed 100*20", "0", "input 80 in 100 out 0" },
    { "frame 14 03 00 00 00 80 00 00 00", " 50 00 80*20 00 in 739", "input 80 in 20 out 0" },
    { "frame 14 03 00 00 00 80 00 00 00", " 14 00 20*70 00 in 259", "input 80 in 0 out 0" },
    { "frame 14 01 00 00 00 00 00 00 00", " 00 00 00 in 99", "closed 0 in 0 out 0" },
    /* data of 256 and more: all is handshaken; 0D goes before 08 */
    { "frame 14 0D 00 00 00 00 00 00 01 256*00", " 00 00 0D in 2147", NULL }, { "frame 14 0D 00 00 00 00 00 01 01 257*00", " 00 00 0D in 2155", NULL },
    { "frame 14 04 00 00 00 00 00 00 01 256*00", " 00 00 04 in 2147", NULL }, { "frame 14 04 00 00 00 00 00 01 01 257*00", " 00 00 08 in 2155", NULL },
    { "frame 14 00 00 00 00 04 00 01 01 257*00", " 00 00 08 in 2155", NULL }, { "frame 14 FE 00 00 00 00 00 2C 01 300*00", "none", NULL },
    { "frame 14 04 00 00 00 00 00 FF FF 65535*00", " 00 00 08 in 524379", NULL },
    /* queues: 256 bytes, and room that is used again */
    { "frame 14 00 00 00 00 04 00 03 00 80 00 C0", " 04 00 80 00 00 00 00 in 155", "update 128 in 0 out 0" },
    { "feed 255*00", "0", "update 128 in 255 out 0" }, { "feed FF", "0", "update 128 in 256 out 0" }, { "feed 00", "6", NULL },
    { "frame 14 03 00 00 00 50 00 00 00", " 50 00 80*00 00 in 739", "update 128 in 176 out 0" },
    { "feed 80*00", "0", "update 128 in 256 out 0" }, { "feed 00", "6", NULL },
    { "frame 14 03 00 00 00 80 00 00 00", " 80 00 128*50 00 in 1123", "update 128 in 128 out 0" },
    { "frame 14 03 00 00 00 FF FF 00 00", " 80 00 128*D0 00 in 1123", "update 128 in 0 out 0" },
    { "feed 41 42", "0", "update 128 in 2 out 0" },
    { "feeding 90 frame 14 03 00 00 00 05 00 00 00", " 02 00 41 42 00 in 115", "update 128 in 1 out 0" },
    { "frame 14 03 00 00 00 05 00 00 00", " 01 00 5A 00 in 107", "update 128 in 0 out 0" },
    { "feed 200*00", "0", "update 128 in 200 out 0" },
    { "frame 14 03 00 00 00 00 00 00 00", " 00 00 00 in 99", NULL },
    { "frame 14 03 00 00 00 FF FF 00 00", " 80 00 128*00 00 in 1123", "update 128 in 72 out 0" },
    { "frame 14 04 00 00 00 00 00 64 00 100*00", " 00 00 00 in 899", "update 128 in 72 out 100" },
    { "frame 14 04 00 00 00 00 00 9D 00 157*64", " 00 00 08 in 1355", NULL },
    { "frame 14 04 00 00 00 00 00 9C 00 156*64", " 00 00 00 in 1347", "update 128 in 72 out 256" },
    { "frame 14 04 00 00 00 00 00 01 00 FF", " 00 00 08 in 107", NULL }, { "frame 14 04 00 00 00 00 00 00 00", " 00 00 00 in 99", NULL },
    { "frame 14 01 00 00 00 00 00 00 00", " 00 00 00 in 99", "closed 0 in 0 out 256" },
    { "frame 14 00 00 00 00 04 00 03 00 80 00 C0", " 04 00 80 00 00 00 00 in 155", "update 128 in 0 out 256" },
    { "take", "00", "update 128 in 0 out 255" }, { "take", "01", "update 128 in 0 out 254" },
    { "frame 14 04 00 00 00 00 00 03 00 A1 A2 A3", " 00 00 08 in 123", NULL },
    { "frame 14 04 00 00 00 00 00 02 00 A1 A2", " 00 00 00 in 115", "update 128 in 0 out 256" },
    { "drain", " 254*02 A1 A2", "update 128 in 0 out 0" },
    { "frame 14 04 00 00 00 00 00 01 01 257*00", " 00 00 08 in 2155", NULL },
    { "frame 14 04 00 00 00 00 00 00 01 256*00", " 00 00 00 in 2147", "update 128 in 0 out 256" },
    { "drain", " 256*00", "update 128 in 0 out 0" },
    /* a busy host holds a nibble */
    { "free 4 frame 14 0A 00 00 00 00 00 00 00", " 00 00 0A in 102", NULL }, { "free 7 frame 14 0A 00 00 00 00 00 00 00", " 00 00 0A in 152", NULL },
    { "free 2 frame 14 0A 00 00 00 00 00 00 00", " 00 00 0A in 100", NULL },
    { "free 0 cut 30 frame 14 01 00 00 00 00 00 00 00", "cut", NULL },
    /* BAV goes high: effects at the last nibble taken, bytes and request at the last nibble done */
    { "cut 87 frame 14 04 00 00 00 00 00 02 00 61 62", "cut", NULL },
    { "cut 88 frame 14 04 00 00 00 00 00 02 00 61 62", "cut", "update 128 in 0 out 2" },
    { "cut 92 frame 14 04 00 00 00 00 00 02 00 63 64", "cut", "update 128 in 0 out 4" }, { "drain", " 61 62 63 64", "update 128 in 0 out 0" },
    { "frame 14 08 00 00 00 00 00 00 00", " 00 00 00 in 99", "update 128 in 0 out 0 enabled" },
    { "raise", "0", "update 128 in 0 out 0 enabled requesting" }, { "feed 3*00", "0", "update 128 in 3 out 0 enabled requesting" },
    { "cut 2 frame 14 01 00 00 00 00 00 00 00", "cut", NULL }, { "cut 4 frame 14 01 00 00 00 00 00 00 00", "cut", NULL },
    { "cut 41 frame 14 01 00 00 00 00 00 00 00", "cut", NULL }, { "cut 71 frame 14 01 00 00 00 00 00 00 00", "cut", NULL },
    { "cut 96 frame 14 03 00 00 00 05 00 00 00", "cut", NULL }, { "cut 122 frame 14 03 00 00 00 05 00 00 00", "cut", NULL },
    { "cut 123 frame 14 03 00 00 00 05 00 00 00", "cut", "update 128 in 0 out 0 enabled requesting" },
    { "cut 98 frame 14 0A 00 00 00 00 00 00 00", "cut", NULL },
    { "cut 99 frame 14 0A 00 00 00 00 00 00 00", "cut", "update 128 in 0 out 0 enabled" },
    { "raise", "0", "update 128 in 0 out 0 enabled requesting" },
    { "cut 72 frame 14 01 00 00 00 00 00 00 00", "cut", "closed 0 in 0 out 0" },
    /* steps: refusals, 5 before 11 */
    { "make 20 20", "0", NULL }, { "see B- 16", "refusal 5", NULL }, { "room 255 see B- 15", "refusal 11", NULL },
    { "room 255 see B- 255", "refusal 5", NULL }, { "room 0 see B- 0", "refusal 11", NULL },
    { "output 255 see B- 15", "refusal 11", NULL }, { "output 0 see B- 15", "refusal 11", NULL }, { "output 255 see B- 16", "refusal 5", NULL },
    { "output 256 short 255 frame 14 0A 00 00 00 00 00 00 00", " 00 00 0A in 99", NULL },
    /* HSK low with BAV high counts for nothing; both low at once: sits out */
    { "see -H 15", "-- 15", NULL }, { "see BH 4", "-- 15", NULL }, { "see B- 15", "-- 15", NULL }, { "see BH 4", "-- 15", NULL },
    { "see -- 15", "-- 15", NULL },
    /* a nibble is taken once, and the listener that holds does not look */
    { "see B- 15", "-- 15", NULL }, { "see BH 4", "-H 15", NULL }, { "busy see BH 4", "-H 15", NULL }, { "busy see B- 4", "-H 15", NULL },
    { "see BH 9", "-- 15", NULL }, { "see BH 9", "-- 15", NULL }, { "see B- 9", "-- 15", NULL }, { "see BH 1", "-H 15", NULL },
    { "see B- 15", "-- 15", NULL }, { "see B- 15", "-- 15", NULL }, { "see BH 1", "-H 15", NULL }, { "see -H 1", "-- 15", NULL },
    /* another's code: the pull of the round, busy or not */
    { "see B- 15", "-- 15", NULL }, { "see BH 5", "-H 15", NULL }, { "see BH 5", "-- 15", NULL }, { "see B- 5", "-- 15", NULL },
    { "see BH 1", "-H 15", NULL }, { "busy see BH 1", "-- 15", NULL }, { "busy see BH 1", "-- 15", NULL }, { "see -- 15", "-- 15", NULL },
    /* a response begins two rounds after HSK was seen high; four rounds to a nibble */
    { "cut 73 frame 14 0A 00 00 00 00 00 00 00", "cut", NULL },
    /* the request: retry 4, the present round included, counted with or without one */
    { "make 20 4", "0", NULL }, { "frame 14 00 00 00 00 04 00 03 00 50 00 C0", " 04 00 50 00 00 00 00 in 155", "update 80 in 0 out 0" },
    { "frame 14 08 00 00 00 00 00 00 00", " 00 00 00 in 99", "update 80 in 0 out 0 enabled" },
    { "times 5 see -- 15", "-- 15", NULL }, { "raise", "0", "update 80 in 0 out 0 enabled requesting" },
    { "see -- 15", "B- 15", NULL }, { "see -- 15", "B- 15", NULL }, { "times 3 see B- 15", "B- 15", NULL }, { "see BH 4", "-H 15", NULL },
    { "see B- 4", "-- 15", NULL }, { "times 3 see -- 15", "-- 15", NULL }, { "see -- 16", "refusal 5", NULL }, { "see -- 15", "B- 15", NULL },
    { "see -H 15", "-- 15", NULL }, { "see -- 15", "B- 15", NULL }, { "see BH 15", "-- 15", NULL }, { "times 3 see -- 15", "-- 15", NULL },
    { "see B- 15", "-- 15", NULL }, { "times 3 see -- 15", "-- 15", NULL }, { "see -- 15", "B- 15", NULL },
    { "frame 14 0A 00 00 00 00 00 00 00", " 00 00 00 in 99", "update 80 in 0 out 0 enabled" }, { "times 6 see -- 15", "-- 15", NULL },
    { "raise", "0", "update 80 in 0 out 0 enabled requesting" }, { "see -- 15", "B- 15", NULL },
    { "frame 14 09 00 00 00 00 00 00 00", " 00 00 00 in 99", "update 80 in 0 out 0" }, { "times 6 see -- 15", "-- 15", NULL },
    { "make 20 65535", "0", "closed 0 in 0 out 0" }, { "frame 14 00 00 00 00 04 00 03 00 50 00 C0", " 04 00 50 00 00 00 00 in 155", "update 80 in 0 out 0" },
    { "frame 14 08 00 00 00 00 00 00 00", " 00 00 00 in 99", "update 80 in 0 out 0 enabled" },
    { "raise", "0", "update 80 in 0 out 0 enabled requesting" }, { "times 65532 see -- 15", "-- 15", NULL }, { "see -- 15", "B- 15", NULL },
};

static hexbus_unit unit;
static uint8_t input[HEXBUS_QUEUE_BYTES], output[HEXBUS_SCREEN_BYTES + GUARD];
static struct lent command, command_before;
static uint8_t own;
static size_t output_room;       /* what is lent of the output */
static size_t too_short;         /* and first, with nothing done, so little of it; 0 where not */

static bool is_video(void)
{
    return own >= 30 && own <= 33;
}

/* 11, and neither words nor lent memory change. */
static bool refuses(struct seen s, bool busy)
{
    hexbus_unit before = unit;
    uint8_t output_before[sizeof output], command_front[HEXBUS_COMMAND_BUFFER_BYTES];

    memcpy(output_before, output, sizeof output);
    memcpy(command_front, command.bytes, sizeof command_front);
    return hexbus_unit_step(&unit, s.bav, s.hsk, s.nibble, busy, command.bytes, sizeof command.bytes, input, output, too_short)
            == HEXBUS_SHORT_BUFFER
        && memcmp(&before, &unit, sizeof unit) == 0 && memcmp(output_before, output, sizeof output) == 0
        && memcmp(command_front, command.bytes, sizeof command_front) == 0;
}

static void see(struct seen s, bool busy, size_t room)
{
    hexbus_refusal refusal;

    if (too_short != 0)
        expect(refuses(s, busy), "a step with too short an output", "11, and nothing changes");
    refusal = hexbus_unit_step(&unit, s.bav, s.hsk, s.nibble, busy, command.bytes, room, input, output, output_room);
    clear_text();
    if (refusal != 0)
        say("refusal %u", (unsigned)refusal);
    else
        say_pulls(hexbus_unit_pulls(&unit));
}

/* What the command buffer must hold: data that is whole and not over 256 bytes, of a frame to this unit's code or code 0. */
static void expect_stored(const uint8_t *message, size_t n)
{
    if ((message[0] == own || message[0] == 0) && n - HEXBUS_COMMAND_HEAD <= HEXBUS_COMMAND_BUFFER_BYTES)
        memcpy(command_before.bytes, message + HEXBUS_COMMAND_HEAD, n - HEXBUS_COMMAND_HEAD);
}

static void unit_frame(const uint8_t *message, size_t n, unsigned free, unsigned cut, unsigned feeding)
{
    size_t whole = 0;
    unsigned round, high = 0;
    bool sent = false;

    quiet_end();
    for (round = 1; round != cut; round++) {
        struct seen s = levels(hexbus_unit_pulls(&unit));

        see(s, is_busy(free, round), sizeof command.bytes);
        if (round == feeding)
            hexbus_unit_feed(&unit, input, 0x5A);
        end.bav = true;
        if (!sent) {
            if (round > 2)
                end_sends(message, s.hsk);
            sent = end.place == 2 * n;
            end.place = sent ? 0 : end.place;
            continue;
        }
        end_listens(s.hsk, s.nibble);
        if (end.place == 4)
            whole = 2 * (HEXBUS_RESPONSE_LEAST + (size_t)end.taken[0] + 256u * end.taken[1]);
        high = s.hsk ? 0 : high + 1;
        if (high == SILENCE || (whole != 0 && end.place == whole && !s.hsk && !end.hsk))
            break;
    }
    if (round == cut)
        see(levels(hexbus_unit_pulls(&unit)), is_busy(free, round), sizeof command.bytes);
    quiet_end();
    for (int i = 0; i < 2; i++)
        see(levels(hexbus_unit_pulls(&unit)), false, sizeof command.bytes);
    clear_text();
    if (cut != 0) {
        say("cut");
        memcpy(&command_before, &command, sizeof command);
        return;
    }
    expect_stored(message, n);
    if (whole == 0) {
        say("none");
        return;
    }
    say_bytes(end.taken, whole / 2);
    say(" in %u", round);
}

/* ---- A screen's cells -------------------------------------------------- */

enum { ROWS = 24, COLUMNS = 80, CELLS = ROWS * COLUMNS, BLANK = 0x20 };

/* The pattern: no blank in it, and no cell like one that is 1, 79, 80 or 81 places away, or in its column. */
static uint8_t painted(unsigned row, unsigned column)
{
    return (uint8_t)(0x21 + (column + 11 * row) % 94);
}

static void paint(uint8_t *cells)
{
    for (unsigned i = 0; i < CELLS; i++)
        cells[i] = painted(i / COLUMNS, i % COLUMNS);
}

/* What is not blank, row by row. */
static void say_cells(void)
{
    uint8_t pattern[CELLS];

    paint(pattern);
    if (memcmp(output, pattern, CELLS) == 0) {
        say("painted");
        return;
    }
    for (size_t i = 0, n; i < CELLS; i += n + 1) {
        for (n = 0; i + n < CELLS && output[i + n] != BLANK; n++)
            ;
        if (n > 0) {
            say("%zu %zu:", i / COLUMNS, i % COLUMNS);
            say_bytes(output + i, n);
            say(" ");
        }
    }
    if (made_length == 0)
        say("blank");
}

static void unit_call(void)
{
    static uint8_t message[MOST + 2 * GUARD];
    unsigned times = option("times", 1), free = option("free", 1), cut = option("cut", 0), feeding = option("feeding", 0);
    size_t room = option("room", HEXBUS_COMMAND_BUFFER_BYTES);
    bool busy = next_is("busy");
    uint32_t answer = 0;

    output_room = option("output", sizeof output);
    too_short = option("short", 0);
    clear_text();
    if (next_is("frame")) {
        size_t n = read_bytes(message);

        unit_frame(message, n, free, cut, feeding);
    } else if (next_is("paint")) {
        paint(output);
    } else if (next_is("cells")) {
        say_cells();
    } else if (next_is("see")) {
        struct seen s = read_levels();

        while (times-- > 0)
            see(s, busy, room);
    } else if (next_is("drain")) {
        size_t n = 0;

        for (uint32_t b; n < MOST && (b = hexbus_unit_take(&unit, output)) != HEXBUS_NO_BYTE;)
            bytes[n++] = (uint8_t)b;
        say_bytes(bytes, n);
    } else if (next_is("take")) {
        answer = hexbus_unit_take(&unit, output);
        say(answer == HEXBUS_NO_BYTE ? "nothing" : "%02X", (unsigned)answer);
    } else {
        if (next_is("make")) {
            uint8_t code = (uint8_t)number(10);

            answer = hexbus_unit_make(&unit, code, number(10));
            own = answer == 0 ? code : own;
        } else if (next_is("feed")) {
            size_t n = read_bytes(bytes);

            for (size_t i = 0; i < n; i++)
                answer = hexbus_unit_feed(&unit, input, bytes[i]);
        } else if (next_is("raise")) {
            answer = hexbus_unit_raise(&unit);
        } else {
            answer = 99;
        }
        say("%u", (unsigned)answer);
    }
}

static void say_screen(void)
{
    hexbus_screen_looks l;

    hexbus_screen_look(&unit, &l);
    say("%u %u%s%s%s%s%s%s", (unsigned)l.row, (unsigned)l.column, l.scrolls != 0 ? "" : " page", l.wraps != 0 ? "" : " nowrap",
        l.top != 0 ? " top" : "", l.bottom != 0 ? " bottom" : "", l.asked != 0 ? " asked" : "", l.reading != 0 ? " reading" : "");
}

/* The bytes behind a unit's output, or cells, stay. */
static bool output_ends(void)
{
    size_t n = is_video() ? HEXBUS_SCREEN_BYTES : HEXBUS_QUEUE_BYTES;

    while (n < sizeof output && output[n] == BEFORE)
        n++;
    return n == sizeof output;
}

static void look_unit(void)
{
    static const char *const openings[] = { "closed", "input", "output", "update" };
    hexbus_unit_looks l;

    hexbus_unit_look(&unit, &l);
    clear_text();
    say("%s %u in %u out %u%s%s", openings[l.opening & 3u], (unsigned)l.accepted_length, (unsigned)l.input_count, (unsigned)l.output_count,
        l.enabled != 0 ? " enabled" : "", l.requesting != 0 ? " requesting" : "");
    if (is_video()) {
        say(" at ");
        say_screen();
    }
    expect(output_ends(), "a unit", "bytes behind its output stay");
}

/* ---- A video unit ------------------------------------------------------ */

/*
 * Codes 30 to 33 (02, P13; 000, display chapter, section 4), as a serial unit's rows, but that cursor and modes can be looked at too: row,
 * column, and what is not as at power up. paint: all cells get a pattern. cells: those that are not blank, row and column of the first before
 * them.
 */
#define OPEN_30 "frame 1E 00 00 00 00 04 00 03 00 50 00 C0"
#define OPENED_30 " 04 00 50 00 00 00 00 in 155"
#define DATA_257 "00 00 00 04 00 01 01 257*00"
#define DATA_256 "00 00 00 04 00 00 01 256*00"
static const struct row video_rows[] = {
    /* by code alone: 29 and 34 are serial units, 31 to 33 are not */
    { "make 29 20", "0", "closed 0 in 0 out 0" }, { "frame 1D 00 00 00 00 04 00 03 00 50 00 40", OPENED_30, "input 80 in 0 out 0" },
    { "feed 41", "0", "input 80 in 1 out 0" }, { "frame 1D 08" ZEROS, " 00 00 00 in 99", "input 80 in 1 out 0 enabled" },
    { "output 256 see -- 15", "-- 15", NULL }, { "make 34 20", "0", "closed 0 in 0 out 0" },
    { "frame 22 00 00 00 00 04 00 03 00 50 00 40", OPENED_30, "input 80 in 0 out 0" }, { "feed 41", "0", "input 80 in 1 out 0" },
    { "frame 22 08" ZEROS, " 00 00 00 in 99", "input 80 in 1 out 0 enabled" }, { "output 256 see -- 15", "-- 15", NULL },
    { "make 31 20", "0", "closed 0 in 0 out 0 at 0 0" }, { "frame 1F 00 00 00 00 04 00 03 00 50 00 40", " 00 00 15 in 123", NULL },
    { "make 32 20", "0", NULL }, { "frame 20 00 00 00 00 04 00 03 00 50 00 40", " 00 00 15 in 123", NULL }, { "make 33 20", "0", NULL },
    { "frame 21 00 00 00 00 04 00 03 00 50 00 40", " 00 00 15 in 123", NULL },
    /* 0D, and before it goes nothing but FE, FF and code 0; then 08, for a poll too; then 04, but a poll's 0A */
    { "make 30 20", "0", NULL }, { "paint", "", NULL }, { "cells", "painted", NULL }, { "frame 1E 08" ZEROS, " 00 00 0D in 99", NULL },
    { "frame 1E 09" ZEROS, " 00 00 0D in 99", NULL }, { "frame 1E 08 " DATA_257, " 00 00 0D in 2155", NULL },
    { "frame 1E 09 " DATA_257, " 00 00 0D in 2155", NULL }, { "frame 1E 02" ZEROS, " 00 00 0D in 99", NULL },
    { "frame 1E 05" ZEROS, " 00 00 0D in 99", NULL }, { "frame 1E 07 00 00 00 09 00 00 00", " 00 00 0D in 99", NULL },
    { "frame 1E 0B " DATA_257, " 00 00 0D in 2155", NULL }, { "frame 1E 00 " DATA_257, " 00 00 08 in 2155", NULL },
    { "frame 1E 01 " DATA_257, " 00 00 08 in 2155", NULL }, { "frame 1E 03 " DATA_257, " 00 00 08 in 2155", NULL },
    { "frame 1E 04 " DATA_257, " 00 00 08 in 2155", NULL }, { "frame 1E 0A " DATA_257, " 00 00 08 in 2155", NULL },
    { "frame 1E 0A " DATA_256, " 00 00 0A in 2147", NULL }, { "frame 1E 01 " DATA_256, " 00 00 04 in 2147", NULL },
    { "frame 1E 03 " DATA_256, " 00 00 04 in 2147", NULL }, { "frame 1E 04 " DATA_256, " 00 00 04 in 2147", NULL },
    { "frame 1E 0A" ZEROS, " 00 00 0A in 99", NULL }, { "frame 1E FE" ZEROS, "none", NULL }, { "frame 00 FE" ZEROS, "none", NULL },
    { "frame 00 00 00 00 00 04 00 03 00 50 00 C0", "none", NULL }, { "frame 1F 00 00 00 00 04 00 03 00 50 00 C0", "none", NULL },
    { "frame 1E FF" ZEROS, "none", NULL }, { "frame 00 FF" ZEROS, "none", NULL }, { "feed 41", "7", NULL }, { "raise", "7", NULL },
    { "take", "nothing", NULL },
    /* open (4.2.1), on both sides of each limit, and with what is looked at later wrong too */
    { "frame 1E 00 00 00 00 03 00 00 00", " 00 00 02 in 99", NULL }, { "frame 1E 00 00 00 00 03 00 02 00 81 60", " 00 00 02 in 115", NULL },
    { "frame 1E 00 00 00 00 03 00 04 00 81 00 00 52", " 00 00 13 in 131", NULL },
    { "frame 1E 00 00 00 00 04 00 03 00 50 00 3F", " 00 00 13 in 123", NULL },
    { "frame 1E 00 00 00 00 03 00 04 00 81 00 20 52", " 00 00 13 in 131", NULL },
    { "frame 1E 00 00 00 00 04 00 03 00 50 00 40", " 00 00 15 in 123", NULL },
    { "frame 1E 00 00 00 00 03 00 04 00 81 00 60 52", " 00 00 15 in 131", NULL },
    { "frame 1E 00 00 00 00 04 00 03 00 50 00 7F", " 00 00 15 in 123", NULL },
    { "frame 1E 00 00 00 00 03 00 04 00 81 00 A0 52", " 00 00 11 in 131", NULL },
    { "frame 1E 00 00 00 00 04 00 03 00 50 00 E0", " 00 00 11 in 123", NULL },
    { "frame 1E 00 00 00 00 04 00 04 00 81 00 C0 52", " 00 00 0C in 131", NULL },
    { "frame 1E 00 00 00 00 04 00 03 00 00 01 80", " 00 00 0C in 123", NULL },
    { "frame 1E 00 00 00 00 03 00 04 00 80 00 C0 52", " 00 00 0C in 131", NULL },
    { "frame 1E 00 00 00 00 00 00 03 00 00 00 C0", " 00 00 0C in 123", NULL },
    { "frame 1E 00 00 00 00 04 00 06 00 50 00 C0 'R '= 'N", " 00 00 01 in 147", NULL }, { "cells", "painted", NULL },
    /* it is cleared when the last nibble is taken */
    { "cut 95 " OPEN_30, "cut", NULL }, { "cells", "painted", NULL }, { "cut 96 " OPEN_30, "cut", "update 80 in 0 out 0 at 0 0" },
    { "cells", "blank", NULL }, { "frame 1E 00 00 00 00 00 00 00 00", " 00 00 05 in 99", NULL },
    { "frame 1E 00 " DATA_257, " 00 00 08 in 2155", NULL },
    { "frame 1E 01 00 00 00 00 00 02 00 41 42", " 00 00 00 in 115", "closed 0 in 0 out 0 at 0 0" },
    { "frame 1E 00 00 00 00 04 00 03 00 00 00 DF", " 04 00 80 00 00 00 00 in 155", "update 128 in 0 out 0 at 0 0" },
    { "frame 1E 01" ZEROS, " 00 00 00 in 99", "closed 0 in 0 out 0 at 0 0" }, { "paint", "", NULL },
    { "frame 1E 00 00 00 00 FF FF 03 00 80 00 9F", " 04 00 80 00 00 00 00 in 155", "output 128 in 0 out 0 at 0 0" }, { "cells", "blank", NULL },
    /* write (4.2.4): the text goes to the screen when its last nibble is taken; over 256 bytes none does */
    { "frame 1E 04" ZEROS, " 00 00 00 in 99", NULL }, { "frame 1E 04 00 00 00 00 00 01 01 257#41", " 00 00 08 in 2155", NULL },
    { "cut 87 frame 1E 04 FF FF FF FF FF 02 00 'H 'i", "cut", NULL }, { "cells", "blank", NULL },
    { "cut 88 frame 1E 04 FF FF FF FF FF 02 00 'H 'i", "cut", "output 128 in 0 out 0 at 0 2" }, { "cells", "0 0: 48 69 ", NULL },
    { "take", "nothing", NULL }, { "feed 41", "7", NULL }, { "raise", "7", NULL }, { "frame 1E 08" ZEROS, " 00 00 0D in 99", NULL },
    { "frame 00 04 00 00 00 00 00 01 00 'A", "none", NULL }, { "frame 1F 04 00 00 00 00 00 01 00 'A", "none", NULL },
    { "frame 1E FE 00 00 00 00 00 01 00 'A", "none", NULL }, { "cells", "0 0: 48 69 ", NULL },
    /* close (4.2.2) keeps all; FF on a closed unit does nothing (4.2.8); the next open clears */
    { "frame 1E 04 00 00 00 00 00 0B 00 ^m ^4 ^0 ^2 ^9 1B", " 00 00 00 in 187", "output 128 in 0 out 0 at 1 2 page nowrap top bottom asked reading" },
    { "frame 1E 03 00 00 00 02 00 00 00", " 00 00 0F in 99", NULL }, { "frame 1E 0A" ZEROS, " 00 00 0A in 99", NULL },
    { "frame 1E 01" ZEROS, " 00 00 00 in 99", "closed 0 in 0 out 0 at 1 2 page nowrap top bottom asked reading" },
    { "frame 1E 01" ZEROS, " 00 00 04 in 99", NULL }, { "frame 1E 04 00 00 00 00 00 01 00 'Q", " 00 00 04 in 107", NULL },
    { "frame 1E 03 00 00 00 02 00 00 00", " 00 00 04 in 99", NULL }, { "frame 1E FF" ZEROS, "none", NULL }, { "frame 00 FF" ZEROS, "none", NULL },
    { "cells", "0 0: 48 69 ", NULL }, { OPEN_30, OPENED_30, "update 80 in 0 out 0 at 0 0" }, { "cells", "blank", NULL },
    /* FF on an open unit clears and closes; it and FE draw no response */
    { "frame 1E 04 00 00 00 00 00 0D 00 'H 'i ^m ^4 ^0 ^2 ^9 1B", " 00 00 00 in 203", "update 80 in 0 out 0 at 1 2 page nowrap top bottom asked reading" },
    { "cut 71 frame 00 FF" ZEROS, "cut", NULL }, { "cells", "0 0: 48 69 ", NULL },
    { "cut 72 frame 00 FF" ZEROS, "cut", "closed 0 in 0 out 0 at 0 0" }, { "cells", "blank", NULL },
    { OPEN_30, OPENED_30, "update 80 in 0 out 0 at 0 0" }, { "paint", "", NULL },
    { "frame 1E FF 00 00 00 00 00 2C 01 300*00", "none", "closed 0 in 0 out 0 at 0 0" }, { "cells", "blank", NULL },
    /* read (4.2.3, 3.2.17): the cursor's address at the read, once, or no data */
    { OPEN_30, OPENED_30, "update 80 in 0 out 0 at 0 0" }, { "feed 41", "7", NULL }, { "raise", "7", NULL }, { "take", "nothing", NULL },
    { "frame 1E 03 00 00 00 50 00 00 00", " 00 00 00 in 99", NULL },
    { "frame 1E 04 00 00 00 00 00 06 00 ^= 05 07 ^9", " 00 00 00 in 147", "update 80 in 0 out 0 at 5 7 asked" },
    { "frame 1E 03 00 00 00 50 00 00 00", " 02 00 05 07 00 in 115", "update 80 in 0 out 0 at 5 7" },
    { "frame 1E 03 00 00 00 50 00 00 00", " 00 00 00 in 99", NULL },
    { "frame 1E 04 00 00 00 00 00 04 00 ^9 'A 'B", " 00 00 00 in 131", "update 80 in 0 out 0 at 5 9 asked" },
    { "frame 1E 0A" ZEROS, " 00 00 0A in 99", NULL }, { "frame 1E 04 " DATA_257, " 00 00 08 in 2155", NULL },
    { "frame 1E 00 00 00 00 04 00 00 00", " 00 00 05 in 99", NULL },
    { "frame 1E 03 00 00 00 03 00 00 00", " 02 00 05 09 00 in 115", "update 80 in 0 out 0 at 5 9" },
    { "frame 1E 04 00 00 00 00 00 02 00 ^9", " 00 00 00 in 115", "update 80 in 0 out 0 at 5 9 asked" },
    { "frame 1E 03 00 00 00 02 00 00 00", " 02 00 05 09 00 in 115", "update 80 in 0 out 0 at 5 9" },
    { "frame 1E 04 00 00 00 00 00 02 00 ^9", " 00 00 00 in 115", "update 80 in 0 out 0 at 5 9 asked" },
    { "frame 1E 03 00 00 00 01 00 00 00", " 01 00 05 00 in 107", "update 80 in 0 out 0 at 5 9" },
    { "frame 1E 04 00 00 00 00 00 04 00 ^9 ^9", " 00 00 00 in 131", "update 80 in 0 out 0 at 5 9 asked" },
    { "cut 98 frame 1E 03 00 00 00 00 00 00 00", "cut", NULL }, { "cut 99 frame 1E 03 00 00 00 00 00 00 00", "cut", "update 80 in 0 out 0 at 5 9" },
    { "frame 1E 04 00 00 00 00 00 03 00 ^9 1B", " 00 00 00 in 123", "update 80 in 0 out 0 at 5 9 asked reading" },
    { "cut 72 frame 1E 03 00 00 00 02 00 00 00", "cut", NULL }, { "cut 114 frame 1E 03 00 00 00 02 00 00 00", "cut", NULL },
    { "cut 115 frame 1E 03 00 00 00 FF FF 00 00", "cut", "update 80 in 0 out 0 at 5 9 reading" },
    { "frame 1E 04 00 00 00 00 00 01 00 '9", " 00 00 00 in 107", "update 80 in 0 out 0 at 5 9 asked" }, { "cells", "5 7: 41 42 ", NULL },
    { "frame 1E 01" ZEROS, " 00 00 00 in 99", "closed 0 in 0 out 0 at 5 9 asked" },
    { "frame 1E 00 00 00 00 04 00 03 00 01 00 C0", " 04 00 01 00 00 00 00 in 155", "update 1 in 0 out 0 at 0 0" },
    { "frame 1E 04 00 00 00 00 00 06 00 ^= 17 4F ^9", " 00 00 00 in 147", "update 1 in 0 out 0 at 23 79 asked" },
    { "frame 1E 03 00 00 00 02 00 00 00", " 01 00 17 00 in 107", "update 1 in 0 out 0 at 23 79" },
    { "frame 00 FF" ZEROS, "none", "closed 0 in 0 out 0 at 0 0" },
    /* under 1,920 cells: 11 in every phase, behind 5, and nothing changes; bytes behind them stay */
    { "output 1919 see B- 15", "refusal 11", NULL }, { "output 256 see B- 15", "refusal 11", NULL }, { "output 0 see -- 15", "refusal 11", NULL },
    { "output 1919 see B- 16", "refusal 5", NULL }, { "room 255 output 1920 see B- 15", "refusal 11", NULL },
    { "room 255 output 1919 see B- 255", "refusal 5", NULL }, { "output 1920 see -- 15", "-- 15", NULL },
    { "output 1920 short 1919 " OPEN_30, OPENED_30, "update 80 in 0 out 0 at 0 0" },
    { "output 1920 short 1919 frame 1E 04 00 00 00 00 00 06 00 ^= 17 4F ^9", " 00 00 00 in 147", "update 80 in 0 out 0 at 23 79 asked" },
    { "output 1920 short 1919 frame 1E 04 00 00 00 00 00 01 00 'A", " 00 00 00 in 107", "update 80 in 0 out 0 at 23 0 asked" },
    { "cells", "22 79: 41 ", NULL },
    { "output 1920 short 256 frame 1E 03 00 00 00 02 00 00 00", " 02 00 17 00 00 in 115", "update 80 in 0 out 0 at 23 0" },
    { "output 1920 short 1 frame 1F 01" ZEROS, "none", NULL }, { "output 1920 short 1919 frame 1E FF" ZEROS, "none", "closed 0 in 0 out 0 at 0 0" },
    { "cells", "blank", NULL },
};

/* ---- A screen ---------------------------------------------------------- */

/*
 * A text on a painted screen, its modes set and the cursor there; | ends a write. Cursor and modes afterwards; then what cells have changed:
 * rows of the pattern, cells of one row, blanks, and bytes that are put; all others keep theirs. Each row is run once more with every byte in a
 * write of its own. The sections are the display chapter's.
 */
static const struct row screen_rows[] = {
    /* characters, and the end of a line: 3.1, 3.2.13, 3.2.14 */
    { "at 0 0 write 'A", "0 1", "put 0 0 41" }, { "at 0 78 write 'A", "0 79", "put 0 78 41" }, { "at 0 79 write 'A", "1 0", "put 0 79 41" },
    { "at 22 79 write 'A", "23 0", "put 22 79 41" }, { "at 23 0 write 'A", "23 1", "put 23 0 41" },
    { "at 5 5 write 20 7F 80 FF", "5 9", "put 5 5 20 7F 80 FF" }, { "at 23 79 write 'A", "23 0", "rows 0-22 from 1, put 22 79 41, blank 23 0 80" },
    { "at 23 78 write 'A 'B 'C", "23 1", "rows 0-22 from 1, put 22 78 41 42, blank 23 0 80, put 23 0 43" },
    { "page at 23 79 write 'A", "0 0 page", "put 23 79 41" }, { "page at 23 79 write 'A 'B", "0 1 page", "put 23 79 41, put 0 0 42" },
    { "nowrap at 23 79 write 'A", "23 79 nowrap", "put 23 79 41" }, { "nowrap at 0 78 write 'A 'B 'C", "0 79 nowrap", "put 0 78 41 43" },
    { "page nowrap at 23 79 write 'A", "23 79 page nowrap", "put 23 79 41" }, { "top at 1 0 write 'A", "1 1 top", "put 1 0 41" },
    { "top at 23 79 write 'A", "23 0 top", "rows 1-22 from 2, put 22 79 41, blank 23 0 80" },
    { "bottom at 21 79 write 'A", "22 0 bottom", "put 21 79 41" },
    { "bottom at 22 79 write 'A", "22 0 bottom", "rows 0-21 from 1, put 21 79 41, blank 22 0 80" },
    { "top bottom at 22 79 write 'A", "22 0 top bottom", "rows 1-21 from 2, put 21 79 41, blank 22 0 80" },
    { "page top at 23 79 write 'A", "1 0 page top", "put 23 79 41" }, { "page bottom at 22 79 write 'A", "0 0 page bottom", "put 22 79 41" },
    { "page top bottom at 22 79 write 'A", "1 0 page top bottom", "put 22 79 41" }, { "at 0 0 write 81*21", "1 1", "put 0 0 81*21" },
    { "at 0 0 write 200*21 56*21", "3 16", "put 0 0 200*21 56*21" }, { "nowrap at 7 0 write 80*21 'x", "7 79 nowrap", "put 7 0 79*21 78" },
    { "at 23 0 write 160#41", "23 0", "rows 0-20 from 2, put 21 0 160#41, blank 23 0 80" },
    /* codes that do nothing: 3.1, 5.3 */
    { "at 5 7 write 8*00 09 13*0E 3*1C", "5 7", "" },
    { "page nowrap top bottom at 22 79 write 8*00 09 13*0E 3*1C", "22 79 page nowrap top bottom", "" },
    /* backspace: 3.1, 3.2.13, 3.2.14 */
    { "at 0 1 write 08", "0 0", "" }, { "at 0 79 write 08", "0 78", "" }, { "at 0 0 write 08", "23 79", "" }, { "at 1 0 write 08", "0 79", "" },
    { "at 23 0 write 08", "22 79", "" }, { "page at 0 0 write 08", "23 79 page", "" }, { "nowrap at 0 0 write 08", "0 0 nowrap", "" },
    { "nowrap at 5 0 write 08 08", "5 0 nowrap", "" }, { "nowrap at 5 1 write 08", "5 0 nowrap", "" }, { "top at 1 0 write 08", "23 79 top", "" },
    { "top at 2 0 write 08", "1 79 top", "" }, { "bottom at 0 0 write 08", "22 79 bottom", "" },
    { "top bottom at 1 0 write 08", "22 79 top bottom", "" }, { "page top bottom at 1 0 write 08 08", "22 78 page top bottom", "" },
    { "nowrap top at 1 0 write 08", "1 0 nowrap top", "" },
    /* forward space: 3.1, 3.2.13, 3.2.14 */
    { "at 0 0 write 0C", "0 1", "" }, { "at 0 78 write 0C", "0 79", "" }, { "at 0 79 write 0C", "1 0", "" }, { "at 22 79 write 0C", "23 0", "" },
    { "at 23 79 write 0C", "0 0", "" }, { "page at 23 79 write 0C", "0 0 page", "" }, { "nowrap at 23 79 write 0C", "23 79 nowrap", "" },
    { "nowrap at 5 79 write 0C 0C", "5 79 nowrap", "" }, { "nowrap at 5 78 write 0C", "5 79 nowrap", "" },
    { "top at 23 79 write 0C", "1 0 top", "" }, { "bottom at 22 79 write 0C", "0 0 bottom", "" }, { "bottom at 21 79 write 0C", "22 0 bottom", "" },
    { "top bottom at 22 79 write 0C", "1 0 top bottom", "" }, { "page top bottom at 22 79 write 0C 0C", "1 1 page top bottom", "" },
    /* line feed: 3.1, 3.2.1, 3.2.2 */
    { "at 0 0 write 0A", "1 0", "" }, { "at 0 79 write 0A", "1 79", "" }, { "at 22 40 write 0A", "23 40", "" },
    { "at 23 0 write 0A", "23 0", "rows 0-22 from 1, blank 23 0 80" }, { "at 23 79 write 0A", "23 79", "rows 0-22 from 1, blank 23 0 80" },
    { "nowrap at 23 5 write 0A 0A", "23 5 nowrap", "rows 0-21 from 2, blank 22 0 160" }, { "at 23 5 write 24#0A", "23 5", "blank 0 0 1920" },
    { "top at 23 5 write 0A", "23 5 top", "rows 1-22 from 2, blank 23 0 80" },
    { "bottom at 22 5 write 0A", "22 5 bottom", "rows 0-21 from 1, blank 22 0 80" },
    { "top bottom at 22 5 write 0A", "22 5 top bottom", "rows 1-21 from 2, blank 22 0 80" }, { "bottom at 21 5 write 0A", "22 5 bottom", "" },
    { "page at 23 40 write 0A", "0 40 page", "" }, { "page at 22 79 write 0A", "23 79 page", "" },
    { "page top at 23 5 write 0A", "1 5 page top", "" }, { "page bottom at 22 5 write 0A", "0 5 page bottom", "" },
    { "page nowrap top bottom at 22 5 write 0A", "1 5 page nowrap top bottom", "" },
    { "top bottom at 22 5 write 22#0A", "22 5 top bottom", "blank 1 0 1760" },
    /* line up: 3.1, 3.2.1, 3.2.2 */
    { "at 23 0 write 0B", "22 0", "" }, { "at 1 79 write 0B", "0 79", "" }, { "at 0 0 write 0B", "0 0", "rows 1-23 from 0, blank 0 0 80" },
    { "at 0 79 write 0B", "0 79", "rows 1-23 from 0, blank 0 0 80" },
    { "nowrap at 0 5 write 0B 0B", "0 5 nowrap", "rows 2-23 from 0, blank 0 0 160" },
    { "top at 1 5 write 0B", "1 5 top", "rows 2-23 from 1, blank 1 0 80" },
    { "bottom at 0 5 write 0B", "0 5 bottom", "rows 1-22 from 0, blank 0 0 80" },
    { "top bottom at 1 5 write 0B", "1 5 top bottom", "rows 2-22 from 1, blank 1 0 80" }, { "top at 2 5 write 0B", "1 5 top", "" },
    { "page at 0 5 write 0B", "23 5 page", "" }, { "page top at 1 5 write 0B", "23 5 page top", "" },
    { "page bottom at 0 5 write 0B", "22 5 page bottom", "" }, { "page top bottom at 1 5 write 0B", "22 5 page top bottom", "" },
    { "page at 1 79 write 0B", "0 79 page", "" },
    /* carriage return, erase page: 3.1 */
    { "at 0 0 write 0D", "0 0", "" }, { "at 5 79 write 0D", "5 0", "" }, { "page nowrap bottom at 22 1 write 0D", "22 0 page nowrap bottom", "" },
    { "at 0 0 write 1F", "0 0", "blank 0 0 1920" }, { "page nowrap at 23 79 write 1F", "0 0 page nowrap", "blank 0 0 1920" },
    { "top at 23 79 write 1F", "1 0 top", "blank 1 0 1840" }, { "bottom at 0 5 write 1F", "0 0 bottom", "blank 0 0 1840" },
    { "top bottom at 22 5 write 1F", "1 0 top bottom", "blank 1 0 1760" }, { "at 5 7 write ^9 1F", "0 0 asked", "blank 0 0 1920" },
    /* scroll and page mode: 3.2.1, 3.2.2 */
    { "at 5 7 write ^m", "5 7 page", "" }, { "at 5 7 write ^m ^m", "5 7 page", "" }, { "page at 23 79 write ^M", "23 79", "" },
    { "at 0 0 write ^M", "0 0", "" },
    /* character insert: 3.2.2.1 */
    { "at 0 0 write ^Q", "0 0", "cells 0 1 79 from 0, blank 0 0 1" }, { "at 0 79 write ^Q", "0 79", "blank 0 79 1" },
    { "at 23 78 write ^Q", "23 78", "cells 23 79 1 from 78, blank 23 78 1" },
    { "at 5 40 write ^Q ^Q", "5 40", "cells 5 42 38 from 40, blank 5 40 2" },
    { "page nowrap at 23 79 write ^Q", "23 79 page nowrap", "blank 23 79 1" }, { "at 23 0 write ^Q", "23 0", "cells 23 1 79 from 0, blank 23 0 1" },
    { "top bottom at 1 0 write ^Q", "1 0 top bottom", "cells 1 1 79 from 0, blank 1 0 1" },
    { "top bottom at 22 79 write ^Q", "22 79 top bottom", "blank 22 79 1" },
    { "at 5 40 write ^Q 'A", "5 41", "cells 5 41 39 from 40, put 5 40 41" },
    /* character delete: 3.2.3 */
    { "at 0 0 write ^W", "0 0", "cells 0 0 79 from 1, blank 0 79 1" }, { "at 0 79 write ^W", "0 79", "blank 0 79 1" },
    { "at 23 78 write ^W", "23 78", "cells 23 78 1 from 79, blank 23 79 1" },
    { "at 5 40 write ^W ^W", "5 40", "cells 5 40 38 from 42, blank 5 78 2" },
    { "page nowrap at 23 79 write ^W", "23 79 page nowrap", "blank 23 79 1" },
    { "at 23 0 write ^W", "23 0", "cells 23 0 79 from 1, blank 23 79 1" },
    { "top bottom at 1 0 write ^W", "1 0 top bottom", "cells 1 0 79 from 1, blank 1 79 1" },
    { "top bottom at 22 79 write ^W", "22 79 top bottom", "blank 22 79 1" },
    /* line insert: 3.2.4 */
    { "at 0 0 write ^E", "0 0", "rows 1-23 from 0, blank 0 0 80" }, { "at 23 79 write ^E", "23 79", "blank 23 0 80" },
    { "page nowrap at 5 40 write ^E", "5 40 page nowrap", "rows 6-23 from 5, blank 5 0 80" },
    { "at 22 79 write ^E", "22 79", "rows 23-23 from 22, blank 22 0 80" },
    { "bottom at 5 40 write ^E", "5 40 bottom", "rows 6-22 from 5, blank 5 0 80" }, { "bottom at 22 0 write ^E", "22 0 bottom", "blank 22 0 80" },
    { "top at 1 5 write ^E", "1 5 top", "rows 2-23 from 1, blank 1 0 80" },
    { "top bottom at 21 5 write ^E ^E", "21 5 top bottom", "blank 21 0 160" },
    /* line delete: 3.2.5 */
    { "at 0 40 write ^R", "0 0", "rows 0-22 from 1, blank 23 0 80" }, { "at 23 79 write ^R", "23 0", "blank 23 0 80" },
    { "page nowrap at 5 40 write ^R", "5 0 page nowrap", "rows 5-22 from 6, blank 23 0 80" },
    { "at 22 79 write ^R", "22 0", "rows 22-22 from 23, blank 23 0 80" },
    { "bottom at 5 40 write ^R", "5 0 bottom", "rows 5-21 from 6, blank 22 0 80" }, { "bottom at 22 79 write ^R", "22 0 bottom", "blank 22 0 80" },
    { "top at 1 5 write ^R", "1 0 top", "rows 1-22 from 2, blank 23 0 80" },
    { "top bottom at 21 5 write ^R ^R", "21 0 top bottom", "blank 21 0 160" },
    /* to the end of the line, of the page: 3.2.6, 3.2.7 */
    { "at 0 0 write ^T", "0 0", "blank 0 0 80" }, { "at 0 79 write ^T", "0 79", "blank 0 79 1" },
    { "page nowrap at 23 40 write ^T", "23 40 page nowrap", "blank 23 40 40" }, { "at 23 79 write ^T", "23 79", "blank 23 79 1" },
    { "top bottom at 1 1 write ^T", "1 1 top bottom", "blank 1 1 79" }, { "bottom at 22 0 write ^T", "22 0 bottom", "blank 22 0 80" },
    { "at 0 0 write ^Y", "0 0", "blank 0 0 1920" }, { "at 23 79 write ^Y", "23 79", "blank 23 79 1" },
    { "page nowrap at 5 40 write ^Y", "5 40 page nowrap", "blank 5 40 1480" }, { "bottom at 5 40 write ^Y", "5 40 bottom", "blank 5 40 1400" },
    { "bottom at 22 79 write ^Y", "22 79 bottom", "blank 22 79 1" }, { "top at 1 0 write ^Y", "1 0 top", "blank 1 0 1840" },
    { "top bottom at 1 0 write ^Y", "1 0 top bottom", "blank 1 0 1760" },
    /* set cursor, in binary: 3.2.8 */
    { "at 5 7 write ^= 00 00", "0 0", "" }, { "at 5 7 write ^= 17 4F", "23 79", "" }, { "at 5 7 write ^= 18 4F", "5 7", "" },
    { "at 5 7 write ^= 17 50", "5 7", "" }, { "at 5 7 write ^= FF 00", "5 7", "" }, { "at 5 7 write ^= 00 FF", "5 7", "" },
    { "at 5 7 write ^= 0A 0D", "10 13", "" }, { "at 5 7 write ^= 1B 1B", "5 7", "" }, { "at 5 7 write ^= 17 1B", "23 27", "" },
    { "at 5 7 write ^= 1B 00 'A", "5 8", "put 5 7 41" }, { "at 5 7 write ^= 08 1F 'A", "8 32", "put 8 31 41" },
    { "top at 5 7 write ^= 00 05", "1 5 top", "" }, { "top at 5 7 write ^= 01 05", "1 5 top", "" }, { "top at 5 7 write ^= 17 05", "23 5 top", "" },
    { "bottom at 5 7 write ^= 17 4F", "22 79 bottom", "" }, { "bottom at 5 7 write ^= 16 4F", "22 79 bottom", "" },
    { "bottom at 5 7 write ^= 00 05", "0 5 bottom", "" }, { "top bottom at 5 7 write ^= 18 05", "5 7 top bottom", "" },
    { "page nowrap top bottom at 5 7 write ^= 17 00", "22 0 page nowrap top bottom", "" }, { "at 5 7 write ^=", "5 7 reading", "" },
    { "at 5 7 write ^= 1B", "5 7 reading", "" },
    /* protected lines: 3.2.9 to 3.2.12; the letter O is another byte */
    { "at 0 5 write ^0", "1 5 top", "" }, { "at 1 5 write ^0", "1 5 top", "" }, { "at 23 79 write ^0", "23 79 top", "" },
    { "top at 1 5 write ^0", "1 5 top", "" }, { "at 0 5 write ^O", "0 5", "" }, { "top at 1 5 write ^1", "1 5", "" },
    { "at 0 5 write ^1", "0 5", "" }, { "top bottom at 22 5 write ^1", "22 5 bottom", "" }, { "at 23 5 write ^2", "22 5 bottom", "" },
    { "at 22 5 write ^2", "22 5 bottom", "" }, { "at 0 0 write ^2", "0 0 bottom", "" }, { "bottom at 22 5 write ^2", "22 5 bottom", "" },
    { "bottom at 22 5 write ^3", "22 5", "" }, { "at 23 5 write ^3", "23 5", "" }, { "top bottom at 1 5 write ^3", "1 5 top", "" },
    { "page nowrap at 0 0 write ^0 ^2", "1 0 page nowrap top bottom", "" }, { "top at 1 5 write ^1 0B 'A", "0 6", "put 0 5 41" },
    { "bottom at 22 5 write ^3 0A 'A", "23 6", "put 23 5 41" }, { "at 0 5 write ^0 'A", "1 6 top", "put 1 5 41" },
    /* line wrap, read cursor address: 3.2.13, 3.2.14, 3.2.17 */
    { "at 5 79 write ^4", "5 79 nowrap", "" }, { "nowrap at 5 79 write ^5", "5 79", "" }, { "nowrap at 5 79 write 'A ^5 'B", "6 0", "put 5 79 42" },
    { "at 5 7 write ^5", "5 7", "" }, { "nowrap at 5 7 write ^4", "5 7 nowrap", "" }, { "at 5 7 write ^9", "5 7 asked", "" },
    { "page nowrap top bottom at 22 79 write ^9 ^9", "22 79 page nowrap top bottom asked", "" },
    /* page shifts: a byte for each unprotected line, fixed when it begins: 3.2.15, 3.2.16, 5.9.3, 5.9.4 */
    { "at 5 7 write ^6 24#1B 'A", "5 8", "put 5 7 41" }, { "at 5 7 write ^6 23#1B 'A", "5 7", "" }, { "at 5 7 write ^6 23#41", "5 7 reading", "" },
    { "top at 5 7 write ^6 23#1B 'A", "5 8 top", "put 5 7 41" }, { "top at 5 7 write ^6 22#1B 'A", "5 7 top", "" },
    { "top at 5 7 write ^6 22#41", "5 7 top reading", "" }, { "bottom at 5 7 write ^7 23#1B 'A", "5 8 bottom", "put 5 7 41" },
    { "bottom at 5 7 write ^7 22#1B 'A", "5 7 bottom", "" }, { "top bottom at 5 7 write ^7 22#1B 'A", "5 8 top bottom", "put 5 7 41" },
    { "top bottom at 5 7 write ^6 21#1B 'A", "5 7 top bottom", "" }, { "top bottom at 5 7 write ^7 21#41", "5 7 top bottom reading", "" },
    { "at 23 79 write ^7 24#0A 'A", "23 0", "rows 0-22 from 1, put 22 79 41, blank 23 0 80" },
    { "page nowrap at 5 7 write ^7 24#1F 'A", "5 8 page nowrap", "put 5 7 41" }, { "at 5 7 write ^7 23#1B 'A", "5 7", "" },
    { "at 5 7 write ^K 24#1B 'A", "5 8", "put 5 7 41" }, { "at 5 7 write ^K 23#1B 'A", "5 7", "" },
    { "top at 5 7 write ^K 23#1B 'A", "5 8 top", "put 5 7 41" }, { "bottom at 5 7 write ^K 23#1B 'A", "5 8 bottom", "put 5 7 41" },
    { "top bottom at 5 7 write ^K 22#1B 'A", "5 8 top bottom", "put 5 7 41" }, { "at 5 7 write ^L 24#1B 'A", "5 8", "put 5 7 41" },
    { "at 5 7 write ^L 23#1B 'A", "5 7", "" }, { "top at 5 7 write ^L 23#1B 'A", "5 8 top", "put 5 7 41" },
    { "bottom at 5 7 write ^L 23#1B 'A", "5 8 bottom", "put 5 7 41" }, { "top bottom at 5 7 write ^L 22#1B 'A", "5 8 top bottom", "put 5 7 41" },
    { "at 5 7 write ^0 ^2 ^6 ^1 ^3 18#00 'A", "5 8 top bottom", "put 5 7 41" },
    { "top bottom at 5 7 write ^1 ^3 ^6 24#1B 'A", "5 8", "put 5 7 41" },
    /* attributes, colours and pages: one byte: 3.2.18, 3.2.19, 5.8, 5.9.2, 5.10.1 */
    { "at 5 7 write ^. 1B 'A", "5 8", "put 5 7 41" }, { "at 5 7 write ^. '0 'A", "5 8", "put 5 7 41" }, { "at 5 7 write ^.", "5 7 reading", "" },
    { "at 5 7 write ^G 1B 'A", "5 8", "put 5 7 41" }, { "at 5 7 write ^G '4 'A", "5 8", "put 5 7 41" }, { "at 5 7 write ^G", "5 7 reading", "" },
    { "at 5 7 write ^C 1B 'A", "5 8", "put 5 7 41" }, { "at 5 7 write ^C F1 'A", "5 8", "put 5 7 41" }, { "at 5 7 write ^C", "5 7 reading", "" },
    { "at 5 7 write ^P 1B 'A", "5 8", "put 5 7 41" }, { "at 5 7 write ^P 00 'A", "5 8", "put 5 7 41" }, { "at 5 7 write ^P", "5 7 reading", "" },
    /* define character: it and eight rows; page dimensions: two; windows: none: 5.9.1, 5.11.2 */
    { "at 5 7 write ^B 9#1B 'A", "5 8", "put 5 7 41" }, { "at 5 7 write ^B 8#1B 'A", "5 7", "" }, { "at 5 7 write ^B 8#41", "5 7 reading", "" },
    { "top bottom at 22 79 write ^B 9#0A", "22 79 top bottom", "" }, { "at 5 7 write ^S 1B 1B 'A", "5 8", "put 5 7 41" },
    { "at 5 7 write ^S 1B 'A", "5 7", "" }, { "at 5 7 write ^S 18", "5 7 reading", "" }, { "at 5 7 write ^D 'A", "5 8", "put 5 7 41" },
    { "at 5 7 write ^d 'A", "5 8", "put 5 7 41" },
    /* a second escape goes with the first; a write of nothing in between; sequences in several writes: 3.2 */
    { "at 5 7 write 1B", "5 7 reading", "" }, { "at 5 7 write 1B 1B 'M", "5 8", "put 5 7 4D" }, { "at 5 7 write 1B 1B 1B 'm", "5 7 page", "" },
    { "at 5 7 write 1B | | 'Q", "5 7", "cells 5 8 72 from 7, blank 5 7 1" }, { "at 5 7 write ^= | 00 | 4F | 'A", "1 0", "put 0 79 41" },
    { "at 5 7 write 1B | '= 17 | 4F 'A", "23 0", "rows 0-22 from 1, put 22 79 41, blank 23 0 80" },
    { "at 5 7 write ^6 10#1B | 14#1B 'A", "5 8", "put 5 7 41" }, { "at 5 7 write ^B 1B | 8#1B | 'A", "5 8", "put 5 7 41" },
    { "at 5 7 write 'a | 'b", "5 9", "put 5 7 61 62" },
};

static uint8_t wanted[CELLS];

/* The pattern with these changes. */
static bool want(const char *changes)
{
    paint(wanted);
    for (rest_of = changes; *rest_of != 0;) {
        bool rows = next_is("rows"), cells = !rows && next_is("cells"), blank = !rows && !cells && next_is("blank");
        size_t at, n;

        if (rows) {
            size_t first = number(10), last, from;

            rest_of++;
            last = number(10);
            from = next_is("from") ? number(10) : CELLS;
            for (size_t i = first * COLUMNS; i < (last + 1) * COLUMNS; i++)
                wanted[i] = painted((unsigned)(i / COLUMNS - first + from), (unsigned)(i % COLUMNS));
        } else if (cells || blank || next_is("put")) {
            at = number(10);
            at = at * COLUMNS + number(10);
            n = cells || blank ? number(10) : read_bytes(bytes);
            if (blank)
                memset(bytes, BLANK, n);
            if (cells && next_is("from")) {
                unsigned from = number(10);

                for (unsigned i = 0; i < n; i++)
                    bytes[i] = painted((unsigned)(at / COLUMNS), from + i);
            }
            memcpy(wanted + at, bytes, n);
        } else {
            return false;
        }
        while (*rest_of == ' ' || *rest_of == ',')
            rest_of++;
    }
    return true;
}

/* A write of its own for each part of the text, or for each byte. */
static void write_text(const uint8_t *text, size_t n)
{
    static uint8_t message[HEXBUS_COMMAND_HEAD + 256] = { 30, 0x04 };

    message[7] = (uint8_t)n;
    message[8] = (uint8_t)(n >> 8);
    memcpy(message + HEXBUS_COMMAND_HEAD, text, n);
    unit_frame(message, HEXBUS_COMMAND_HEAD + n, 1, 0, 0);
    if (strncmp(made, " 00 00 00 in ", 13) != 0)
        expect(false, "a write", made);
}

static void write_parts(bool bytewise)
{
    do {
        size_t n = read_bytes(data);

        for (size_t i = 0; bytewise && i < n; i++)
            write_text(data + i, 1);
        if (!bytewise)
            write_text(data, n);
    } while (next_is("|"));
}

/* A new unit, open, its modes set and the cursor there, and what that looks like. */
static void set_up_screen(char *looks, size_t room)
{
    static const struct {
        const char *word;
        uint8_t sequence;
    } modes[] = { { "page", 'm' }, { "nowrap", '4' }, { "top", '0' }, { "bottom", '2' } };
    static const uint8_t opening[] = { 30, 0x00, 0, 0, 0, 4, 0, 3, 0, 80, 0, 0xC0 };
    uint8_t text[12];
    char said[40] = "";
    size_t n = 0;
    unsigned row, column;

    own = 30;
    hexbus_unit_make(&unit, own, HEXBUS_RETRY);
    unit_frame(opening, sizeof opening, 1, 0, 0);
    for (size_t i = 0; i < sizeof modes / sizeof modes[0]; i++)
        if (next_is(modes[i].word)) {
            text[n++] = 0x1B;
            text[n++] = modes[i].sequence;
            strcat(strcat(said, " "), modes[i].word);
        }
    row = next_is("at") ? number(10) : 99;
    column = number(10);
    text[n++] = 0x1B;
    text[n++] = '=';
    text[n++] = (uint8_t)row;
    text[n++] = (uint8_t)column;
    write_text(text, n);
    snprintf(looks, room, "%u %u%s", row, column, said);
}

static void check_screen(const struct row *row, bool bytewise)
{
    char looks[60], wrong[2 * TEXT];
    size_t i = 0;

    rest_of = row->call;
    set_up_screen(looks, sizeof looks);
    clear_text();
    say_screen();
    expect(strcmp(made, looks) == 0, row->call, "its setting up");
    paint(output);
    next_is("write");
    write_parts(bytewise);
    expect(*rest_of == 0, row->call, "this text cannot be read");
    clear_text();
    say_screen();
    snprintf(wrong, sizeof wrong, "leaves \"%s\", not \"%s\"", made, row->answer);
    expect(strcmp(made, row->answer) == 0, row->call, wrong);
    expect(want(row->after), row->after, "these changes cannot be read");
    while (i < CELLS && output[i] == wanted[i])
        i++;
    snprintf(wrong, sizeof wrong, "row %zu column %zu has %02X, not %02X", i / COLUMNS, i % COLUMNS, output[i], i < CELLS ? wanted[i] : 0);
    expect(i == CELLS, row->call, wrong);
    expect(output_ends(), row->call, "bytes behind the cells stay");
    expect(memcmp(&command, &command_before, sizeof command) == 0, row->call, "the command buffer holds the data");
}

/* Every byte that section 6 does not have is dropped with its escape. */
static void check_undefined(void)
{
    static const char defined[] = "MmQWERTY=01234567" "9.GBCKLPDdS";

    for (unsigned byte = 0; byte < 256; byte++)
        if (memchr(defined, (int)byte, sizeof defined - 1) == NULL) {
            char call[40];

            snprintf(call, sizeof call, "at 23 7 write 1B %02X 'M", byte);
            check_screen(&(struct row){ call, "23 8", "put 23 7 4D" }, false);
        }
}

static void check_screens(void)
{
    output_room = sizeof output;
    too_short = 0;
    for (size_t i = 0; i < 2 * (sizeof screen_rows / sizeof screen_rows[0]); i++)
        check_screen(&screen_rows[i / 2], i % 2 != 0);
    check_undefined();
}

/* ---- A controller ------------------------------------------------------ */

/*
 * submit CODE COMMAND: with logical unit 0, record 0, no data, and a response buffer as long as the buffer length, where nothing else is
 * said. frame BYTES: rounds until the frame is over, and two more; what was heard and what came of it, with the round. The response is
 * BYTES, or nothing; it begins after two rounds of HSK high, or as many as stand after "wait", and ends after the nibbles after "cut". Somebody
 * pulls BAV before the frame where "asked" stands. step: a round at these levels.
 */
#define JOIN(code, heard, ring) \
    { "submit " code " 08", "0", "waiting" ring }, { "frame 00 00 00", " " heard " 08" ZEROS " ended 00 in 99", "free" ring " " code }
static const struct row controller_rows[] = {
    { "make 0", "5", "" }, { "make 7", "5", "" }, { "make 65536", "5", "" }, { "make 4294967295", "5", "" },
    { "make 65535", "0", "free" }, { "make 8", "0", NULL },
    /* M1 answered by M2; every field; long data */
    { "submit 20 00 unit 1 buffer 4 data 50 00 C0", "0", "waiting" },
    { "frame 04 00 50 00 00 00 00", " 14 00 01 00 00 04 00 03 00 50 00 C0 ended 00 50 00 00 00 in 155", "free" },
    { "submit 21 04 unit 255 record 4660 data 01 02 03 FE", "0", "waiting" },
    { "frame 00 00 00", " 15 04 FF 34 12 00 00 04 00 01 02 03 FE ended 00 in 131", "free" },
    { "submit 20 04 record 65535 data 300*00", "0", "waiting" },
    { "frame 00 00 08", " 14 04 00 FF FF 00 00 2C 01 300*00 ended 08 in 2499", "free" },
    { "submit 20 04 data 65535*01", "0", "waiting" }, { "frame 00 00 08", " 14 04 00 00 00 00 00 FF FF 65535*01 ended 08 in 524379", "free" },
    /* statuses, and data before them */
    { "submit 20 03 buffer 5", "0", "waiting" }, { "frame 03 00 41 42 43 00", " 14 03 00 00 00 05 00 00 00 ended 00 41 42 43 in 123", "free" },
    { "submit 20 03 buffer 5", "0", "waiting" }, { "frame 05 00 41 42 43 44 45 00", " 14 03 00 00 00 05 00 00 00 ended 00 41 42 43 44 45 in 139", "free" },
    { "submit 20 03 buffer 5", "0", "waiting" }, { "frame 02 00 41 42 0F", " 14 03 00 00 00 05 00 00 00 ended 0F 41 42 in 115", "free" },
    { "submit 20 03 buffer 5", "0", "waiting" }, { "frame 01 00 41 FF", " 14 03 00 00 00 05 00 00 00 ended FF 41 in 107", "free" },
    { "submit 20 03 buffer 5", "0", "waiting" }, { "frame 01 00 41 00 55 66", " 14 03 00 00 00 05 00 00 00 ended 00 41 in 107", "free" },
    /* no complete response: FF with the whole bytes received */
    { "submit 20 03 buffer 5", "0", "waiting" }, { "frame", " 14 03 00 00 00 05 00 00 00 ended FF in 82", "free" },
    { "submit 20 03 buffer 5", "0", "waiting" }, { "cut 4 frame 02 00 41 42 00", " 14 03 00 00 00 05 00 00 00 ended FF in 98", "free" },
    { "submit 20 03 buffer 5", "0", "waiting" }, { "cut 5 frame 02 00 41 42 00", " 14 03 00 00 00 05 00 00 00 ended FF in 102", "free" },
    { "submit 20 03 buffer 5", "0", "waiting" }, { "cut 6 frame 02 00 41 42 00", " 14 03 00 00 00 05 00 00 00 ended FF 41 in 106", "free" },
    { "submit 20 03 buffer 5", "0", "waiting" }, { "cut 9 frame 02 00 41 42 00", " 14 03 00 00 00 05 00 00 00 ended FF 41 42 in 118", "free" },
    /* announced data and the buffer length */
    { "submit 20 03 buffer 2", "0", "waiting" }, { "frame 02 00 41 42 00", " 14 03 00 00 00 02 00 00 00 ended 00 41 42 in 115", "free" },
    { "submit 20 03 buffer 1 room 9", "0", "waiting" }, { "frame 02 00 41 42 00", " 14 03 00 00 00 01 00 00 00 ended FF in 91", "free" },
    { "submit 20 03 buffer 0", "0", "waiting" }, { "frame 01 00 41 00", " 14 03 00 00 00 00 00 00 00 ended FF in 91", "free" },
    { "submit 20 03 buffer 256", "0", "waiting" }, { "frame 00 01 256*00 00", " 14 03 00 00 00 00 01 00 00 ended 00 256*00 in 2147", "free" },
    { "submit 20 03 buffer 255", "0", "waiting" }, { "frame 00 01 256*00 00", " 14 03 00 00 00 FF 00 00 00 ended FF in 91", "free" },
    { "submit 20 03 buffer 65534", "0", "waiting" }, { "frame FF FF 00", " 14 03 00 00 00 FE FF 00 00 ended FF in 91", "free" },
    { "submit 20 03 buffer 65535", "0", "waiting" },
    { "frame FF FF 65535*00 00", " 14 03 00 00 00 FF FF 00 00 ended 00 65535*00 in 524379", "free" },
    /* the time-out, from both sides */
    { "submit 20 03 buffer 2", "0", "waiting" }, { "wait 7 frame 02 00 41 42 00", " 14 03 00 00 00 02 00 00 00 ended 00 41 42 in 120", "free" },
    { "submit 20 03 buffer 2", "0", "waiting" }, { "wait 8 frame 02 00 41 42 00", " 14 03 00 00 00 02 00 00 00 ended FF in 82", "free" },
    { "make 200", "0", NULL }, { "submit 20 03 buffer 2", "0", "waiting" },
    { "wait 199 frame 02 00 41 42 00", " 14 03 00 00 00 02 00 00 00 ended 00 41 42 in 312", "free" },
    { "submit 20 03 buffer 2", "0", "waiting" }, { "wait 200 frame 02 00 41 42 00", " 14 03 00 00 00 02 00 00 00 ended FF in 274", "free" },
    { "make 65535", "0", NULL }, { "submit 20 03 buffer 2", "0", "waiting" },
    { "wait 65534 frame 02 00 41 42 00", " 14 03 00 00 00 02 00 00 00 ended 00 41 42 in 65647", "free" },
    { "submit 20 03 buffer 2", "0", "waiting" }, { "frame", " 14 03 00 00 00 02 00 00 00 ended FF in 65609", "free" },
    /* a busy host */
    { "make 8", "0", NULL }, { "submit 20 03 buffer 2", "0", "waiting" },
    { "free 50 frame 02 00 41 42 00", " 14 03 00 00 00 02 00 00 00 ended 00 41 42 in 551", "free" },
    /* FE and FF: FF, and an answer counts all the same */
    { "submit 0 FE", "0", "waiting" }, { "frame", " 00 FE" ZEROS " ended FF in 82", "free" },
    { "submit 20 FF", "0", "waiting" }, { "frame 00 00 05", " 14 FF" ZEROS " ended 05 in 99", "free" },
    /* submitting: 1, 2, 3, 4, 11 */
    { "submit 20 0A buffer 4 room 3 length 65536", "2", NULL }, { "submit 20 04 length 65536", "2", NULL },
    { "submit 20 0A buffer 4 room 3", "3", NULL }, { "submit 20 03 buffer 4 room 3", "11", NULL },
    { "submit 20 03 buffer 65535 room 65534", "11", NULL }, { "submit 20 04 length 65535", "0", "waiting" },
    { "submit 20 0A buffer 4 room 3 length 65536", "1", NULL },
    /* stepping a submitted command: 5, 10, 11, and nothing has begun */
    { "make 8", "0", "free" }, { "submit 20 04 buffer 2 data 41 42 43", "0", "waiting" },
    { "length 2 room 1 step -- 16", "refusal 5", NULL }, { "length 2 room 1 step -- 15", "refusal 10", NULL },
    { "length 4 step -- 15", "refusal 10", NULL }, { "room 1 step -- 15", "refusal 11", NULL }, { "step -- 255", "refusal 5", NULL },
    /* BAV, two rounds later the first nibble; a refused round counts for nothing */
    { "step -- 15", "B- 15", "running" }, { "step B- 15", "B- 15", NULL }, { "length 2 step B- 15", "refusal 10", NULL }, { "step B- 15", "BH 4", NULL },
    { "room 1 step BH 4", "refusal 11", NULL }, { "step BH 4", "B- 4", NULL }, { "step BH 4", "B- 4", NULL }, { "step B- 4", "B- 15", NULL },
    { "step B- 15", "BH 1", NULL }, { "submit 20 03", "1", NULL },
    /* HSK stays low: no time-out while it sends */
    { "times 5000 step BH 1", "B- 1", NULL },
    /* the ring: sixteen join, a seventeenth is refused, as is code 0 */
    { "make 8", "0", "free" }, JOIN("20", "14", ""), JOIN("21", "15", " 20"), JOIN("22", "16", " 20 21"), JOIN("23", "17", " 20 21 22"),
    JOIN("110", "6E", " 20 21 22 23"), JOIN("111", "6F", " 20 21 22 23 110"), JOIN("112", "70", " 20 21 22 23 110 111"),
    JOIN("113", "71", " 20 21 22 23 110 111 112"), JOIN("40", "28", " 20 21 22 23 110 111 112 113"), JOIN("41", "29", " 20 21 22 23 110 111 112 113 40"),
    JOIN("42", "2A", " 20 21 22 23 110 111 112 113 40 41"), JOIN("43", "2B", " 20 21 22 23 110 111 112 113 40 41 42"),
    JOIN("1", "01", " 20 21 22 23 110 111 112 113 40 41 42 43"), JOIN("2", "02", " 20 21 22 23 110 111 112 113 40 41 42 43 1"),
    JOIN("255", "FF", " 20 21 22 23 110 111 112 113 40 41 42 43 1 2"), JOIN("254", "FE", " 20 21 22 23 110 111 112 113 40 41 42 43 1 2 255"),
    { "submit 24 08", "4", NULL }, { "submit 0 08", "4", NULL }, { "submit 24 08 buffer 4 room 3", "4", NULL },
    { "submit 24 08 length 65536", "2", NULL }, { "submit 111 08 buffer 4 room 3", "11", NULL },
    { "submit 111 08", "0", "waiting 20 21 22 23 110 111 112 113 40 41 42 43 1 2 255 254" },
    { "frame 00 00 00", " 6F 08" ZEROS " ended 00 in 99", "free 20 21 22 23 110 111 112 113 40 41 42 43 1 2 255 254" },
    /* 09 and 01: removed with 00 alone */
    { "submit 111 01", "0", "waiting 20 21 22 23 110 111 112 113 40 41 42 43 1 2 255 254" },
    { "frame 00 00 04", " 6F 01" ZEROS " ended 04 in 99", "free 20 21 22 23 110 111 112 113 40 41 42 43 1 2 255 254" },
    { "submit 111 09", "0", "waiting 20 21 22 23 110 111 112 113 40 41 42 43 1 2 255 254" },
    { "cut 5 frame 00 00 00", " 6F 09" ZEROS " ended FF in 102", "free 20 21 22 23 110 111 112 113 40 41 42 43 1 2 255 254" },
    { "submit 111 01", "0", "waiting 20 21 22 23 110 111 112 113 40 41 42 43 1 2 255 254" },
    { "frame 00 00 00", " 6F 01" ZEROS " ended 00 in 99", "free 20 21 22 23 110 112 113 40 41 42 43 1 2 255 254" },
    { "submit 20 09", "0", "waiting 20 21 22 23 110 112 113 40 41 42 43 1 2 255 254" },
    { "frame 00 00 00", " 14 09" ZEROS " ended 00 in 99", "free 21 22 23 110 112 113 40 41 42 43 1 2 255 254" },
    { "submit 254 09", "0", "waiting 21 22 23 110 112 113 40 41 42 43 1 2 255 254" },
    { "frame 00 00 00", " FE 09" ZEROS " ended 00 in 99", "free 21 22 23 110 112 113 40 41 42 43 1 2 255" },
    { "submit 0 08", "0", "waiting 21 22 23 110 112 113 40 41 42 43 1 2 255" },
    { "frame 00 00 00", " 00 08" ZEROS " ended 00 in 99", "free 21 22 23 110 112 113 40 41 42 43 1 2 255" },
    { "submit 24 08", "0", "waiting 21 22 23 110 112 113 40 41 42 43 1 2 255" },
    { "frame 00 00 04", " 18 08" ZEROS " ended 04 in 99", "free 21 22 23 110 112 113 40 41 42 43 1 2 255" },
    { "submit 0 FF", "0", "waiting 21 22 23 110 112 113 40 41 42 43 1 2 255" },
    { "frame", " 00 FF" ZEROS " ended FF in 82", "free 21 22 23 110 112 113 40 41 42 43 1 2 255" },
    /* service frames: the front moves to the back and is polled; 00 hands its code over and marks it */
    { "make 8", "0", "free" }, JOIN("20", "14", ""), JOIN("21", "15", " 20"), JOIN("22", "16", " 20 21"),
    { "asked frame 00 00 0A", " 14 0A" ZEROS " nothing in 99", "free 21 22 20" },
    { "frame", "no frame", NULL },
    { "asked frame 00 00 00", " 15 0A" ZEROS " handed 21 in 99", "free 22 20 21*" },
    { "asked frame", " 16 0A" ZEROS " nothing in 82", "free 20 21* 22" },
    { "asked cut 5 frame 00 00 00", " 14 0A" ZEROS " nothing in 102", "free 21* 22 20" },
    /* marked: a null message to code 0, and an answer to it is dropped */
    { "asked frame", " 00 FE" ZEROS " nothing in 82", "free 22 20 21*" },
    { "asked frame 01 00 00 00", " 16 0A" ZEROS " nothing in 91", "free 20 21* 22" },
    { "asked frame 00 00 00", " 14 0A" ZEROS " handed 20 in 99", "free 21* 22 20*" },
    { "asked frame 00 00 00", " 00 FE" ZEROS " nothing in 99", "free 22 20* 21*" },
    { "acknowledge 22", "8", NULL }, { "acknowledge 24", "8", NULL }, { "acknowledge 0", "8", NULL }, { "acknowledge 21", "0", "free 22 20* 21" },
    { "acknowledge 21", "8", NULL },
    /* 08 for a marked one: it stays; 09: the mark goes with it, and it joins again unmarked */
    { "submit 20 08", "0", "waiting 22 20* 21" }, { "asked frame 00 00 00", " 14 08" ZEROS " ended 00 in 99", "free 22 20* 21" },
    { "submit 20 09", "0", "waiting 22 20* 21" }, { "frame 00 00 00", " 14 09" ZEROS " ended 00 in 99", "free 22 21" }, { "acknowledge 20", "8", NULL },
    JOIN("20", "14", " 22 21"),
    /* a command that is submitted goes before a service frame */
    { "submit 21 03 buffer 2", "0", "waiting 22 21 20" },
    { "asked frame 02 00 41 42 00", " 15 03 00 00 00 02 00 00 00 ended 00 41 42 in 115", "free 22 21 20" },
    /* a refused round sees nothing; 10 and 11 come in a submitted frame alone */
    { "step B- 16", "refusal 5", NULL }, { "length 5 room 0 step B- 15", "B- 15", "running 21 20 22" }, { "submit 20 03", "1", NULL },
    { "make 65535", "0", "free" }, { "step B- 0", "-- 15", NULL },
};

static hexbus_controller controller;
static struct lent response;
static size_t data_length, room;

static void say_event(const hexbus_event *e)
{
    if (e->kind == HEXBUS_ENDED) {
        say(" ended %02X", (unsigned)e->value);
        say_bytes(response.bytes, e->count);
    } else if (e->kind == HEXBUS_HANDED) {
        say(" handed %u", (unsigned)e->value);
    } else {
        say(" nothing");
    }
}

/* The response begins in the round `wait` rounds after HSK was seen high behind the command. */
static void controller_frame(unsigned free, bool asked, unsigned wait, size_t cut)
{
    static uint8_t answer[MOST + 2 * GUARD];
    size_t nibbles = 2 * read_bytes(answer), whole = 0;
    unsigned round = 0, heard = 0;
    hexbus_event e = { 0, 0, 0 }, rest;

    nibbles = cut < nibbles ? cut : nibbles;
    quiet_end();
    end.bav = asked;
    fill(&response);
    clear_text();
    do {
        struct seen s = levels(hexbus_controller_pulls(&controller));

        round++;
        if (hexbus_controller_step(&controller, s.bav, s.hsk, s.nibble, is_busy(free, round), data, data_length, response.bytes, room, &e) != 0)
            say("refused");
        end.bav = false;
        if (heard == 0) {
            end_listens(s.hsk, s.nibble);
            if (end.place == 18)
                whole = 2 * (HEXBUS_COMMAND_HEAD + (size_t)end.taken[7] + 256u * end.taken[8]);
            if (whole != 0 && end.place == whole && !s.hsk && !end.hsk) {
                heard = round;
                end.place = 0;
            }
        } else if (round >= heard + wait && end.place < nibbles) {
            end_sends(answer, s.hsk);
        }
    } while ((hexbus_controller_pulls(&controller) & HEXBUS_BAV) != 0 && round < 2000000);
    if (round == 1) {
        say("no frame");
        return;
    }
    say_bytes(end.taken, whole / 2);
    say_event(&e);
    say(" in %u", round);
    expect(untouched_from(&response, e.kind == HEXBUS_ENDED ? e.count : 0), "a frame", "no byte past the received ones changes");
    for (int i = 0; i < 2; i++)
        if (hexbus_controller_step(&controller, false, false, 15, false, data, 0, response.bytes, 0, &rest) != 0 || rest.kind != HEXBUS_NOTHING)
            say(", its rest");
}

static void submit(void)
{
    hexbus_command k = { 0, 0, 0, 0, 0, 77 };
    size_t n, space_lent;
    uint32_t answer;

    k.device = number(10);
    k.command = number(16);
    k.logical_unit = option("unit", 0);
    k.record_number = option("record", 0);
    k.buffer_length = option("buffer", 0);
    space_lent = option("room", k.buffer_length);
    n = option("length", 0);
    n = next_is("data") ? read_bytes(data) : n;
    answer = hexbus_controller_submit(&controller, &k, data, n, response.bytes, space_lent);
    if (answer == 0) {
        data_length = n;
        room = space_lent;
    }
    say("%u", (unsigned)answer);
}

static void step(unsigned times, size_t n, size_t space_lent)
{
    struct seen s = read_levels();
    hexbus_event e = { 9, 9, 9 };
    uint32_t refusal = 0;

    while (times-- > 0)
        refusal = hexbus_controller_step(&controller, s.bav, s.hsk, s.nibble, false, data, n, response.bytes, space_lent, &e);
    if (refusal != 0) {
        say("refusal %u", (unsigned)refusal);
        expect(e.kind == 9 && e.value == 9 && e.count == 9, "a refused step", "its event's words stay");
        return;
    }
    say_pulls(hexbus_controller_pulls(&controller));
    if (e.kind != HEXBUS_NOTHING)
        say_event(&e);
}

static void controller_call(void)
{
    unsigned times = option("times", 1), free = option("free", 1);
    bool asked = next_is("asked");
    unsigned wait = option("wait", WAIT), cut = option("cut", UINT32_MAX);
    size_t n = option("length", (uint32_t)data_length), space_lent = option("room", (uint32_t)room);

    clear_text();
    if (next_is("frame"))
        controller_frame(free, asked, wait, cut);
    else if (next_is("step"))
        step(times, n, space_lent);
    else if (next_is("submit"))
        submit();
    else if (next_is("make"))
        say("%u", (unsigned)hexbus_controller_make(&controller, number(10)));
    else if (next_is("acknowledge"))
        say("%u", (unsigned)hexbus_controller_acknowledge(&controller, (uint8_t)number(10)));
    else
        say("no such call");
}

static void look_controller(void)
{
    hexbus_controller_looks l;

    hexbus_controller_look(&controller, &l);
    clear_text();
    say(l.may_start == 0 ? "running" : l.submitted != 0 ? "waiting" : "free");
    for (uint32_t i = 0; i < l.entries; i++) {
        uint32_t entry = hexbus_controller_entry(&controller, i);

        say(" %u%s", (unsigned)(entry & HEXBUS_CODE), (entry & HEXBUS_MARK) != 0 ? "*" : "");
    }
    expect(hexbus_controller_entry(&controller, l.entries) == 0, "a ring", "no entry past the last");
}

/* ---- Rows -------------------------------------------------------------- */

static void check_rows(const struct row *rows, size_t n, void (*call)(void), void (*look)(void))
{
    const char *after = "";

    for (size_t i = 0; i < n; i++) {
        char wrong[2 * TEXT];

        rest_of = rows[i].call;
        call();
        snprintf(wrong, sizeof wrong, "answers \"%s\", not \"%s\"", made, rows[i].answer);
        expect(strcmp(made, rows[i].answer) == 0, rows[i].call, wrong);
        after = rows[i].after == NULL ? after : rows[i].after;
        if (after[0] == 0)
            continue;
        look();
        snprintf(wrong, sizeof wrong, "leaves \"%s\", not \"%s\"", made, after);
        expect(strcmp(made, after) == 0, rows[i].call, wrong);
        expect(memcmp(&command, &command_before, sizeof command) == 0, rows[i].call, "the command buffer holds the data");
    }
}

int main(void)
{
    check_messages();
    check_sizes();
    check_classes();
    fill(&command);
    fill(&command_before);
    memset(output, BEFORE, sizeof output);
    section = "a unit";
    check_rows(unit_rows, sizeof unit_rows / sizeof unit_rows[0], unit_call, look_unit);
    memset(output, BEFORE, sizeof output);
    section = "a video unit";
    check_rows(video_rows, sizeof video_rows / sizeof video_rows[0], unit_call, look_unit);
    section = "a screen";
    check_screens();
    section = "a controller";
    check_rows(controller_rows, sizeof controller_rows / sizeof controller_rows[0], controller_call, look_controller);
    if (failures != 0) {
        printf("vectors: %u of %u FAILED\n", failures, run);
        return 1;
    }
    printf("vectors: %zu messages, data of 602 sizes, 256 classes, %zu calls of a unit, %zu of a video unit, %zu texts on screens, %zu calls of a controller; "
           "%u comparisons hold\n", sizeof messages / sizeof messages[0], sizeof unit_rows / sizeof unit_rows[0],
           sizeof video_rows / sizeof video_rows[0], sizeof screen_rows / sizeof screen_rows[0],
           sizeof controller_rows / sizeof controller_rows[0], run);
    return 0;
}
