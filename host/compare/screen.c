/*
 * Texts on screens: the library and the second implementation, each with a text in one write and cut into several. After every write the two
 * that are cut are compared, and after every text all four. A difference is replayed with parts left out, as long as it stays.
 */
#include "compare.h"

/* A script: bytes of texts, and what is done between them. */
enum { CUT = 256, END, CLOSE, RESET, OPEN, READ, CUT_READ = READ + 4, PART_KINDS = CUT_READ + 4, MOST_PARTS = 1200 };

struct script {
    uint8_t code, accepted, attributes;
    bool painted;                /* the cells are random after an open */
    uint64_t memory;             /* the seed of the lent bytes */
    size_t parts;
    uint16_t part[MOST_PARTS];
};

/* A video unit that is alone. */
struct party {
    bool lib;
    struct unit_words words;
    struct second_unit two;
    struct memory lent;
    uint8_t text[256];           /* what the next write has */
    size_t length;
    uint8_t answer[16];          /* the last response, of so many bytes */
    size_t answered;
};

enum { LIB_CUT, TWO_CUT, LIB_WHOLE, TWO_WHOLE, PARTIES };

static struct party parties[PARTIES];
static long steps_done;

static uint32_t step(struct party *p, bool bav, bool hsk, uint8_t nibble)
{
    struct memory *m = &p->lent;
    size_t lent = (steps_done & 1) != 0 ? HEXBUS_SCREEN_BYTES : SCREEN_ROOM;
    struct second_levels seen = { bav, hsk, nibble };
    struct second_pulls pulls;

    steps_done++;
    if (p->lib) {
        same(hexbus_unit_step(&p->words.unit, bav, hsk, nibble, false, m->command.bytes, 256, m->input.bytes, m->output.bytes, lent) == 0,
             "a step of a screen's unit");
        return hexbus_unit_pulls(&p->words.unit);
    }
    same(second_unit_step(&p->two, seen, false, m->command.bytes, 256, m->input.bytes, m->output.bytes, lent) == 0, "a step of a screen's unit");
    pulls = second_unit_pulls(&p->two);
    return pulls.nibble + 16u * pulls.hsk + 32u * pulls.bav;
}

/* A frame: the command's nibbles are taken, and as many of the response's are done as there are, or that many. */
static void frame(struct party *p, uint8_t device, uint8_t command, uint16_t buffer, const uint8_t *data, size_t n, size_t most)
{
    struct second_command k = { device, command, 0, 0, buffer };
    size_t whole = most, done = 0;
    uint32_t pulls;

    step(p, true, false, 15);
    for (size_t i = 0; i < 2 * (HEXBUS_COMMAND_HEAD + n); i++) {
        uint8_t nibble = second_command_nibble(&k, data, n, i);

        step(p, true, true, nibble);
        step(p, true, true, nibble);
        step(p, true, false, 15);
    }
    p->answered = 0;
    step(p, true, false, 15);
    while (done < whole && done < 2 * sizeof p->answer && ((pulls = step(p, true, false, 15)) & HEXBUS_HSK) != 0) {
        uint8_t *byte = &p->answer[done / 2], nibble = (uint8_t)(pulls & HEXBUS_NIBBLE);

        *byte = (uint8_t)(done % 2 == 0 ? nibble : *byte | nibble << 4);
        step(p, true, true, nibble);
        step(p, true, false, nibble);
        p->answered = ++done / 2;
        if (done == 4 && 2u * (p->answer[0] + 3u) < whole)
            whole = 2u * (p->answer[0] + 3u);
    }
    step(p, false, false, 15);
}

static void paint(const struct script *t, struct party *p)
{
    uint64_t seed = t->memory + 1;

    if (t->painted)
        fill(p->lent.output.bytes, HEXBUS_SCREEN_BYTES, &seed);
}

static void open_party(const struct script *t, struct party *p)
{
    const uint8_t data[3] = { t->accepted, 0, t->attributes };

    frame(p, t->code, 0x00, 4, data, 3, SIZE_MAX);
    if (p->answered == 7)
        paint(t, p);
}

static bool write_text(const struct script *t, struct party *p)
{
    bool cut = p == &parties[LIB_CUT] || p == &parties[TWO_CUT];

    frame(p, t->code, 0x04, 0, p->text, p->length, cut && p->length % 3 == 0 ? 0 : SIZE_MAX);
    p->length = 0;
    return cut;
}

/* ---- What is compared -------------------------------------------------- */

static hexbus_screen_looks looks(const struct party *p)
{
    hexbus_screen_looks l;

    if (!p->lib)
        return screen_of(&p->two);
    hexbus_screen_look(&p->words.unit, &l);
    return l;
}

static bool same_opening(const struct party *a, const struct party *b)
{
    hexbus_unit_looks l;

    hexbus_unit_look(&a->words.unit, &l);
    return l.opening == b->two.mode && l.accepted_length == b->two.accepted;
}

static bool same_parties(const struct party *a, const struct party *b, const char *cells, const char *modes)
{
    hexbus_screen_looks l = looks(a), m = looks(b);

    return same(memcmp(&l, &m, sizeof l) == 0, modes) && same(memcmp(&a->lent.output, &b->lent.output, sizeof a->lent.output) == 0, cells);
}

/* One implementation and the other, with the same writes. */
static bool same_pair(const struct party *lib, const struct party *two)
{
    return same_parties(lib, two, "cells, or bytes behind them, of the two implementations", "cursor and modes of the two implementations")
        && same(same_opening(lib, two), "what a screen's unit is open for")
        && same(lib->answered == two->answered && memcmp(lib->answer, two->answer, lib->answered) == 0, "a screen's unit's answer")
        && same(memcmp(&lib->lent, &two->lent, sizeof lib->lent) == 0, "bytes that a screen's unit is lent")
        && kept_around(lib->words.before, lib->words.after);
}

static bool same_all(void)
{
    return same_pair(&parties[LIB_CUT], &parties[TWO_CUT]) && same_pair(&parties[LIB_WHOLE], &parties[TWO_WHOLE])
        && same_parties(&parties[LIB_CUT], &parties[LIB_WHOLE], "cells of a text that is cut", "cursor and modes of a text that is cut")
        && same_parties(&parties[TWO_CUT], &parties[TWO_WHOLE], "cells of a text that is cut, second implementation",
                        "cursor and modes of a text that is cut, second implementation");
}

/* ---- A script ---------------------------------------------------------- */

static bool write_cut(const struct script *t)
{
    write_text(t, &parties[LIB_CUT]);
    write_text(t, &parties[TWO_CUT]);
    if (broken == FORGETS_A_SEQUENCE)
        parties[TWO_CUT].two.screen.sequence = 0;
    if (broken == WRITES_PAST_A_SCREEN)
        parties[TWO_CUT].lent.output.bytes[HEXBUS_SCREEN_BYTES] ^= 1;
    return same_pair(&parties[LIB_CUT], &parties[TWO_CUT]);
}

static bool end_text(const struct script *t)
{
    if (!write_cut(t))
        return false;
    write_text(t, &parties[LIB_WHOLE]);
    write_text(t, &parties[TWO_WHOLE]);
    for (int i = 0; i < PARTIES; i++)
        parties[i].answered = 0;
    return same_all();
}

/* A read with a buffer of 0 to 3 bytes, at times cut off before its last nibble is done. */
static void read_address(const struct script *t, struct party *p, unsigned part)
{
    bool cut = part >= CUT_READ, asked = looks(p).asked != 0;

    frame(p, t->code, 0x03, (uint16_t)(part - (cut ? CUT_READ : READ)), NULL, 0, cut ? 5 : SIZE_MAX);
    if (broken == KEEPS_AN_ADDRESS && !p->lib)
        p->two.screen.asked = asked;
}

static bool between(const struct script *t, unsigned part)
{
    for (int i = 0; i < PARTIES; i++) {
        struct party *p = &parties[i];

        if (part == CLOSE)
            frame(p, t->code, 0x01, 0, NULL, 0, SIZE_MAX);
        else if (part == RESET)
            frame(p, 0, 0xFF, 0, NULL, 0, SIZE_MAX);
        else if (part == OPEN)
            open_party(t, p);
        else
            read_address(t, p, part);
    }
    return same_all();
}

static bool take_part(const struct script *t, unsigned part)
{
    bool full;

    if (part > END)
        return (parties[LIB_WHOLE].length == 0 || end_text(t)) && between(t, part);
    if (part == END)
        return end_text(t);
    if (part == CUT)
        return write_cut(t);
    for (int i = 0; i < PARTIES; i++)
        parties[i].text[parties[i].length++] = (uint8_t)part;
    full = parties[LIB_WHOLE].length == sizeof parties[0].text;
    return !full || end_text(t);
}

static bool begin(const struct script *t)
{
    memset(parties, 0, sizeof parties);
    for (int i = 0; i < PARTIES; i++) {
        struct party *p = &parties[i];
        uint64_t seed = t->memory;

        fill(&p->lent, sizeof p->lent, &seed);
        p->lib = i == LIB_CUT || i == LIB_WHOLE;
        if (p->lib)
            same(hexbus_unit_make(&p->words.unit, t->code, HEXBUS_RETRY) == 0, "making a screen's unit");
        else
            same(second_unit_make(&p->two, t->code, HEXBUS_RETRY) == 0, "making a screen's unit");
        open_party(t, p);
    }
    return same_all();
}

/* The number of the first part that differs, from 0, or -1. */
static long replay(const struct script *t)
{
    steps_done &= ~1L;
    difference = NULL;
    if (!begin(t))
        return 0;
    for (size_t i = 0; i < t->parts; i++)
        if (!take_part(t, t->part[i]) || difference != NULL)
            return (long)i;
    return -1;
}

/* ---- Random scripts, and one that shows a difference ------------------- */

static void add(struct script *t, unsigned part)
{
    if (t->parts < MOST_PARTS)
        t->part[t->parts++] = (uint16_t)part;
}

static void add_text(struct script *t)
{
    uint8_t text[256];
    size_t n = one_in(4) ? 256 : 1 + below(80);
    uint32_t cuts = 1 + (one_in(4) ? below(4) : below(60));

    random_text(text, n);
    for (size_t i = 0; i < n; i++) {
        add(t, text[i]);
        if (one_in(cuts + 1))
            add(t, CUT);
    }
    add(t, END);
}

static void draw_script(struct script *t)
{
    t->code = (uint8_t)(VIDEO + below(VIDEO_CODES));
    t->accepted = (uint8_t)(one_in(2) ? 80 : below(4));
    t->attributes = (uint8_t)((one_in(5) ? 0x80 : 0xC0) + below(0x20));
    t->painted = !one_in(4);
    t->memory = ((uint64_t)random_word() << 32) + random_word();
    t->parts = 0;
    for (uint32_t texts = 1 + below(6); texts > 0; texts--) {
        add_text(t);
        if (one_in(2))
            add(t, one_in(3) ? CUT_READ + below(4) : READ + below(4));
        if (one_in(10))
            add(t, one_in(2) ? CLOSE : RESET);
        if (one_in(8))
            add(t, OPEN);
    }
}

/* Without a row of so many parts, wherever it begins. */
static void without_rows(struct script *t, size_t row)
{
    static struct script less;

    for (size_t from = 0; from + row <= t->parts;) {
        long first;

        less = *t;
        memmove(&less.part[from], &less.part[from + row], (less.parts - from - row) * sizeof less.part[0]);
        less.parts -= row;
        first = replay(&less);
        if (first < 0) {
            from += t->parts < SHORT ? 1 : row;
            continue;
        }
        *t = less;
        t->parts = t->parts == 0 ? 0 : (size_t)first + 1;
    }
}

static void print_part(unsigned part)
{
    if (part < CUT)
        printf(" %02X", part);
    else if (part >= READ)
        printf(" %sread-%u", part >= CUT_READ ? "cut-" : "", (part - READ) % 4);
    else
        printf(" %s", part == CUT ? "cut" : part == END ? "end" : part == CLOSE ? "close" : part == RESET ? "reset" : "open");
}

static void report(struct script *t, long first)
{
    size_t before;

    t->parts = t->parts == 0 ? 0 : (size_t)first + 1;
    do {
        before = t->parts;
        for (size_t row = t->parts / 2; row > 0; row /= 2)
            without_rows(t, row);
    } while (t->parts < before);
    replay(t);
    printf("DIFFERENCE on a screen: %s\nunit code %u accepted %u attributes %02X %s %" PRIx64 "\n", difference, t->code, t->accepted, t->attributes,
           t->painted ? "painted from" : "blank, memory from", t->memory);
    for (size_t i = 0; i < t->parts; i++)
        print_part(t->part[i]);
    printf("\n%zu calls\n", t->parts);
}

long screens(long steps)
{
    static struct script t;
    long texts = 0;

    for (steps_done = 0; steps_done < steps;) {
        long first;

        draw_script(&t);
        first = replay(&t);
        if (first >= 0) {
            report(&t, first);
            return -1;
        }
        for (size_t i = 0; i < t.parts; i++)
            texts += t.part[i] == END;
    }
    return texts;
}
