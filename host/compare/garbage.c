/* Words that no save makes, beside a copy in which what no field uses differs. */
#include "compare.h"

/* A video unit's: its cursor in and out of range, and often one that is open and about to take the last nibble of a write. */
static void random_video_words(uint32_t *w)
{
    w[UNIT_OWN] = (random_word() & ~(uint32_t)BYTE) + VIDEO + below(VIDEO_CODES);
    w[UNIT_ROW] = one_in(4) ? random_word() : below(SECOND_ROWS + 2);
    w[UNIT_COLUMN] = one_in(4) ? random_word() : one_in(2) ? below(SECOND_COLUMNS + 2) : SECOND_COLUMNS - 3 + below(6);
    w[UNIT_SEQUENCE] = one_in(8) ? random_word() : below(SEQUENCES);
    if (one_in(2))
        return;
    w[UNIT_PHASE] = TAKING;
    w[UNIT_OPENING] = SECOND_OUTPUT + below(2);
    w[UNIT_EAR] = below(LINE_TAGS);
    w[UNIT_DEVICE] = w[UNIT_OWN];
    w[UNIT_COMMAND] = one_in(3) ? 0x03 : 0x04;
    w[UNIT_DATA_LENGTH] = w[UNIT_COMMAND] == 0x03 ? 0 : below(257);
    w[UNIT_PLACE] = HEXBUS_COMMAND_HEAD + w[UNIT_DATA_LENGTH] - below(2);
    w[UNIT_HALF] = FLAG;
}

/* Random words: tags of every case and of none, numbers on both sides of what a state can hold. */
static void random_words(struct words w)
{
    for (size_t i = 0; i < w.n; i++)
        w.word[i] = one_in(4) ? random_word() : one_in(2) ? below(6) : below(600);
    if (w.n != HEXBUS_UNIT_WORDS) {
        w.word[CONTROLLER_STAGE] = one_in(8) ? random_word() : below(STAGES);
        return;
    }
    w.word[UNIT_PHASE] = one_in(8) ? random_word() : below(PHASES);
    if (one_in(2))
        random_video_words(w.word);
}

/* Two states in words of which one differs from the other in what no field uses, and in tags that mean the same. */
static bool same_words(struct words a, struct words b)
{
    struct use uses[HEXBUS_CONTROLLER_WORDS];

    a.uses(a.word, uses);
    for (size_t i = 0; i < a.n; i++)
        if (!same(meaning(a.word[i], uses[i]) == meaning(b.word[i], uses[i]), "what is done to words that no save makes"))
            return false;
    return true;
}

/* A call, and whether it changed the state. */
struct any_call {
    uint32_t pick;
    bool bav, hsk, busy;
    uint8_t nibble, byte;
    size_t data_length, room, lacks;
    hexbus_command fields;
};

struct any_answer {
    uint32_t number;
    bool changes;
};

static struct any_call random_any_call(void)
{
    struct second_command k = random_command(&(struct trial){ .units = 0 }, NULL);

    return (struct any_call){
        .pick = below(12), .bav = !one_in(4), .hsk = one_in(2), .busy = one_in(4), .nibble = (uint8_t)below(17), .byte = (uint8_t)below(8),
        .room = one_in(20) ? 255 : 256, .lacks = one_in(20) ? 1 + below(256) : 0, .fields = in_words(&k, random_state)
    };
}

static struct any_answer call_any_unit(struct unit_words *u, struct memory *m, const struct any_call *c)
{
    size_t lent = output_needed((uint8_t)u->unit.word[UNIT_OWN]) - c->lacks;
    uint32_t n;

    switch (c->pick) {
    case 0:
        n = hexbus_unit_feed(&u->unit, m->input.bytes, c->byte);
        break;
    case 1:
        n = hexbus_unit_take(&u->unit, m->output.bytes);
        return (struct any_answer){ n, n != HEXBUS_NO_BYTE };
    case 2:
        n = hexbus_unit_raise(&u->unit);
        break;
    default:
        n = hexbus_unit_step(&u->unit, c->bav, c->hsk, c->nibble, c->busy, m->command.bytes, c->room, m->input.bytes, m->output.bytes,
                             lent);
        same(n == (c->nibble > 15 ? 5u : c->room < 256 || c->lacks > 0 ? 11u : 0u), "a step of words that no save makes");
    }
    return (struct any_answer){ n, n == 0 };
}

static bool same_any_unit(const struct unit_words *u, const struct unit_words *v)
{
    hexbus_unit_looks l, m;
    hexbus_screen_looks k, n;

    hexbus_unit_look(&u->unit, &l);
    hexbus_unit_look(&v->unit, &m);
    hexbus_screen_look(&u->unit, &k);
    hexbus_screen_look(&v->unit, &n);
    return same(memcmp(&l, &m, sizeof l) == 0 && memcmp(&k, &n, sizeof k) == 0 && hexbus_unit_pulls(&u->unit) == hexbus_unit_pulls(&v->unit),
                "a unit in words that no save makes")
        && kept_around(u->before, u->after) && kept_around(v->before, v->after);
}

static bool garbage_unit(void)
{
    static struct memory one, two;
    struct unit_words u = { .before = { 0 } }, v;
    struct words w = words_of(&u), x = words_of(&v);
    uint64_t seed = ((uint64_t)random_word() << 32) + random_word();

    fill(&one, sizeof one, &seed);
    if (one_in(2))
        fill_text(one.command.bytes, sizeof one.command.bytes, &seed);
    two = one;
    random_words(w);
    v = u;
    garble(x, seed | 1);
    if (broken == LOOKS_AT_UNUSED_BITS)
        v.unit.word[UNIT_ASKING] ^= FLAG;
    difference = NULL;
    for (int i = 0; i < 16 && difference == NULL; i++) {
        struct unit_words before_u = u, before_v = v;
        struct any_call c = random_any_call();
        struct any_answer a = call_any_unit(&u, &one, &c), b = call_any_unit(&v, &two, &c);

        if (same(a.number == b.number, "a call on words that no save makes") && same_any_unit(&u, &v)
            && same(memcmp(&one, &two, sizeof one) == 0, "bytes that are lent with words that no save makes")
            && kept(before_u.unit.word, w, a.changes) && kept(before_v.unit.word, x, a.changes) && a.changes)
            same_words(w, x);
    }
    return difference == NULL;
}

/* What a controller is lent: as much as its words may ask for. */
struct plenty {
    uint8_t data[65536], response[65536];
};

static struct any_answer call_any_controller(struct controller_words *u, struct plenty *m, const struct any_call *c, hexbus_event *e)
{
    uint32_t n;

    switch (c->pick) {
    case 0:
        n = hexbus_controller_submit(&u->controller, &c->fields, m->data, c->byte, m->response, 400);
        break;
    case 1:
        n = hexbus_controller_acknowledge(&u->controller, c->byte);
        break;
    default:
        n = hexbus_controller_step(&u->controller, c->bav, c->hsk, c->nibble, c->busy, m->data, c->data_length, m->response, c->room, e);
    }
    return (struct any_answer){ n, n == 0 };
}

static bool same_any_controller(const struct controller_words *u, const struct controller_words *v, size_t entry)
{
    hexbus_controller_looks l, m;

    hexbus_controller_look(&u->controller, &l);
    hexbus_controller_look(&v->controller, &m);
    return same(memcmp(&l, &m, sizeof l) == 0 && hexbus_controller_pulls(&u->controller) == hexbus_controller_pulls(&v->controller)
                && hexbus_controller_entry(&u->controller, entry) == hexbus_controller_entry(&v->controller, entry),
                "a controller in words that no save makes")
        && kept_around(u->before, u->after) && kept_around(v->before, v->after);
}

/* Mostly lent what the words ask for. */
static bool garbage_controller(void)
{
    static struct plenty one, two;
    struct controller_words u = { .before = { 0 } }, v;
    struct words w = controller_words_of(&u), x = controller_words_of(&v);

    random_words(w);
    v = u;
    garble(x, random_state | 1);
    difference = NULL;
    for (int i = 0; i < 16 && difference == NULL; i++) {
        struct controller_words before_u = u, before_v = v;
        struct any_call c = random_any_call();
        hexbus_event e = { 7, 8, 9 }, f = e;
        struct any_answer a, b;

        c.data_length = one_in(20) ? below(65536) : u.controller.word[CONTROLLER_DATA_LENGTH] & FIELD;
        c.room = one_in(20) ? below(65536) : u.controller.word[CONTROLLER_BUFFER_LENGTH] & FIELD;
        a = call_any_controller(&u, &one, &c, &e);
        b = call_any_controller(&v, &two, &c, &f);
        if (same(a.number == b.number && memcmp(&e, &f, sizeof e) == 0, "a call on words that no save makes") && same_any_controller(&u, &v, c.byte)
            && same(a.changes || (e.kind == 7 && e.value == 8 && e.count == 9), "the event of a refused step")
            && kept(before_u.controller.word, w, a.changes) && kept(before_v.controller.word, x, a.changes) && a.changes)
            same_words(w, x);
    }
    if (difference == NULL && one_in(50))
        same(memcmp(&one, &two, sizeof one) == 0, "bytes that are lent with words that no save makes");
    return difference == NULL;
}

int garbage(long steps)
{
    for (long i = 0; i < steps / 32; i++) {
        uint64_t seed = random_state;

        if (garbage_unit() && garbage_controller())
            continue;
        printf("DIFFERENCE in garbage: %s, of words drawn from %" PRIx64 "\n", difference, seed);
        return 1;
    }
    return 0;
}
