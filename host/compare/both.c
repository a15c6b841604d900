/* A call on the library and on the second implementation, and what is compared after it. */
#include "compare.h"

static const uint8_t plenty[65536 + 16];   /* data and room to submit with: only their lengths are looked at */

bool all_made;

static bool made_in(struct words w, const uint32_t *before, uint32_t refusal, int other, const char *what)
{
    all_made = all_made && refusal == 0;
    return same(refusal == (uint32_t)other, what)
        && (refusal == 0 ? clean(w) : same(memcmp(before, w.word, w.n * sizeof *before) == 0, "a refused making changes words"));
}

static void start_unit(struct station *s, const struct start *f)
{
    uint32_t *w = s->lib.unit.word;

    w[UNIT_OPENING] = s->two.mode = f->mode;
    w[UNIT_ACCEPTED] = s->two.accepted = f->accepted;
    w[UNIT_ENABLED] = s->two.enabled = f->enabled;
    w[UNIT_REQUESTING] = s->two.requesting = f->requesting;
    w[UNIT_INPUT_HEAD] = s->two.input.head = f->input_head;
    w[UNIT_INPUT_COUNT] = s->two.input.count = f->input_count;
    w[UNIT_OUTPUT_HEAD] = s->two.output.head = f->output_head;
    w[UNIT_OUTPUT_COUNT] = s->two.output.count = f->output_count;
    if (!is_video(s->two.own_code))
        return;
    s->two.screen = f->screen;
    w[UNIT_ROW] = f->screen.row;
    w[UNIT_COLUMN] = f->screen.column;
    w[UNIT_SCROLLS] = f->screen.scrolls;
    w[UNIT_WRAPS] = f->screen.wraps;
    w[UNIT_TOP] = f->screen.first != 0;
    w[UNIT_BOTTOM] = f->screen.last != SECOND_ROWS - 1;
    w[UNIT_ASKED] = f->screen.asked;
}

static void start_ring(struct bench *b, const struct trial *t)
{
    uint32_t *w = b->lib.controller.word;

    w[CONTROLLER_ENTRIES] = b->two.ring_count = (uint8_t)t->entries;
    for (unsigned i = 0; i < t->entries; i++) {
        b->two.ring[i] = t->entry[i];
        w[CONTROLLER_ENTRY + i] = t->entry[i].code + (t->entry[i].marked ? HEXBUS_MARK : 0u);
    }
}

bool prepare(const struct trial *t, struct bench *b)
{
    uint64_t seed = t->memory;
    bool ok = true;
    uint32_t before[HEXBUS_CONTROLLER_WORDS];

    all_made = true;
    memset(b, 0, sizeof *b);
    fill(&b->data, sizeof b->data, &seed);
    if ((t->memory >> 20 & 3u) != 0)
        fill_text(b->data.bytes, sizeof b->data.bytes, &seed);
    if ((t->memory & 7u) != 0) {
        b->data.bytes[0] = (uint8_t)(t->memory >> 3 & 0x7Fu);
        b->data.bytes[1] = 0;
        b->data.bytes[2] = (uint8_t)((t->memory >> 10 & 3u) != 0 ? 0xC0 : t->memory >> 12 & 0xC0u);
    }
    b->data_before = b->data;
    fill(&b->lib_response, sizeof b->lib_response, &seed);
    b->two_response = b->lib_response;
    if (t->kind != ONE_UNIT) {
        struct words w = controller_words_of(&b->lib);

        fill(before, sizeof before, &seed);
        memcpy(w.word, before, w.n * sizeof *before);
        ok = made_in(w, before, hexbus_controller_make(&b->lib.controller, t->timeout),
                     second_controller_make(&b->two, t->timeout), "making a controller");
        if (broken == LATE_TIME_OUT)
            b->two.time_out++;
        if (t->started && all_made)
            start_ring(b, t);
    }
    for (unsigned i = 0; i < t->units; i++) {
        struct station *s = &b->station[i];
        struct words w = words_of(&s->lib);

        fill(&s->lib_lent, sizeof s->lib_lent, &seed);
        s->two_lent = s->lib_lent;
        fill(before, sizeof before, &seed);
        memcpy(w.word, before, w.n * sizeof *before);
        ok = made_in(w, before, hexbus_unit_make(&s->lib.unit, t->code[i], t->retry[i]),
                     second_unit_make(&s->two, t->code[i], t->retry[i]), "making a unit") && ok;
        if (t->started && all_made)
            start_unit(s, &t->start[i]);
    }
    return ok;
}

static uint32_t packed(struct second_pulls p)
{
    return (uint32_t)(p.nibble & 15u) + 16u * p.hsk + 32u * p.bav;
}

/* ---- What can be looked at --------------------------------------------- */

hexbus_screen_looks screen_of(const struct second_unit *u)
{
    struct second_screen_view v = second_screen_look(&u->screen);

    return (hexbus_screen_looks){ v.row, v.column, v.scrolls, v.wraps, v.top, v.bottom, v.asked, v.reading };
}

/* Only of a video unit; of others, that looking writes its eight words alone. */
static bool same_screen(const struct station *s)
{
    hexbus_screen_looks two = screen_of(&s->two);
    struct {
        hexbus_screen_looks l;
        uint32_t after;
    } looks = { .after = 0xEEEEEEEE };

    hexbus_screen_look(&s->lib.unit, &looks.l);
    return same(looks.after == 0xEEEEEEEE, "a word behind a screen's looks")
        && same(!is_video(s->two.own_code) || memcmp(&looks.l, &two, sizeof two) == 0, "a screen's cursor and modes");
}

bool same_unit(const struct station *s)
{
    struct {
        hexbus_unit_looks l;
        uint32_t after;
    } looks = { .after = 0xEEEEEEEE };
    const hexbus_unit_looks *l = &looks.l;
    struct second_unit_view v = second_unit_look(&s->two);

    hexbus_unit_look(&s->lib.unit, &looks.l);
    return same(hexbus_unit_pulls(&s->lib.unit) == packed(second_unit_pulls(&s->two)), "a unit's pulls")
        && same(l->opening == (uint32_t)v.mode, "a unit's mode")
        && same(l->accepted_length == v.accepted, "a unit's accepted length")
        && same(l->input_count == v.input_count, "a unit's input count")
        && same(l->output_count == v.output_count, "a unit's output count")
        && same(l->enabled == v.enabled, "a unit's enabling")
        && same(l->requesting == v.requesting, "a unit's request")
        && same(looks.after == 0xEEEEEEEE, "a word behind a unit's looks")
        && same_screen(s)
        && kept_around(s->lib.before, s->lib.after)
        && same(memcmp(&s->lib_lent.command, &s->two_lent.command, sizeof s->lib_lent.command) == 0, "a unit's command buffer")
        && same(memcmp(&s->lib_lent.input, &s->two_lent.input, sizeof s->lib_lent.input) == 0, "a unit's input bytes")
        && same(memcmp(&s->lib_lent.output, &s->two_lent.output, sizeof s->lib_lent.output) == 0, "a unit's output bytes, or cells");
}

/* The entries, and three places past the last of them. */
static bool same_ring(const hexbus_controller *c, const struct second_controller_view *v)
{
    for (unsigned i = 0; i < v->ring_count; i++)
        if (!same(hexbus_controller_entry(c, i) == v->ring[i].code + (v->ring[i].marked ? HEXBUS_MARK : 0u), "the ring"))
            return false;
    return same(hexbus_controller_entry(c, v->ring_count) == 0 && hexbus_controller_entry(c, HEXBUS_RING_ENTRIES) == 0
                && hexbus_controller_entry(c, SIZE_MAX) == 0, "past the ring's last");
}

bool same_controller(const struct bench *b)
{
    struct second_controller_view v = second_controller_look(&b->two);
    struct {
        hexbus_controller_looks l;
        uint32_t after;
    } looks = { .after = 0xEEEEEEEE };
    const hexbus_controller_looks *l = &looks.l;

    hexbus_controller_look(&b->lib.controller, &looks.l);
    return same(hexbus_controller_pulls(&b->lib.controller) == packed(second_controller_pulls(&b->two)), "the controller's pulls")
        && same(l->may_start == v.may_start, "may start")
        && same(l->submitted == v.submitted, "submitted")
        && same(l->entries == v.ring_count, "the ring's count")
        && same(looks.after == 0xEEEEEEEE, "a word behind the controller's looks")
        && kept_around(b->lib.before, b->lib.after)
        && same(memcmp(&b->lib_response, &b->two_response, sizeof b->lib_response) == 0, "the response buffer")
        && same(memcmp(&b->data, &b->data_before, sizeof b->data) == 0, "the data")
        && same_ring(&b->lib.controller, &v);
}

/* ---- One call on both sides -------------------------------------------- */

/* What stands in a unit's words before a call, garbled first where the call says so: nothing that can be looked at changes. */
static bool ready_unit(struct station *s, uint64_t seed, uint32_t *before)
{
    garble(words_of(&s->lib), seed);
    memcpy(before, s->lib.unit.word, sizeof s->lib.unit.word);
    return seed == 0 || same_unit(s);
}

static bool ready_controller(struct bench *b, uint64_t seed, uint32_t *before)
{
    garble(controller_words_of(&b->lib), seed);
    memcpy(before, b->lib.controller.word, sizeof b->lib.controller.word);
    return seed == 0 || same_controller(b);
}

static bool step_unit(struct station *s, const struct call *c, bool bav, bool hsk, uint8_t nibble, bool busy)
{
    struct second_levels seen = { bav, hsk, nibble };
    size_t room = c->short_room ? 255 : c->exact_room ? 256 : ROOM, needed = output_needed(s->two.own_code);
    size_t lent = c->output_lacks != 0 ? needed - 1 - (c->output_lacks - 1u) % needed : c->exact_room ? needed : SCREEN_ROOM;
    struct memory *one = &s->lib_lent, *two = &s->two_lent;
    uint32_t before[HEXBUS_UNIT_WORDS], answer;
    bool was_closed = s->two.mode == SECOND_CLOSED;
    int other;

    if (!ready_unit(s, c->garble, before))
        return false;
    answer = hexbus_unit_step(&s->lib.unit, bav, hsk, nibble, busy, one->command.bytes, room, one->input.bytes, one->output.bytes,
                              lent);
    other = second_unit_step(&s->two, seen, busy && broken != FORGETS_BUSY, two->command.bytes, room, two->input.bytes, two->output.bytes, lent);
    if (broken == TAKES_0_FOR_80 && was_closed && s->two.mode != SECOND_CLOSED && two->command.bytes[0] == 0)
        s->two.accepted = 80;
    if (broken == ANSWERS_80 && s->two.answer_length > 80)
        s->two.answer_length = 80;
    if (broken == CLEARS_UNUSED_BITS)
        s->lib.unit.word[UNIT_ASKING] &= FLAG;
    if (broken == WRITES_A_TAG_AGAIN && s->lib.unit.word[UNIT_PHASE] >= PHASES)
        s->lib.unit.word[UNIT_PHASE] = IDLE;
    if (broken == WRITES_PAST_A_BUFFER && (hexbus_unit_pulls(&s->lib.unit) & HEXBUS_HSK) != 0)
        one->input.after[0]++;
    return same(answer == (uint32_t)other, "a unit's step") && kept(before, words_of(&s->lib), answer == 0) && same_unit(s);
}

static bool step_controller(struct bench *b, const struct call *c, bool bav, bool hsk, uint8_t nibble, bool busy)
{
    static char told[160];
    struct second_levels seen = { bav, hsk, nibble };
    uint32_t n = c->wrong_data ? b->data_length + 1 : b->data_length;
    uint32_t room = c->short_room && b->room > 0 ? b->room - 1 : b->room;
    struct {
        hexbus_event e;
        uint32_t after;
    } told_in = { { 7, 8, 9 }, 0xEEEEEEEE };
    const hexbus_event *e = &told_in.e;
    uint32_t before[HEXBUS_CONTROLLER_WORDS], answer;
    struct second_event two;

    if (!ready_controller(b, c->garble, before))
        return false;
    answer = hexbus_controller_step(&b->lib.controller, bav, hsk, nibble, busy, b->data.bytes, n, b->lib_response.bytes, room, &told_in.e);
    two = second_controller_step(&b->two, seen, busy, b->data.bytes, n, b->two_response.bytes, room);
    if (answer == 0 && (e->kind != two.what || e->value != two.value || e->count != two.count)) {
        snprintf(told, sizeof told, "what the controller tells: %u %u %u, the second implementation %u %u %u", (unsigned)e->kind,
                 (unsigned)e->value, (unsigned)e->count, (unsigned)two.what, (unsigned)two.value, (unsigned)two.count);
        return same(false, told);
    }
    return same(answer == two.refusal, "the controller's step")
        && same(answer == 0 || (e->kind == 7 && e->value == 8 && e->count == 9), "the event of a refused step")
        && same(told_in.after == 0xEEEEEEEE, "a word behind the event")
        && kept(before, controller_words_of(&b->lib), answer == 0)
        && same_controller(b);
}

/* A command's fields in words: the bits past a field's width are not looked at, nor is the data's length. */
hexbus_command in_words(const struct second_command *k, uint64_t seed)
{
    hexbus_command h = { k->device, k->command, k->logical_unit, k->record, k->buffer_length, (uint32_t)seed };

    h.device |= (uint32_t)seed << 8;
    h.command |= (uint32_t)(seed >> 8) << 8;
    h.logical_unit |= (uint32_t)(seed >> 16) << 8;
    h.record_number |= (uint32_t)(seed >> 24) << 16;
    h.buffer_length |= (uint32_t)(seed >> 32) << 16;
    return h;
}

static bool submit(struct bench *b, const struct call *c)
{
    hexbus_command k = in_words(&c->command, c->garble), k_before = k;
    uint32_t before[HEXBUS_CONTROLLER_WORDS], one;
    int two;

    if (!ready_controller(b, c->garble, before))
        return false;
    one = hexbus_controller_submit(&b->lib.controller, &k, plenty, c->data_length, plenty, c->room);
    two = second_submit(&b->two, &c->command, c->data_length, c->room);
    if (one == 0) {
        b->data_length = c->data_length;
        b->room = c->room;
    }
    return same(one == (uint32_t)two, "submitting") && same(memcmp(&k, &k_before, sizeof k) == 0, "the fields of a submitted command")
        && kept(before, controller_words_of(&b->lib), one == 0) && same_controller(b);
}

/* A round of the bus: each party sees the levels left by all pulls of the round before. */
static bool round_of(const struct trial *t, struct bench *b, const struct call *c)
{
    uint32_t all = hexbus_controller_pulls(&b->lib.controller);
    uint32_t nibble = all & 15u, lines = all & 48u;

    for (unsigned i = 0; i < t->units; i++) {
        uint32_t p = hexbus_unit_pulls(&b->station[i].lib.unit);

        nibble &= p & 15u;
        lines |= p & 48u;
    }
    for (unsigned i = 0; i < t->units; i++)
        if (!step_unit(&b->station[i], c, (lines & 32u) != 0, (lines & 16u) != 0, (uint8_t)nibble, (c->hosts >> i & 1u) != 0))
            return false;
    return step_controller(b, c, (lines & 32u) != 0, (lines & 16u) != 0, (uint8_t)nibble, c->busy);
}

/* Feeding, taking and raising. */
static bool call_unit(struct station *s, const struct call *c)
{
    uint32_t before[HEXBUS_UNIT_WORDS], one, two;
    uint8_t byte = 0;

    if (!ready_unit(s, c->garble, before))
        return false;
    switch (c->kind) {
    case FEED:
        one = hexbus_unit_feed(&s->lib.unit, s->lib_lent.input.bytes, c->byte);
        two = (uint32_t)second_unit_feed(&s->two, s->two_lent.input.bytes, broken == FEEDS_OTHER_BYTE ? (uint8_t)~c->byte : c->byte);
        return same(one == two, "feeding") && kept(before, words_of(&s->lib), one == 0) && same_unit(s);
    case TAKE:
        one = hexbus_unit_take(&s->lib.unit, s->lib_lent.output.bytes);
        two = second_unit_take(&s->two, s->two_lent.output.bytes, &byte) ? byte : HEXBUS_NO_BYTE;
        return same(one == two, "taking") && kept(before, words_of(&s->lib), one != HEXBUS_NO_BYTE) && same_unit(s);
    default:
        one = hexbus_unit_raise(&s->lib.unit);
        two = (uint32_t)second_unit_raise(&s->two);
        return same(one == two, "raising") && kept(before, words_of(&s->lib), one == 0) && same_unit(s);
    }
}

static bool acknowledge(struct bench *b, const struct call *c)
{
    uint32_t before[HEXBUS_CONTROLLER_WORDS], one;

    if (!ready_controller(b, c->garble, before))
        return false;
    one = hexbus_controller_acknowledge(&b->lib.controller, c->byte);
    return same(one == (uint32_t)second_acknowledge(&b->two, c->byte), "acknowledging")
        && kept(before, controller_words_of(&b->lib), one == 0) && same_controller(b);
}

bool perform(const struct trial *t, struct bench *b, const struct call *c)
{
    struct station *s = &b->station[c->at];

    switch (c->kind) {
    case STEP:
        if (t->kind == ONE_UNIT)
            return step_unit(s, c, c->bav, c->hsk, c->nibble, c->busy);
        if (t->kind == ONE_CONTROLLER)
            return step_controller(b, c, c->bav, c->hsk, c->nibble, c->busy);
        return round_of(t, b, c);
    case SUBMIT:
        return submit(b, c);
    case ACKNOWLEDGE:
        return acknowledge(b, c);
    default:
        return call_unit(s, c);
    }
}
