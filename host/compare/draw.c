/* Random calls, and the other end of the lines for a party that is alone. */
#include "compare.h"

/* Mostly what a unit that is closed or open can do something with. */
static uint8_t random_command_code(bool open)
{
    static const uint8_t closed[] = { 0x00, 0x00, 0x00, 0x00, 0x00, 0x00, 0x00, 0x00, 0x00, 0x01, 0x03, 0x04, 0x08, 0x09, 0x0A, 0x0A };
    static const uint8_t opened[] = { 0x03, 0x03, 0x03, 0x03, 0x04, 0x04, 0x04, 0x04, 0x08, 0x08, 0x09, 0x0A, 0x0A, 0x0A, 0x00, 0x01 };

    if (one_in(24))
        return random_byte();
    if (one_in(40))
        return (uint8_t)(0xFE + below(2));
    return open ? opened[below(sizeof opened)] : closed[below(sizeof closed)];
}

/* For one of the units that are there, for all, or for anybody. */
struct second_command random_command(const struct trial *t, const struct bench *b)
{
    struct second_command k;
    uint32_t pick = below(12), at = t->units > 0 ? below(t->units) : 0;
    bool known = t->units > 0 && pick < 10;

    k.device = known ? t->code[at] : pick == 10 ? 0 : random_byte();
    k.command = random_command_code(known ? b->station[at].two.mode != SECOND_CLOSED : one_in(2));
    k.logical_unit = random_byte();
    k.record = (uint16_t)random_word();
    k.buffer_length = (uint16_t)(one_in(k.command == 0x03 ? 2 : 6) ? below(300) : below(9));
    if (t->eager && t->kind == ONE_CONTROLLER) {
        k.device = random_byte();
        k.command = one_in(9) ? k.command : 0x08;
    }
    if (t->kind == ONE_CONTROLLER && b != NULL && b->two.ring_count > 0 && one_in(2))
        k.device = b->two.ring[below(b->two.ring_count)].code;
    if (t->eager && t->kind == ONE_UNIT && b->station[0].two.mode != SECOND_CLOSED && one_in(2))
        k.command = 0x04;
    return k;
}

uint32_t random_length(void)
{
    uint32_t pick = below(40);

    return pick == 0 ? 254 + below(6) : pick < 4 ? below(60) : pick < 20 ? 3 : below(7);
}

/* ---- Texts for a screen ------------------------------------------------ */

/* Numbers at their limits: often 0 or the last that is in range, at times an escape, or one that is not in range. */
static uint8_t random_coordinate(uint32_t n)
{
    uint32_t pick = below(16);

    return (uint8_t)(pick < 6 ? below(n) : pick < 8 ? 0 : pick < 10 ? n - 1 : pick == 10 ? 1 : pick == 11 ? n - 2 : pick == 12 ? n : pick == 13 ? 0x1B
                     : pick == 14 ? random_byte() : below(n));
}

/* A sequence and its arguments: as many as the chapter counts, or one more or less; what is not defined; and near misses. */
static size_t random_sequence(uint8_t *to)
{
    static const char often[] = "MmQWERT=======001122334456799QWERRT", counted[] = "67KL", one[] = ".GCP";
    static const char near[] = "OoqweryltDd8:;<>-*[(AZz@/gbckp\x1B\x1B";
    uint32_t pick = below(40);
    size_t n = 0, arguments = 0;

    to[n++] = 0x1B;
    if (pick < 26) {
        to[n] = (uint8_t)often[below(sizeof often - 1)];
        if (to[n++] == '=') {
            to[n++] = random_coordinate(SECOND_ROWS);
            to[n++] = random_coordinate(SECOND_COLUMNS);
        }
        arguments = to[1] == '6' || to[1] == '7' ? 22 + below(3) : 0;
    } else if (pick < 28) {
        to[n++] = (uint8_t)counted[below(sizeof counted - 1)];
        arguments = 22 + below(3);
    } else if (pick < 31) {
        to[n++] = (uint8_t)one[below(sizeof one - 1)];
        arguments = 1;
    } else if (pick < 34) {
        to[n++] = pick == 31 ? 'S' : 'B';
        arguments = pick == 31 ? 2 : 9;
    } else if (pick < 36) {
        to[n++] = 'Y';
    } else {
        to[n++] = pick < 38 ? (uint8_t)near[below(sizeof near - 1)] : random_byte();
    }
    if (arguments > 0 && one_in(8))
        arguments += one_in(2) ? 1 : -(size_t)1;
    while (arguments-- > 0)
        to[n++] = one_in(4) ? 0x1B : random_byte();
    return n;
}

/* Characters, control codes and many escapes; the last sequence may be cut off. */
void random_text(uint8_t *text, size_t n)
{
    static const uint8_t codes[] = { 0x08, 0x08, 0x0A, 0x0A, 0x0A, 0x0B, 0x0B, 0x0B, 0x0C, 0x0C, 0x0D, 0x07, 0x15 };
    uint8_t piece[128];

    while (n > 0) {
        uint32_t pick = below(10);
        size_t length = 1;

        if (pick < 5) {
            length = random_sequence(piece);
        } else if (pick < 7) {
            length = 1 + (one_in(12) ? 60 + below(60) : below(8));
            for (size_t i = 0; i < length; i++)
                piece[i] = (uint8_t)(0x20 + below(0xE0));
        } else {
            piece[0] = one_in(30) ? 0x1F : one_in(8) ? (uint8_t)below(0x20) : codes[below(sizeof codes)];
        }
        length = length < n ? length : n;
        memcpy(text, piece, length);
        text += length;
        n -= length;
    }
}

void fill_text(uint8_t *text, size_t n, uint64_t *seed)
{
    uint64_t keep = random_state;

    random_state = *seed;
    random_text(text, n);
    *seed = random_state;
    random_state = keep;
}

/* ---- Commands and rounds ----------------------------------------------- */

static void random_submit(const struct trial *t, const struct bench *b, struct call *c)
{
    c->kind = SUBMIT;
    c->command = random_command(t, b);
    c->data_length = c->command.command == 0 && !one_in(4) ? 3 : random_length();
    if (c->command.command == 4 && is_video(c->command.device) && one_in(2))
        c->data_length = below(MOST_DATA);
    if (c->command.command == 0 && !one_in(4))
        c->command.buffer_length = (uint16_t)(4 + below(3));
    if (one_in(60))
        c->data_length = 65530 + below(12);
    c->room = one_in(20) ? below(ROOM) : c->command.buffer_length < ROOM ? c->command.buffer_length + below(3) : ROOM;
    if (c->data_length > MOST_DATA && c->data_length <= 65535)
        c->data_length = MOST_DATA - 1;
    if (c->room > ROOM)
        c->room = ROOM;
}

static void open_data(uint8_t *bytes)
{
    static const uint8_t attributes[] = { 0x40, 0x80, 0xC0, 0xC0, 0xC0, 0xC0, 0xC0, 0x00, 0x20, 0x60, 0xA0, 0xE0, 0xD0 };

    bytes[0] = (uint8_t)(one_in(5) ? random_byte() : below(3) * 0x40);
    bytes[1] = 0;
    bytes[2] = attributes[below(sizeof attributes)];
}

static void partner_command(const struct trial *t, const struct bench *b, struct partner *p)
{
    struct second_command k = random_command(t, b);
    uint8_t data[MOST_DATA];
    uint32_t n = k.command == 0 && !one_in(4) ? 3 : t->eager && k.command == 4 ? below(257) : random_length();
    bool text = k.command == 4 && is_video(t->code[0]);

    if (text && !t->eager && one_in(2))
        n = below(60);
    for (uint32_t i = 0; i < n; i++)
        data[i] = random_byte();
    if (text)
        random_text(data, n);
    if (k.command == 0 && n >= 3)
        open_data(data);
    if (k.command == 0 && !one_in(4))
        k.buffer_length = (uint16_t)(4 + below(3));
    if (second_write_command(&k, data, n, p->bytes, sizeof p->bytes) != 0)
        n = 0;
    p->length = 2 * (9 + n);
    p->place = 0;
}

static void partner_response(struct partner *p, uint32_t limit)
{
    uint8_t data[MOST_DATA];
    uint32_t n = one_in(12) ? limit + 1 + below(3) : one_in(3) ? 0 : below(limit + 1);

    if (n > 300)
        n = 300;
    for (uint32_t i = 0; i < n; i++)
        data[i] = random_byte();
    second_write_response(data, n, one_in(6) ? random_byte() : 0, p->bytes, sizeof p->bytes);
    p->length = 2 * (3 + n);
    p->place = 0;
}

/* Its sender's round; true while there is something to send. */
static bool partner_sends(struct partner *p, bool hsk_low)
{
    if (p->place >= p->length)
        return false;
    switch (p->stage) {
    case 0:
        p->hsk = true;
        p->nibble = (uint8_t)((unsigned)p->bytes[p->place / 2] >> 4 * (p->place % 2) & 15u);
        p->stage = 1;
        break;
    case 1:
        p->hsk = false;
        p->stage = 2;
        break;
    default:
        if (!hsk_low) {
            p->nibble = 15;
            p->stage = 0;
            p->place++;
        }
    }
    return true;
}

static bool partner_listens(struct partner *p, bool hsk_low, uint8_t nibble)
{
    if (p->ready && hsk_low) {
        p->ready = false;
        p->hsk = true;
        if (p->taken < 18)
            p->head[p->taken / 2] = (uint8_t)(p->taken % 2 == 0 ? nibble : (p->head[p->taken / 2] | nibble << 4));
        p->taken++;
        return true;
    }
    if (!one_in(9))
        p->hsk = false;
    p->ready = p->ready || (!hsk_low && !p->hsk);
    return false;
}

void partner_clear(struct partner *p)
{
    p->hsk = false;
    p->nibble = 15;
    p->stage = 0;
    p->ready = true;
    p->place = p->length = 0;
    p->taken = 0;
}

static void unit_step(const struct trial *t, const struct bench *b, struct partner *p, struct call *c)
{
    uint32_t pulls = hexbus_unit_pulls(&b->station[0].lib.unit);
    bool hsk_low = p->hsk || (pulls & 16u) != 0;

    c->kind = STEP;
    c->bav = p->frame || (pulls & 32u) != 0;
    c->hsk = hsk_low;
    c->nibble = (uint8_t)(p->nibble & pulls & 15u);
    c->busy = one_in(8);
    if (p->rest > 0) {
        p->rest--;
        return;
    }
    if (!p->frame) {
        partner_clear(p);
        p->frame = true;
        p->rest = 1 + below(2);
        partner_command(t, b, p);
        return;
    }
    if (!partner_sends(p, hsk_low))
        partner_listens(p, hsk_low, c->nibble);
    if ((p->place >= p->length && one_in(60)) || one_in(900)) {
        partner_clear(p);
        p->frame = false;
        p->rest = 1 + below(one_in(3) ? 60 : 3);
    }
}

static void controller_step(const struct trial *t, const struct bench *b, struct partner *p, struct call *c)
{
    uint32_t pulls = hexbus_controller_pulls(&b->lib.controller);
    bool hsk_low = p->hsk || (pulls & 16u) != 0;
    bool frame = (pulls & 32u) != 0;
    size_t whole = 2u * (9u + (size_t)p->head[7] + 256u * p->head[8]);

    c->kind = STEP;
    c->bav = frame || (!t->eager && one_in(3));
    c->hsk = hsk_low;
    c->nibble = (uint8_t)(p->nibble & pulls & 15u);
    c->busy = one_in(8);
    if (!frame) {
        partner_clear(p);
        p->rest = 0;
        return;
    }
    if (p->rest > 0) {
        p->rest--;
        return;
    }
    if (p->length > 0) {
        partner_sends(p, hsk_low);
        return;
    }
    partner_listens(p, hsk_low, c->nibble);
    if (p->taken >= 18 && p->taken >= whole && !hsk_low && !one_in(6)) {
        p->rest = 1 + (one_in(8) ? below(30) : 0);
        p->hsk = false;
        partner_response(p, p->head[5] + 256u * p->head[6]);
    }
}

static void disturb(struct call *c, bool wild)
{
    uint32_t rare = wild ? 60 : 3000;

    if (one_in(rare))
        c->bav = !c->bav;
    if (one_in(rare))
        c->hsk = !c->hsk;
    if (one_in(rare))
        c->nibble = (uint8_t)below(16);
    if (one_in(5 * rare))
        c->nibble = random_byte();
    c->short_room = one_in(5 * rare);
    c->output_lacks = (uint16_t)(one_in(5 * rare) ? 1 + (one_in(2) ? 0 : below(HEXBUS_SCREEN_BYTES)) : 0);
    c->wrong_data = one_in(5 * rare);
}

void random_call(const struct trial *t, const struct bench *b, struct partner *p, struct call *c)
{
    uint32_t pick = below(t->kind == A_BUS ? 60 : 80);

    memset(c, 0, sizeof *c);
    c->garble = one_in(4) ? ((uint64_t)random_word() << 32) + random_word() : 0;
    c->exact_room = one_in(2);
    c->at = (uint8_t)(t->units > 0 ? below(t->units) : 0);
    c->byte = random_byte();
    if (t->kind != ONE_CONTROLLER && t->units > 0 && (pick < 3 || (t->eager && pick >= 40 && pick < 44))) {
        c->kind = (uint8_t)(pick == 0 || pick >= 40 ? FEED : pick == 1 && !t->eager ? TAKE : one_in(3) ? RAISE : FEED);
        return;
    }
    if (t->kind != ONE_UNIT && pick >= 3 && pick < 6) {
        random_submit(t, b, c);
        return;
    }
    if (t->kind != ONE_UNIT && pick == 6) {
        c->kind = ACKNOWLEDGE;
        if (t->units > 0 && !one_in(6))
            c->byte = t->code[below(t->units)];
        return;
    }
    if (t->kind == ONE_UNIT) {
        unit_step(t, b, p, c);
        disturb(c, t->wild);
    } else if (t->kind == ONE_CONTROLLER) {
        controller_step(t, b, p, c);
        disturb(c, t->wild);
    } else {
        c->kind = STEP;
        c->busy = one_in(8);
        c->hosts = one_in(3) ? random_word() & random_word() & random_word() : 0;
        c->short_room = false;
    }
}

/* ---- What a trial starts from ------------------------------------------ */

static uint8_t new_code(const struct trial *t, unsigned n)
{
    for (;;) {
        uint8_t code = (uint8_t)(one_in(3) ? VIDEO - 1 + below(VIDEO_CODES + 2) : 1 + below(255));
        unsigned i = 0;

        while (i < n && t->code[i] != code)
            i++;
        if (i == n)
            return code;
    }
}

static uint16_t random_count(void)
{
    return (uint16_t)(one_in(3) ? 256 - below(5) : one_in(2) ? below(5) : below(257));
}

/* Between two sequences. The cursor is on no protected line. */
static void random_screen(struct second_screen *s)
{
    second_screen_start(s);
    s->first = (uint8_t)below(2);
    s->last = (uint8_t)(SECOND_ROWS - 1 - below(2));
    s->row = (uint8_t)(one_in(3) ? s->first : one_in(2) ? s->last : s->first + below(s->last - s->first + 1u));
    s->column = (uint8_t)(one_in(3) ? 0 : one_in(2) ? SECOND_COLUMNS - 1 : below(SECOND_COLUMNS));
    s->scrolls = one_in(2);
    s->wraps = one_in(2);
    s->asked = one_in(2);
}

/* A video unit is not open for input, has no queues and is never enabled. */
static void random_video(struct start *f)
{
    f->mode = (uint8_t)(one_in(3) ? SECOND_CLOSED : one_in(3) ? SECOND_OUTPUT : SECOND_UPDATE);
    f->accepted = (uint8_t)(f->mode == SECOND_CLOSED ? 0 : 1 + (one_in(2) ? below(3) : below(128)));
    random_screen(&f->screen);
}

static void random_start(struct start *f, uint8_t code)
{
    memset(f, 0, sizeof *f);
    if (is_video(code)) {
        random_video(f);
        return;
    }
    f->output_head = random_byte();
    f->output_count = random_count();
    f->mode = (uint8_t)(one_in(3) ? below(4) : SECOND_UPDATE);
    if (f->mode == SECOND_CLOSED)
        return;
    f->accepted = (uint8_t)(one_in(2) ? 128 : 1 + below(128));
    f->enabled = one_in(2);
    f->requesting = f->enabled && one_in(2);
    f->input_head = random_byte();
    f->input_count = f->mode == SECOND_OUTPUT ? 0 : random_count();
}

/* A ring of other codes, or of those that are on the bus. */
static void random_ring(struct trial *t)
{
    uint8_t first = (uint8_t)(1 + below(200)), apart = (uint8_t)(1 + below(3));

    t->entries = t->kind == A_BUS ? below(t->units + 1) : one_in(3) ? HEXBUS_RING_ENTRIES : below(HEXBUS_RING_ENTRIES + 1);
    for (unsigned i = 0; i < t->entries; i++) {
        t->entry[i].code = t->kind == A_BUS ? t->code[i] : (uint8_t)(first + i * apart);
        t->entry[i].marked = one_in(3);
        if (t->entry[i].code == 0)
            t->entries = i;
    }
}

void setup(struct trial *t, enum trial_kind kind)
{
    t->kind = kind;
    t->units = kind == ONE_UNIT ? 1 : kind == ONE_CONTROLLER ? 0 : one_in(5) ? below(MOST_UNITS + 1) : 1 + below(4);
    t->timeout = one_in(30) ? random_word() >> below(32) : one_in(4) ? 8 + below(300) : 8 + below(20);
    t->memory = ((uint64_t)random_word() << 32) + random_word();
    t->wild = one_in(4);
    t->eager = one_in(5);
    t->calls = 0;
    for (unsigned i = 0; i < t->units; i++) {
        t->code[i] = one_in(200) ? 0 : new_code(t, i);
        t->retry[i] = one_in(100) ? random_word() >> below(32) : 4 + below(30);
        random_start(&t->start[i], t->code[i]);
    }
    t->started = one_in(2);
    random_ring(t);
}
