/* The words that a state of the library stands in: which bits a field uses, garbling the others, and what a call may have changed. */
#include "compare.h"

void fill(void *memory, size_t n, uint64_t *seed)
{
    uint8_t *bytes = memory;
    uint64_t keep = random_state;

    random_state = *seed;
    for (size_t i = 0; i < n; i++)
        bytes[i] = random_byte();
    *seed = random_state;
    random_state = keep;
}

/* The bits of the word that goes with a tag. */
static uint32_t of_sender(uint32_t tag)
{
    return tag == 1 || tag == 2 ? BYTE : 0;
}

static uint32_t of_reply(uint32_t tag)
{
    return tag == 1 || tag == 2 ? BYTE : tag == 3 ? FIELD : tag == 5 ? ADDRESS : 0;
}

/* A set cursor's row, or how many bytes are still skipped. */
static uint32_t of_sequence(uint32_t tag)
{
    return tag == 3 || tag == 4 ? BYTE : 0;
}

static struct use tag(uint32_t cases)
{
    return (struct use){ WHOLE, cases };
}

static struct use number(uint32_t bits)
{
    return (struct use){ bits, 0 };
}

/* What a unit uses of its words (crates/unitwords/specs/Unit.antt). */
static void unit_uses(const uint32_t *w, struct use *uses)
{
    uint32_t phase = w[UNIT_PHASE];

    memset(uses, 0, HEXBUS_UNIT_WORDS * sizeof *uses);
    uses[UNIT_OWN] = number(BYTE);
    uses[UNIT_RETRY] = uses[UNIT_QUIET] = number(FIELD);
    uses[UNIT_ASKING] = uses[UNIT_ENABLED] = uses[UNIT_REQUESTING] = number(FLAG);
    uses[UNIT_OPENING] = number(3);
    uses[UNIT_ACCEPTED] = number((w[UNIT_OPENING] & 3u) != 0 ? BYTE : 0);
    uses[UNIT_INPUT_HEAD] = uses[UNIT_OUTPUT_HEAD] = number(BYTE);
    uses[UNIT_INPUT_COUNT] = uses[UNIT_OUTPUT_COUNT] = number(FIELD);
    uses[UNIT_ROW] = uses[UNIT_COLUMN] = number(BYTE);
    uses[UNIT_SCROLLS] = uses[UNIT_WRAPS] = uses[UNIT_TOP] = uses[UNIT_BOTTOM] = uses[UNIT_ASKED] = number(FLAG);
    uses[UNIT_SEQUENCE] = tag(SEQUENCES);
    uses[UNIT_ARGUMENT] = number(of_sequence(w[UNIT_SEQUENCE]));
    uses[UNIT_PHASE] = tag(PHASES);
    if (phase >= SELECTING && phase <= ANSWERED)
        uses[UNIT_EAR] = tag(LINE_TAGS);
    if (phase == SELECTING || phase == TAKING) {
        uses[UNIT_HALF] = number(FLAG);
        uses[UNIT_LOW] = number(BYTE);
    }
    if (phase == TAKING) {
        uses[UNIT_PLACE] = number(WHOLE);
        uses[UNIT_DEVICE] = uses[UNIT_COMMAND] = uses[UNIT_LOGICAL_UNIT] = number(BYTE);
        uses[UNIT_RECORD_NUMBER] = uses[UNIT_BUFFER_LENGTH] = uses[UNIT_DATA_LENGTH] = number(FIELD);
    }
    if (phase == ANSWERED || phase == RESPONDING) {
        uses[UNIT_REPLY] = tag(REPLIES);
        uses[UNIT_VALUE] = number(of_reply(w[UNIT_REPLY]));
    }
    if (phase == RESPONDING) {
        uses[UNIT_SENDER] = tag(LINE_TAGS);
        uses[UNIT_WAIT] = number(FLAG);
        uses[UNIT_NIBBLE] = number(of_sender(w[UNIT_SENDER]));
        uses[UNIT_NEXT] = number(WHOLE);
    }
    if (phase == SITTING_OUT)
        uses[UNIT_LAST] = number(FLAG);
}

/* The same of a controller (crates/controllerwords/specs/Controller.antt). */
static void controller_uses(const uint32_t *w, struct use *uses)
{
    uint32_t stage = w[CONTROLLER_STAGE];

    memset(uses, 0, HEXBUS_CONTROLLER_WORDS * sizeof *uses);
    uses[CONTROLLER_TIMEOUT] = number(FIELD);
    uses[CONTROLLER_STAGE] = tag(STAGES);
    uses[CONTROLLER_ENTRIES] = number(BYTE);
    for (int i = 0; i < HEXBUS_RING_ENTRIES; i++)
        uses[CONTROLLER_ENTRY + i] = number(ENTRY);
    if (stage >= WAITING && stage <= LISTENING) {
        uses[CONTROLLER_KIND] = tag(KINDS);
        uses[CONTROLLER_DEVICE] = uses[CONTROLLER_COMMAND] = uses[CONTROLLER_LOGICAL_UNIT] = number(BYTE);
        uses[CONTROLLER_RECORD_NUMBER] = uses[CONTROLLER_BUFFER_LENGTH] = uses[CONTROLLER_DATA_LENGTH] = number(FIELD);
    }
    if (stage == RESTING)
        uses[CONTROLLER_FIRST] = number(FLAG);
    if (stage == SENDING) {
        uses[CONTROLLER_WAIT] = number(FLAG);
        uses[CONTROLLER_SENDER] = tag(LINE_TAGS);
        uses[CONTROLLER_NIBBLE] = number(of_sender(w[CONTROLLER_SENDER]));
        uses[CONTROLLER_NEXT] = number(WHOLE);
    }
    if (stage != LISTENING)
        return;
    uses[CONTROLLER_EAR] = tag(LINE_TAGS);
    uses[CONTROLLER_QUIET] = number(FIELD);
    uses[CONTROLLER_RESPONSE] = tag(RESPONSES);
    if (w[CONTROLLER_RESPONSE] == 2)
        return;
    uses[CONTROLLER_LENGTH] = number(FIELD);
    if (w[CONTROLLER_RESPONSE] == 1) {
        uses[CONTROLLER_STATUS] = number(BYTE);
    } else {
        uses[CONTROLLER_HALF] = number(FLAG);
        uses[CONTROLLER_LOW] = number(BYTE);
        uses[CONTROLLER_PLACE] = number(WHOLE);
    }
}

/* What a word means: a tag that no save makes means the first case. */
uint32_t meaning(uint32_t word, struct use use)
{
    return use.cases == 0 ? word & use.bits : word < use.cases ? word : 0;
}

struct words words_of(struct unit_words *u)
{
    return (struct words){ u->unit.word, HEXBUS_UNIT_WORDS, unit_uses };
}

struct words controller_words_of(struct controller_words *c)
{
    return (struct words){ c->controller.word, HEXBUS_CONTROLLER_WORDS, controller_uses };
}

/* Bits that no field uses, and tags of the first case as words that no save makes. */
void garble(struct words w, uint64_t seed)
{
    struct use uses[HEXBUS_CONTROLLER_WORDS];
    uint64_t keep = random_state;

    if (seed == 0)
        return;
    random_state = seed;
    w.uses(w.word, uses);
    for (size_t i = 0; i < w.n; i++) {
        if (uses[i].cases == 0)
            w.word[i] = (w.word[i] & uses[i].bits) | (random_word() & ~uses[i].bits);
        else if (w.word[i] == 0 && one_in(2))
            w.word[i] = uses[i].cases + below(UINT32_MAX - uses[i].cases);
    }
    random_state = keep;
}

/* What a call may have done to words: nothing where it was refused, else nothing to bits that no field uses now, nor to a word that meant
 * before what it means now. */
bool kept(const uint32_t *before, struct words w, bool accepted)
{
    struct use uses[HEXBUS_CONTROLLER_WORDS];

    if (!accepted)
        return same(memcmp(before, w.word, w.n * sizeof *before) == 0, "a refused call changes words");
    w.uses(w.word, uses);
    for (size_t i = 0; i < w.n; i++) {
        if (!same(((before[i] ^ w.word[i]) & ~uses[i].bits) == 0, "bits that no field uses"))
            return false;
        if (!same(before[i] == w.word[i] || meaning(before[i], uses[i]) != meaning(w.word[i], uses[i]), "a word whose meaning stays the same"))
            return false;
    }
    return true;
}

/* New words: whole, whatever stood there. */
bool clean(struct words w)
{
    struct use uses[HEXBUS_CONTROLLER_WORDS];

    w.uses(w.word, uses);
    for (size_t i = 0; i < w.n; i++)
        if (!same((w.word[i] & ~uses[i].bits) == 0, "bits that no field uses, of a new state"))
            return false;
    return true;
}

bool kept_around(const uint32_t *before, const uint32_t *after)
{
    static const uint32_t none[4];

    return same(memcmp(before, none, sizeof none) == 0 && memcmp(after, none, sizeof none) == 0, "words around a state");
}
