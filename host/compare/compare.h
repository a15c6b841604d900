/* What the files of this directory have in common. */
#ifndef COMPARE_H
#define COMPARE_H

#include "../../include/hexbus.h"
#include "../second/second.h"
#include "layout.h"

#include <inttypes.h>
#include <stdio.h>
#include <stdlib.h>
#include <string.h>

/* ---- Random numbers ---------------------------------------------------- */

extern uint64_t random_state;

static inline uint32_t random_word(void)
{
    /* splitmix64 */
    uint64_t z = (random_state += UINT64_C(0x9E3779B97F4A7C15));

    z = (z ^ (z >> 30)) * UINT64_C(0xBF58476D1CE4E5B9);
    z = (z ^ (z >> 27)) * UINT64_C(0x94D049BB133111EB);
    return (uint32_t)((z ^ (z >> 31)) >> 32);
}

static inline uint32_t below(uint32_t n)
{
    return random_word() % n;
}

static inline bool one_in(uint32_t n)
{
    return below(n) == 0;
}

static inline uint8_t random_byte(void)
{
    return (uint8_t)random_word();
}

/* What is done wrong on purpose. */
enum broken_by { NOTHING, FORGETS_BUSY, LATE_TIME_OUT, FEEDS_OTHER_BYTE, CLEARS_UNUSED_BITS, WRITES_PAST_A_BUFFER, LOOKS_AT_UNUSED_BITS,
                 WRITES_A_TAG_AGAIN, FORGETS_A_SEQUENCE, KEEPS_AN_ADDRESS, WRITES_PAST_A_SCREEN, TAKES_0_FOR_80, ANSWERS_80, OTHER_BYTE_OF_A_PIECE };

#ifdef BROKEN
extern enum broken_by broken;
#else
static const enum broken_by broken = NOTHING;
#endif

/* ---- Calls of a trial -------------------------------------------------- */

enum { MOST_UNITS = 16, MOST_CALLS = 6000, MOST_DATA = 320, ROOM = 320, SCREEN_ROOM = HEXBUS_SCREEN_BYTES + 80, AROUND = 16, SHORT = 100 };

/* The video units' codes, and what a unit must be lent for what is written to it. */
enum { VIDEO = 30, VIDEO_CODES = 4 };

static inline bool is_video(uint8_t code)
{
    return code >= VIDEO && code < VIDEO + VIDEO_CODES;
}

static inline size_t output_needed(uint8_t code)
{
    return is_video(code) ? HEXBUS_SCREEN_BYTES : HEXBUS_QUEUE_BYTES;
}

enum call_kind { STEP, FEED, TAKE, RAISE, SUBMIT, ACKNOWLEDGE };

struct call {
    uint8_t kind;
    uint8_t at;                  /* the unit */
    bool bav, hsk;               /* a step's levels, low: true */
    uint8_t nibble;
    bool busy;
    uint32_t hosts;              /* a round's busy hosts, bit by bit */
    uint8_t byte;                /* fed, or the code acknowledged */
    bool wrong_data, short_room; /* a step that is lent something else */
    bool exact_room;             /* a command buffer of just 256 bytes, and for what is written just what is needed */
    uint16_t output_lacks;       /* so many bytes of that are not lent */
    uint64_t garble;             /* the seed of what stands in bits that no field uses; 0 where they stay */
    struct second_command command;
    uint32_t data_length, room;
};

enum trial_kind { ONE_UNIT, ONE_CONTROLLER, A_BUS };

/* Where a unit may stand between two frames: put into its words, so that full queues need not be filled first. */
struct start {
    uint8_t mode, accepted;
    bool enabled, requesting;
    uint8_t input_head, output_head;
    uint16_t input_count, output_count;
    struct second_screen screen;
};

struct trial {
    enum trial_kind kind;
    bool started;                /* from these states, and from this ring */
    struct start start[MOST_UNITS];
    unsigned entries;
    struct second_entry entry[HEXBUS_RING_ENTRIES];
    unsigned units;
    uint8_t code[MOST_UNITS];
    uint32_t retry[MOST_UNITS];
    uint32_t timeout;
    uint64_t memory;             /* the seed of the lent bytes */
    bool wild;                   /* levels that no bus shows come often */
    bool eager;                  /* queues and rings fill up */
    size_t calls;
    struct call call[MOST_CALLS];
};

/* Lent memory, with bytes around it that nobody may write. */
struct buffer {
    uint8_t before[AROUND], bytes[ROOM], after[AROUND];
};

struct queue {
    uint8_t before[AROUND], bytes[256], after[AROUND];
};

struct cells {
    uint8_t before[AROUND], bytes[SCREEN_ROOM], after[AROUND];
};

/* What a unit is lent beside its words; for what is written, it is lent more than most need. */
struct memory {
    struct buffer command;
    struct queue input;
    struct cells output;
};

/* A state of the library's, and words around it. */
struct unit_words {
    uint32_t before[4];
    hexbus_unit unit;
    uint32_t after[4];
};

struct controller_words {
    uint32_t before[4];
    hexbus_controller controller;
    uint32_t after[4];
};

/* Both sides of a trial. */
struct station {
    struct unit_words lib;
    struct second_unit two;
    struct memory lib_lent, two_lent;
};

struct bench {
    struct controller_words lib;
    struct second_controller two;
    struct buffer data, data_before;
    uint32_t data_length, room;  /* of the command that is submitted */
    struct buffer lib_response, two_response;
    struct station station[MOST_UNITS];
};

/* The other end of the lines, for a party that is alone: it sends a message, or listens, and now and then does something else. */
struct partner {
    bool hsk;                    /* what it pulls */
    uint8_t nibble;
    uint8_t stage;               /* of its sender */
    bool ready;
    uint8_t bytes[700];
    size_t length, place;        /* nibbles of what it sends, and how many are done */
    uint32_t rest;               /* rounds for which it does nothing */
    bool frame;                  /* BAV is low */
    size_t taken;                /* nibbles taken */
    uint8_t head[9];
};

/* What differs, of the last call. */
extern const char *difference;

static inline bool same(bool holds, const char *what)
{
    if (!holds)
        difference = what;
    return holds;
}

/* Whether every party could be made; one that was refused takes no calls. */
extern bool all_made;

/* ---- The words of a state (words.c) ------------------------------------ */

enum { FLAG = 1, BYTE = 0xFF, FIELD = 0xFFFF, ADDRESS = 0xFFFFFF, ENTRY = 0x1FF };
#define WHOLE UINT32_MAX

enum unit_phase { IDLE, SELECTING, TAKING, ANSWERED, RESPONDING, SITTING_OUT, PHASES };
enum controller_stage { FREE, RESTING, WAITING, SENDING, LISTENING, STAGES };
enum { LINE_TAGS = 3, REPLIES = 6, SEQUENCES = 5, KINDS = 3, RESPONSES = 3 };

_Static_assert((int)UNIT_WORDS == HEXBUS_UNIT_WORDS && (int)CONTROLLER_WORDS == HEXBUS_CONTROLLER_WORDS, "the header's words are the library's");

/* What a state makes of one of its words: the bits that it uses, and, where the word is a tag, of how many cases; 0 where it is none. */
struct use {
    uint32_t bits, cases;
};

/* Words with their kind, for what is the same for both. */
struct words {
    uint32_t *word;
    size_t n;
    void (*uses)(const uint32_t *, struct use *);
};

void fill(void *memory, size_t n, uint64_t *seed);
struct words words_of(struct unit_words *u);
struct words controller_words_of(struct controller_words *c);
void garble(struct words w, uint64_t seed);
uint32_t meaning(uint32_t word, struct use use);
bool kept(const uint32_t *before, struct words w, bool accepted);
bool clean(struct words w);
bool kept_around(const uint32_t *before, const uint32_t *after);

/* ---- One call on both sides (both.c) ----------------------------------- */

bool prepare(const struct trial *t, struct bench *b);
bool perform(const struct trial *t, struct bench *b, const struct call *c);
bool same_unit(const struct station *s);
hexbus_screen_looks screen_of(const struct second_unit *u);
bool same_controller(const struct bench *b);
hexbus_command in_words(const struct second_command *k, uint64_t seed);

/* ---- Random calls (draw.c) --------------------------------------------- */

struct second_command random_command(const struct trial *t, const struct bench *b);
uint32_t random_length(void);
void random_text(uint8_t *text, size_t n);
void fill_text(uint8_t *text, size_t n, uint64_t *seed);
void partner_clear(struct partner *p);
void random_call(const struct trial *t, const struct bench *b, struct partner *p, struct call *c);
void setup(struct trial *t, enum trial_kind kind);

/* ---- Trials (trial.c, message.c, garbage.c, screen.c) ------------------ */

/* The steps that were taken, or -1 for a difference; the others: 0, or 1 for a difference. */
long run_trial(enum trial_kind kind);
int making_trial(void);
int fails(const char *what);
int message_trial(void);
int garbage(long steps);

/* The texts that were written, or -1 for a difference. */
long screens(long steps);

#endif
