/* The handshake of both ends. Private to the .c files of this directory. */
#ifndef SECOND_LINE_H
#define SECOND_LINE_H

#include "second.h"

enum send_stage {
    SEND_REST,                   /* one round passes, then the nibble is placed */
    SEND_PLACE,
    SEND_RELEASE,
    SEND_AWAIT
};

enum send_event {
    SENT_NOTHING,
    SENT_WANTS_NIBBLE,           /* the caller places it in this round */
    SENT_DONE                    /* HSK was seen high: the nibble counts as sent */
};

static inline void line_release(struct second_line *line)
{
    line->pulls.hsk = false;
    line->pulls.nibble = SECOND_RELEASED;
}

/*
 * Sender: in one round it places a nibble and pulls HSK. In the next it
 * releases HSK and keeps the data. When it then sees HSK high it releases the
 * data. The next is placed one round later.
 */
static inline enum send_event line_send(struct second_line *line, bool hsk_low)
{
    switch (line->stage) {
    case SEND_REST:
        line->stage = SEND_PLACE;
        return SENT_NOTHING;
    case SEND_PLACE:
        line->pulls.hsk = true;
        line->stage = SEND_RELEASE;
        return SENT_WANTS_NIBBLE;
    case SEND_RELEASE:
        line->pulls.hsk = false;
        line->stage = SEND_AWAIT;
        return SENT_NOTHING;
    default:
        if (hsk_low)
            return SENT_NOTHING;
        line->pulls.nibble = SECOND_RELEASED;
        line->stage = SEND_PLACE;
        return SENT_DONE;
    }
}

/* Once its host isn't busy, a listener releases HSK until the next nibble. */
static inline void line_let_go(struct second_line *line, bool busy)
{
    line->pulls.hsk = line->pulls.hsk && busy;
}

/*
 * Listener: ready and seeing HSK low, it takes the nibble (true) and pulls HSK
 * in that round. It is ready again after seeing HSK high, looked at only once
 * its own pull is gone.
 */
static inline bool line_listen(struct second_line *line, bool hsk_low, bool busy)
{
    bool pulled = line->pulls.hsk;

    if (line->ready && hsk_low) {
        line->ready = false;
        line->pulls.hsk = true;
        return true;
    }
    line_let_go(line, busy);
    line->ready = line->ready || (!pulled && !hsk_low);
    return false;
}

/* Half of a byte: low nibble first. */
static inline uint8_t nibble_of(uint8_t byte, size_t i)
{
    return (i & 1u) != 0 ? (uint8_t)(byte >> 4) : (uint8_t)(byte & 15u);
}

static inline uint8_t byte_of(uint8_t low, uint8_t high)
{
    return (uint8_t)(low | (unsigned)high << 4);
}

static inline uint16_t word_of(const uint8_t *bytes)
{
    return (uint16_t)(bytes[0] | (unsigned)bytes[1] << 8);
}

/* The nine bytes before a command's data; message.c. */
void second_header(const struct second_command *fields, uint16_t data_length,
                   uint8_t header[SECOND_COMMAND_HEADER]);

#endif
