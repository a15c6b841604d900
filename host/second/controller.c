/* The controller and its ring. */
#include "line.h"

#include <string.h>

enum {
    CLOSE = 0x01, ENABLE = 0x08, DISABLE = 0x09, POLL = 0x0A, NULL_OPERATION = 0xFE
};

/* Free also rests; while a response comes in it listens, then waits for HSK. */
enum {
    FREE,
    SENDING,
    LISTENING,
    COMPLETE,                    /* the response's last nibble is taken */
    TOO_LONG                     /* a length that is too large is taken */
};

enum {
    STATUS_DONE = 0x00,
    STATUS_NO_RESPONSE = 0xFF,
    TIME_OUT_LEAST = 8,
    TIME_OUT_MOST = 65535,
    DATA_MOST = 65535,
    REST_ROUNDS = 2
};

int second_controller_make(struct second_controller *controller, uint32_t time_out)
{
    if (time_out < TIME_OUT_LEAST || time_out > TIME_OUT_MOST)
        return SECOND_OUT_OF_RANGE;
    memset(controller, 0, sizeof *controller);
    controller->line.pulls.nibble = SECOND_RELEASED;
    controller->time_out = (uint16_t)time_out;
    return SECOND_ACCEPTED;
}

static bool may_start(const struct second_controller *c)
{
    return c->state == FREE && c->rest == 0;
}

/* ---- The ring ---------------------------------------------------------- */

/* Place of a code in the ring, or the ring's count. */
static unsigned ring_find(const struct second_controller *c, uint8_t code)
{
    unsigned i = 0;

    while (i < c->ring_count && c->ring[i].code != code)
        i++;
    return i;
}

/* A unit not yet in the ring joins at the back, unmarked; code 0 never. */
static void ring_join(struct second_controller *c, uint8_t code)
{
    if (code == 0 || c->ring_count == SECOND_RING_SIZE
        || ring_find(c, code) < c->ring_count)
        return;
    c->ring[c->ring_count++] = (struct second_entry){ .code = code };
}

static void ring_leave(struct second_controller *c, uint8_t code)
{
    unsigned at = ring_find(c, code);

    if (at == c->ring_count)
        return;
    c->ring_count--;
    memmove(&c->ring[at], &c->ring[at + 1], (c->ring_count - at) * sizeof c->ring[0]);
}

/* The front entry moves to the back. */
static struct second_entry ring_turn(struct second_controller *c)
{
    struct second_entry front = c->ring[0];
    unsigned last = c->ring_count - 1u;

    memmove(&c->ring[0], &c->ring[1], last * sizeof c->ring[0]);
    c->ring[last] = front;
    return front;
}

int second_acknowledge(struct second_controller *controller, uint8_t code)
{
    unsigned at = ring_find(controller, code);

    if (at == controller->ring_count || !controller->ring[at].marked)
        return SECOND_NOT_MARKED;
    controller->ring[at].marked = false;
    return SECOND_ACCEPTED;
}

struct second_controller_view second_controller_look(
    const struct second_controller *controller)
{
    struct second_controller_view view = {
        .may_start = may_start(controller),
        .submitted = controller->submitted && may_start(controller),
        .ring_count = controller->ring_count,
    };

    memcpy(view.ring, controller->ring, controller->ring_count * sizeof view.ring[0]);
    return view;
}

/* ---- Frames ------------------------------------------------------------ */

int second_submit(struct second_controller *controller,
                  const struct second_command *fields, size_t data_length,
                  size_t response_length)
{
    if (controller->submitted || !may_start(controller))
        return SECOND_RUNNING;
    if (data_length > DATA_MOST)
        return SECOND_DATA_TOO_LONG;
    if (fields->command == POLL)
        return SECOND_POLL_SUBMITTED;
    if (fields->command == ENABLE && controller->ring_count == SECOND_RING_SIZE
        && ring_find(controller, fields->device) == SECOND_RING_SIZE)
        return SECOND_RING_FULL;
    if (response_length < fields->buffer_length)
        return SECOND_BUFFER_TOO_SHORT;
    controller->submitted = true;
    controller->data_length = (uint16_t)data_length;
    controller->buffer_length = fields->buffer_length;
    second_header(fields, (uint16_t)data_length, controller->header);
    return SECOND_ACCEPTED;
}

/* Pulls BAV; the first nibble is placed two rounds later. */
static void begin_frame(struct second_controller *c)
{
    c->line.pulls.bav = true;
    c->line.stage = SEND_REST;
    c->state = SENDING;
    c->place = 0;
}

/*
 * A service frame. Unmarked: the entry is polled, all other fields zero.
 * Marked: a null message to code 0 is sent.
 */
static void begin_service_frame(struct second_controller *c)
{
    struct second_entry entry = ring_turn(c);

    memset(c->header, 0, sizeof c->header);
    c->header[0] = entry.marked ? 0 : entry.code;
    c->header[1] = entry.marked ? NULL_OPERATION : POLL;
    c->marked = entry.marked;
    c->data_length = 0;
    c->buffer_length = 0;
    begin_frame(c);
}

static struct second_event nothing(void)
{
    return (struct second_event){ .what = SECOND_NOTHING };
}

static struct second_event end_submitted(struct second_controller *c, uint8_t status)
{
    uint8_t command = c->header[1];

    c->submitted = false;
    if (status == STATUS_DONE) {
        if (command == ENABLE)
            ring_join(c, c->header[0]);
        else if (command == DISABLE || command == CLOSE)
            ring_leave(c, c->header[0]);
    }
    return (struct second_event){ .what = SECOND_ENDED, .value = status,
                                  .count = c->received };
}

/* A poll that ends with 00 marks the entry, which stands at the back. */
static struct second_event end_service_frame(struct second_controller *c, uint8_t status)
{
    struct second_entry *entry = &c->ring[c->ring_count - 1u];

    if (c->marked || status != STATUS_DONE)
        return nothing();
    entry->marked = true;
    return (struct second_event){ .what = SECOND_HANDED_OVER, .value = entry->code };
}

/* The frame ends: all is released, and nothing starts for two rounds. */
static struct second_event end_frame(struct second_controller *c, uint8_t status)
{
    line_release(&c->line);
    c->line.pulls.bav = false;
    c->state = FREE;
    c->rest = REST_ROUNDS;
    return c->submitted ? end_submitted(c, status) : end_service_frame(c, status);
}

/* The last command nibble is done; HSK was seen high. */
static void begin_listening(struct second_controller *c)
{
    c->state = LISTENING;
    c->line.ready = true;
    c->high_rounds = 0;
    c->place = 0;
    c->received = 0;
}

static void send(struct second_controller *c, bool hsk_low, const uint8_t *data)
{
    uint32_t at = c->place / 2;

    switch (line_send(&c->line, hsk_low)) {
    case SENT_WANTS_NIBBLE:
        c->line.pulls.nibble =
            nibble_of(at < SECOND_COMMAND_HEADER ? c->header[at]
                                                 : data[at - SECOND_COMMAND_HEADER],
                      c->place);
        break;
    case SENT_DONE:
        if (++c->place == 2u * (SECOND_COMMAND_HEADER + (uint32_t)c->data_length))
            begin_listening(c);
        break;
    default:
        break;
    }
}

/* A whole byte of the response: length, data, status. */
static void take_byte(struct second_controller *c, uint32_t at, uint8_t byte,
                      uint8_t *response)
{
    if (at == 0) {
        c->announced = byte;
    } else if (at == 1) {
        c->announced = (uint16_t)(c->announced | (unsigned)byte << 8);
        if (c->announced > c->buffer_length)
            c->state = TOO_LONG;
    } else if (c->received < c->announced) {
        response[c->received++] = byte;
    } else {
        c->status = byte;
        c->state = COMPLETE;
    }
}

static void take_nibble(struct second_controller *c, uint8_t nibble, uint8_t *response)
{
    uint32_t at = c->place++ / 2;

    if ((c->place & 1u) != 0)
        c->low = nibble;
    else
        take_byte(c, at, byte_of(c->low, nibble), response);
}

/*
 * Listening. The frame ends when HSK is seen high after the response's last
 * nibble or after a length that is too large, or at the time-out count of
 * rounds in a row with HSK seen high. HSK is looked at for the end only once
 * its own pull is gone, for the time-out always. Without a complete response:
 * FF.
 */
static struct second_event listen(struct second_controller *c,
                                  struct second_levels seen, bool busy,
                                  uint8_t *response)
{
    if (line_listen(&c->line, seen.hsk_low, busy))
        take_nibble(c, seen.nibble, response);
    if (seen.hsk_low) {
        c->high_rounds = 0;
        return nothing();
    }
    if (++c->high_rounds < c->time_out && (c->state == LISTENING || !c->line.ready))
        return nothing();
    return end_frame(c, c->state == COMPLETE ? c->status : STATUS_NO_RESPONSE);
}

/* No frame runs: it rests, begins the submitted frame, or serves a request. */
static void stand_free(struct second_controller *c, bool bav_low)
{
    if (c->rest != 0)
        c->rest--;
    else if (c->submitted)
        begin_frame(c);
    else if (bav_low && c->ring_count != 0)
        begin_service_frame(c);
}

static int check_step(const struct second_controller *c, uint8_t nibble,
                      size_t data_length, size_t response_length)
{
    if (nibble > 15)
        return SECOND_OUT_OF_RANGE;
    if (!c->submitted)
        return SECOND_ACCEPTED;
    if (data_length != c->data_length)
        return SECOND_LENGTH_DIFFERS;
    if (response_length < c->buffer_length)
        return SECOND_BUFFER_TOO_SHORT;
    return SECOND_ACCEPTED;
}

struct second_event second_controller_step(struct second_controller *controller,
                                           struct second_levels seen, bool busy,
                                           const uint8_t *data, size_t data_length,
                                           uint8_t *response, size_t response_length)
{
    int refusal = check_step(controller, seen.nibble, data_length, response_length);

    if (refusal != SECOND_ACCEPTED)
        return (struct second_event){ .refusal = (uint8_t)refusal };
    switch (controller->state) {
    case FREE:
        stand_free(controller, seen.bav_low);
        return nothing();
    case SENDING:
        send(controller, seen.hsk_low, data);
        return nothing();
    default:
        return listen(controller, seen, busy, response);
    }
}
