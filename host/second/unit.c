/* The serial peripheral and the video unit: phases, queues and answers. */
#include "line.h"

#include <string.h>

enum {
    OPEN = 0x00, CLOSE = 0x01, READ = 0x03, WRITE = 0x04, ENABLE = 0x08,
    DISABLE = 0x09, POLL = 0x0A, NULL_OPERATION = 0xFE, BUS_RESET = 0xFF
};

enum {
    DONE = 0x00, OPTION_ERROR = 0x01, TOO_FEW_BYTES = 0x02, NOT_OPEN = 0x04,
    ALREADY_OPEN = 0x05, DATA_TOO_LONG = 0x08, NOT_REQUESTING = 0x0A,
    BUFFER_SIZE_ERROR = 0x0C, UNSUPPORTED = 0x0D, NOT_FOR_WRITE = 0x0E,
    NOT_FOR_READ = 0x0F, RELATIVE = 0x11, APPEND = 0x13, INPUT_MODE = 0x15
};

/* Kinds of the fixed answer. */
enum {
    ANSWER_NONE,                 /* draws no response */
    ANSWER_STATUS,
    ANSWER_OPENED,               /* accepted length, record 0 */
    ANSWER_READ,                 /* the bytes leave the queue when all is done */
    ANSWER_ADDRESS,              /* row, column; pending until all is done */
    ANSWER_POLLED                /* the request is cleared when all is done */
};

enum {
    RETRY_LEAST = 4,
    RETRY_MOST = 65535,
    DEFAULT_LENGTH = 128,        /* document 02, P5; 000 and document 01 had 80 */
    LONGEST_LENGTH = 128,
    OPEN_BYTES = 3,
    OPEN_ANSWER = 4,
    ADDRESS_BYTES = 2,
    VIDEO_FIRST = 30,
    VIDEO_LAST = 33
};

static bool is_video(const struct second_unit *unit)
{
    return VIDEO_FIRST <= unit->own_code && unit->own_code <= VIDEO_LAST;
}

int second_unit_make(struct second_unit *unit, uint8_t own_code, uint32_t retry)
{
    if (own_code == 0 || retry < RETRY_LEAST || retry > RETRY_MOST)
        return SECOND_OUT_OF_RANGE;
    memset(unit, 0, sizeof *unit);
    unit->line.pulls.nibble = SECOND_RELEASED;
    unit->own_code = own_code;
    unit->retry = (uint16_t)retry;
    second_screen_start(&unit->screen);
    return SECOND_ACCEPTED;
}

/* ---- Queues ------------------------------------------------------------ */

static void queue_put(struct second_queue *queue, uint8_t *bytes, uint8_t byte)
{
    bytes[(uint8_t)(queue->head + queue->count)] = byte;
    queue->count++;
}

/* The oldest bytes leave; their room is used again. */
static void queue_drop(struct second_queue *queue, uint16_t count)
{
    queue->head = (uint8_t)(queue->head + count);
    queue->count = (uint16_t)(queue->count - count);
}

static void queue_put_all(struct second_queue *queue, uint8_t *bytes,
                          const uint8_t *data, uint16_t length)
{
    size_t at = (uint8_t)(queue->head + queue->count);
    size_t first = SECOND_QUEUE_SIZE - at;

    if (first > length)
        first = length;
    memcpy(bytes + at, data, first);
    memcpy(bytes, data + first, length - first);
    queue->count = (uint16_t)(queue->count + length);
}

/* ---- The host's calls -------------------------------------------------- */

int second_unit_feed(struct second_unit *unit, uint8_t input[SECOND_QUEUE_SIZE],
                     uint8_t byte)
{
    if ((unit->mode & SECOND_INPUT) == 0 || is_video(unit))
        return SECOND_NOT_ENABLED;
    if (unit->input.count == SECOND_QUEUE_SIZE)
        return SECOND_QUEUE_FULL;
    queue_put(&unit->input, input, byte);
    return SECOND_ACCEPTED;
}

bool second_unit_take(struct second_unit *unit,
                      const uint8_t output[SECOND_QUEUE_SIZE], uint8_t *byte)
{
    if (unit->output.count == 0)
        return false;
    *byte = output[unit->output.head];
    queue_drop(&unit->output, 1);
    return true;
}

int second_unit_raise(struct second_unit *unit)
{
    if (!unit->enabled)
        return SECOND_NOT_ENABLED;
    unit->requesting = true;
    return SECOND_ACCEPTED;
}

struct second_unit_view second_unit_look(const struct second_unit *unit)
{
    return (struct second_unit_view){
        .phase = (enum second_phase)unit->phase,
        .mode = (enum second_mode)unit->mode,
        .accepted = unit->accepted,
        .enabled = unit->enabled,
        .requesting = unit->requesting,
        .input_count = unit->input.count,
        .output_count = unit->output.count,
    };
}

/* ---- Answers, in the paper's order ------------------------------------- */

static void end_service(struct second_unit *unit)
{
    unit->enabled = false;
    unit->requesting = false;
}

/* Closes, ends service and request, empties the input queue; output stays. */
static void close_unit(struct second_unit *unit)
{
    unit->mode = SECOND_CLOSED;
    unit->accepted = 0;
    end_service(unit);
    unit->input = (struct second_queue){ 0, 0 };
}

/* Check 5. A screen is cleared. */
static uint8_t open_unit(struct second_unit *unit, const uint8_t *data,
                         uint16_t length, uint16_t buffer_length, uint8_t *output)
{
    uint16_t requested;
    uint8_t mode;

    if (unit->mode != SECOND_CLOSED)
        return ALREADY_OPEN;
    if (length < OPEN_BYTES)
        return TOO_FEW_BYTES;
    mode = data[2] >> 6;
    if (mode == 0)
        return APPEND;
    if (mode == SECOND_INPUT && is_video(unit))
        return INPUT_MODE;
    if ((data[2] & 0x20) != 0)
        return RELATIVE;
    requested = word_of(data);
    if (requested > LONGEST_LENGTH || buffer_length < OPEN_ANSWER)
        return BUFFER_SIZE_ERROR;
    if (length > OPEN_BYTES)
        return OPTION_ERROR;
    unit->mode = mode;
    unit->accepted = requested == 0 ? DEFAULT_LENGTH : (uint8_t)requested;
    unit->answer = ANSWER_OPENED;
    unit->answer_length = OPEN_ANSWER;
    if (is_video(unit))
        second_screen_clear(&unit->screen, output);
    return DONE;
}

/*
 * Check 8: the least of queued, buffer length and accepted length. Of a video
 * unit only a pending address is read.
 */
static uint8_t read_unit(struct second_unit *unit, uint16_t buffer_length)
{
    uint16_t count = unit->input.count;

    if (unit->mode == SECOND_OUTPUT)
        return NOT_FOR_READ;
    if (!is_video(unit)) {
        unit->answer = ANSWER_READ;
    } else if (unit->screen.asked) {
        unit->answer = ANSWER_ADDRESS;
        count = ADDRESS_BYTES;
    }
    if (count > unit->accepted)
        count = unit->accepted;
    if (count > buffer_length)
        count = buffer_length;
    unit->answer_length = (uint8_t)count;
    return DONE;
}

/* Check 9. */
static uint8_t write_unit(struct second_unit *unit, const uint8_t *data,
                          uint16_t length, uint8_t *output)
{
    if (is_video(unit)) {
        second_screen_write(&unit->screen, output, data, length);
        return DONE;
    }
    if (unit->mode == SECOND_INPUT)
        return NOT_FOR_WRITE;
    if (length > SECOND_QUEUE_SIZE - unit->output.count)
        return DATA_TOO_LONG;
    queue_put_all(&unit->output, output, data, length);
    return DONE;
}

/* Check 11. */
static uint8_t poll_unit(struct second_unit *unit)
{
    if (!unit->enabled || !unit->requesting)
        return NOT_REQUESTING;
    unit->answer = ANSWER_POLLED;
    return DONE;
}

static bool is_supported(const struct second_unit *unit, uint8_t command)
{
    switch (command) {
    case OPEN: case CLOSE: case READ: case WRITE: case POLL:
        return true;
    case ENABLE: case DISABLE:
        return !is_video(unit);
    default:
        return false;
    }
}

/* Checks 3 to 11: the status. */
static uint8_t answer_command(struct second_unit *unit, const uint8_t *data,
                              uint8_t *output)
{
    uint8_t command = unit->header[1];
    uint16_t buffer_length = word_of(unit->header + 5);
    uint16_t length = word_of(unit->header + 7);

    if (!is_supported(unit, command))
        return UNSUPPORTED;
    if (length > SECOND_COMMAND_BUFFER)
        return DATA_TOO_LONG;
    if (command == OPEN)
        return open_unit(unit, data, length, buffer_length, output);
    if (command == POLL)
        return poll_unit(unit);
    if (unit->mode == SECOND_CLOSED)
        return NOT_OPEN;
    switch (command) {
    case CLOSE:
        close_unit(unit);
        return DONE;
    case READ:
        return read_unit(unit, buffer_length);
    case WRITE:
        return write_unit(unit, data, length, output);
    case ENABLE:
        unit->enabled = true;
        return DONE;
    default:
        end_service(unit);
        return DONE;
    }
}

/* FF. A screen is cleared where the unit is open. */
static void reset_unit(struct second_unit *unit, uint8_t *output)
{
    if (is_video(unit) && unit->mode != SECOND_CLOSED)
        second_screen_clear(&unit->screen, output);
    close_unit(unit);
    unit->output = (struct second_queue){ 0, 0 };
}

/*
 * The last command nibble is taken: effects happen and the answer is fixed.
 * Device code 0: only FE and FF act. Neither of them draws a response.
 */
static void act(struct second_unit *unit, const uint8_t *data, uint8_t *output)
{
    uint8_t command = unit->header[1];

    unit->answer = ANSWER_NONE;
    unit->answer_length = 0;
    if (command == BUS_RESET) {
        reset_unit(unit, output);
    } else if (command != NULL_OPERATION && unit->header[0] != 0) {
        unit->answer = ANSWER_STATUS;
        unit->answer_status = answer_command(unit, data, output);
    }
}

/* ---- Phases ------------------------------------------------------------ */

/*
 * Takes a nibble. Data byte i goes to place i when its second nibble is taken;
 * of more than 256 announced bytes none is stored.
 */
static void take_nibble(struct second_unit *unit, uint8_t nibble,
                        uint8_t *data, uint8_t *output)
{
    uint32_t at = unit->place++ / 2;
    uint8_t byte;

    if ((unit->place & 1u) != 0) {
        unit->low = nibble;
        return;
    }
    byte = byte_of(unit->low, nibble);
    if (at < SECOND_COMMAND_HEADER) {
        unit->header[at] = byte;
        if (at == SECOND_COMMAND_HEADER - 1)
            unit->total = 2u * (SECOND_COMMAND_HEADER + (uint32_t)word_of(unit->header + 7));
    } else if (unit->total <= 2u * (SECOND_COMMAND_HEADER + SECOND_COMMAND_BUFFER)) {
        data[at - SECOND_COMMAND_HEADER] = byte;
    }
    if (unit->place == unit->total)
        act(unit, data, output);
}

/* Two nibbles taken: own code or code 0 goes on, any other sits out. */
static void select_unit(struct second_unit *unit)
{
    uint8_t code = unit->header[0];

    unit->phase = code == unit->own_code || code == 0 ? SECOND_RECEIVING
                                                      : SECOND_SITTING_OUT;
}

static void sit_out(struct second_unit *unit)
{
    unit->phase = SECOND_SITTING_OUT;
    line_release(&unit->line);
}

/* HSK was seen high: a response begins exactly two rounds later. */
static void end_receiving(struct second_unit *unit)
{
    if (unit->answer == ANSWER_NONE) {
        sit_out(unit);
        return;
    }
    unit->phase = SECOND_RESPONDING;
    unit->line.stage = SEND_REST;
    unit->place = 0;
    unit->total = 2u * (unit->answer_length + 3u);
}

static uint8_t response_byte(const struct second_unit *unit, uint32_t at,
                             const uint8_t *input)
{
    if (at == 0)
        return unit->answer_length;
    if (at == 1)
        return 0;
    at -= 2;
    if (at == unit->answer_length)
        return unit->answer_status;
    if (unit->answer == ANSWER_READ)
        return input[(uint8_t)(unit->input.head + at)];
    if (unit->answer == ANSWER_ADDRESS)
        return at == 0 ? unit->screen.row : unit->screen.column;
    return at == 0 ? unit->accepted : 0;
}

/* The last response nibble is done: what waited for it happens. */
static void end_responding(struct second_unit *unit)
{
    if (unit->answer == ANSWER_READ)
        queue_drop(&unit->input, unit->answer_length);
    else if (unit->answer == ANSWER_ADDRESS)
        unit->screen.asked = false;
    else if (unit->answer == ANSWER_POLLED)
        unit->requesting = false;
    sit_out(unit);
}

static void respond(struct second_unit *unit, bool hsk_low, bool busy,
                    const uint8_t *input)
{
    if (unit->line.stage == SEND_REST)
        line_let_go(&unit->line, busy);
    switch (line_send(&unit->line, hsk_low)) {
    case SENT_WANTS_NIBBLE:
        unit->line.pulls.nibble =
            nibble_of(response_byte(unit, unit->place / 2, input), unit->place);
        break;
    case SENT_DONE:
        if (++unit->place == unit->total)
            end_responding(unit);
        break;
    default:
        break;
    }
}

static void begin_selecting(struct second_unit *unit)
{
    unit->phase = SECOND_SELECTING;
    unit->line.ready = true;
    unit->place = 0;
    unit->total = 0;
}

/*
 * BAV seen high: lines released, message dropped, idle. A held request pulls
 * BAV once BAV has been seen high for the retry count of rounds in a row.
 */
static void see_bav_high(struct second_unit *unit, bool was_pulling)
{
    unit->phase = SECOND_IDLE;
    line_release(&unit->line);
    if (unit->high_rounds < unit->retry)
        unit->high_rounds++;
    if (!was_pulling && unit->enabled && unit->requesting
        && unit->high_rounds == unit->retry)
        unit->line.pulls.bav = true;
}

/* What a unit writes to: the cells of its screen, or its output queue. */
static size_t output_needed(const struct second_unit *unit)
{
    return is_video(unit) ? SECOND_SCREEN_SIZE : SECOND_QUEUE_SIZE;
}

int second_unit_step(struct second_unit *unit, struct second_levels seen, bool busy,
                     uint8_t *command, size_t command_length,
                     uint8_t input[SECOND_QUEUE_SIZE],
                     uint8_t *output, size_t output_length)
{
    bool was_pulling = unit->line.pulls.bav;

    if (seen.nibble > 15)
        return SECOND_OUT_OF_RANGE;
    if (command_length < SECOND_COMMAND_BUFFER || output_length < output_needed(unit))
        return SECOND_BUFFER_TOO_SHORT;
    /* A request's pull is released at the first HSK low of a later round. */
    unit->line.pulls.bav = was_pulling && !seen.hsk_low;
    if (!seen.bav_low) {
        see_bav_high(unit, was_pulling);
        return SECOND_ACCEPTED;
    }
    unit->high_rounds = 0;
    switch (unit->phase) {
    case SECOND_IDLE:
        if (seen.hsk_low)
            unit->phase = SECOND_SITTING_OUT;
        else
            begin_selecting(unit);
        break;
    case SECOND_SELECTING:
        if (line_listen(&unit->line, seen.hsk_low, busy)) {
            take_nibble(unit, seen.nibble, command, output);
            if (unit->place == 2)
                select_unit(unit);
        }
        break;
    case SECOND_RECEIVING:
        if (line_listen(&unit->line, seen.hsk_low, busy))
            take_nibble(unit, seen.nibble, command, output);
        else if (unit->line.ready && unit->place == unit->total)
            end_receiving(unit);
        break;
    case SECOND_RESPONDING:
        respond(unit, seen.hsk_low, busy, input);
        break;
    default:
        line_release(&unit->line);
        break;
    }
    return SECOND_ACCEPTED;
}
