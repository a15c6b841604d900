/*
 * A second implementation, in plain C11, of document 01: messages, device
 * classes, the serial peripheral, the controller with its ring, and a bus in
 * rounds; and of document 02's video unit. Written from the papers alone; see
 * NOTES.md for open readings.
 *
 * Every function is total, allocates nothing and keeps no state of its own.
 * A refused call changes neither state nor lent memory. Functions that can
 * refuse return a refusal number, 0 when the call was accepted.
 */
#ifndef SECOND_H
#define SECOND_H

#include <stdbool.h>
#include <stddef.h>
#include <stdint.h>

/* Refusal numbers of document 01. */
enum second_refusal {
    SECOND_ACCEPTED = 0,
    SECOND_RUNNING = 1,          /* one is submitted, or a frame or its rest runs */
    SECOND_DATA_TOO_LONG = 2,    /* data over 65,535 */
    SECOND_POLL_SUBMITTED = 3,   /* command 0A */
    SECOND_RING_FULL = 4,        /* 08 for a code not in a full ring */
    SECOND_OUT_OF_RANGE = 5,     /* nibble level, time-out, retry, own code */
    SECOND_QUEUE_FULL = 6,
    SECOND_NOT_ENABLED = 7,      /* raise while not enabled, feed while not open */
    SECOND_NOT_MARKED = 8,
    SECOND_TOO_SHORT = 9,        /* slice under 9 or 3 bytes */
    SECOND_LENGTH_DIFFERS = 10,
    SECOND_BUFFER_TOO_SHORT = 11
};

enum {
    SECOND_COMMAND_HEADER = 9,
    SECOND_QUEUE_SIZE = 256,
    SECOND_COMMAND_BUFFER = 256,
    SECOND_ROWS = 24,
    SECOND_COLUMNS = 80,
    SECOND_SCREEN_SIZE = SECOND_ROWS * SECOND_COLUMNS,
    SECOND_RING_SIZE = 16,
    SECOND_RELEASED = 15,        /* a released nibble */
    SECOND_DEFAULT_TIME_OUT = 200,
    SECOND_DEFAULT_RETRY = 20
};

/* ---- Messages ---------------------------------------------------------- */

struct second_command {
    uint8_t device;
    uint8_t command;
    uint8_t logical_unit;
    uint16_t record;
    uint16_t buffer_length;
};

/* The data field, as part of the slice that was read. */
struct second_part {
    size_t offset;
    size_t length;
};

int second_read_command(const uint8_t *slice, size_t length,
                        struct second_command *fields, struct second_part *data);
int second_read_response(const uint8_t *slice, size_t length,
                         uint8_t *status, struct second_part *data);
int second_write_command(const struct second_command *fields,
                         const uint8_t *data, size_t data_length,
                         uint8_t *buffer, size_t buffer_length);
int second_write_response(const uint8_t *data, size_t data_length, uint8_t status,
                          uint8_t *buffer, size_t buffer_length);

/* Nibble i of the message, low nibble of each byte first; 15 past its end. */
uint8_t second_command_nibble(const struct second_command *fields,
                              const uint8_t *data, size_t data_length, size_t i);
uint8_t second_response_nibble(const uint8_t *data, size_t data_length,
                               uint8_t status, size_t i);

/* ---- Device codes ------------------------------------------------------ */

uint8_t second_class(uint8_t device_code);

/* ---- Lines ------------------------------------------------------------- */

/* What a party sees: the levels left by all pulls of the round before. */
struct second_levels {
    bool bav_low;
    bool hsk_low;
    uint8_t nibble;
};

/* What a party pulls; nibble 15 is a released nibble. */
struct second_pulls {
    bool bav;
    bool hsk;
    uint8_t nibble;
};

/* One end of the handshake: its pulls, and where sender or listener stands. */
struct second_line {
    struct second_pulls pulls;
    bool ready;                  /* the listener takes at HSK low */
    uint8_t stage;               /* the sender's */
};

/* ---- The screen of a video unit ---------------------------------------- */

/* What is beside the cells, which are lent row by row. */
struct second_screen {
    uint8_t row, column;         /* the cursor */
    uint8_t first, last;         /* unprotected lines */
    bool scrolls;                /* scroll mode, else page mode */
    bool wraps;
    bool asked;                  /* the next read answers the cursor's address */
    uint8_t sequence;            /* what the next byte is, screen.c */
    uint8_t argument;            /* the row to set, or how many bytes are still skipped */
};

struct second_screen_view {
    uint8_t row, column;
    bool scrolls, wraps;
    bool top, bottom;            /* protected */
    bool asked;
    bool reading;                /* inside a sequence */
};

/* As at power up; clearing also blanks the cells. */
void second_screen_start(struct second_screen *screen);
void second_screen_clear(struct second_screen *screen, uint8_t cells[SECOND_SCREEN_SIZE]);
void second_screen_byte(struct second_screen *screen, uint8_t cells[SECOND_SCREEN_SIZE],
                        uint8_t byte);
void second_screen_write(struct second_screen *screen, uint8_t cells[SECOND_SCREEN_SIZE],
                         const uint8_t *text, size_t length);
struct second_screen_view second_screen_look(const struct second_screen *screen);

/* ---- The serial peripheral and the video unit -------------------------- */

enum second_phase {
    SECOND_IDLE,
    SECOND_SELECTING,
    SECOND_RECEIVING,
    SECOND_RESPONDING,
    SECOND_SITTING_OUT
};

/* Attribute bits 7-6; 0 (append) is never opened and stands for closed. */
enum second_mode {
    SECOND_CLOSED,
    SECOND_INPUT,
    SECOND_OUTPUT,
    SECOND_UPDATE
};

/* A queue in 256 lent bytes: a byte lands at (head + count) % 256. */
struct second_queue {
    uint8_t head;
    uint16_t count;
};

struct second_unit {
    struct second_line line;
    uint8_t phase;               /* enum second_phase */
    uint8_t own_code;
    uint8_t mode;                /* enum second_mode */
    uint8_t accepted;            /* accepted length while open, else 0 */
    bool enabled;
    bool requesting;
    uint16_t retry;
    uint16_t high_rounds;        /* BAV seen high in a row, up to retry */
    struct second_queue input;
    struct second_queue output;
    uint32_t place;              /* nibbles taken, or done, of this message */
    uint32_t total;              /* its nibbles; 0 until a command has announced them */
    uint8_t low;                 /* first nibble of the byte being taken */
    uint8_t header[SECOND_COMMAND_HEADER];
    uint8_t answer;              /* kind of the fixed answer, unit.c */
    uint8_t answer_length;
    uint8_t answer_status;
    struct second_screen screen; /* of codes 30 to 33, which have no queues */
};

struct second_unit_view {
    enum second_phase phase;
    enum second_mode mode;
    uint8_t accepted;
    bool enabled;
    bool requesting;
    uint16_t input_count;
    uint16_t output_count;
};

int second_unit_make(struct second_unit *unit, uint8_t own_code, uint32_t retry);
/* The output is the 256 bytes of the queue, or the 1,920 cells of a screen. */
int second_unit_step(struct second_unit *unit, struct second_levels seen, bool busy,
                     uint8_t *command, size_t command_length,
                     uint8_t input[SECOND_QUEUE_SIZE],
                     uint8_t *output, size_t output_length);
int second_unit_feed(struct second_unit *unit, uint8_t input[SECOND_QUEUE_SIZE],
                     uint8_t byte);
/* False is "nothing". */
bool second_unit_take(struct second_unit *unit,
                      const uint8_t output[SECOND_QUEUE_SIZE], uint8_t *byte);
int second_unit_raise(struct second_unit *unit);
struct second_unit_view second_unit_look(const struct second_unit *unit);

static inline struct second_pulls second_unit_pulls(const struct second_unit *unit)
{
    return unit->line.pulls;
}

/* ---- The controller ---------------------------------------------------- */

struct second_entry {
    uint8_t code;
    bool marked;
};

struct second_controller {
    struct second_line line;
    uint8_t state;               /* controller.c */
    uint8_t rest;                /* rounds of rest still to run */
    bool submitted;
    bool marked;                 /* the service frame's entry was marked */
    uint16_t time_out;
    uint16_t high_rounds;        /* HSK seen high in a row while listening */
    uint8_t header[SECOND_COMMAND_HEADER];
    uint16_t data_length;
    uint16_t buffer_length;
    uint32_t place;              /* nibbles done, or taken, of this message */
    uint16_t announced;          /* the response's data length */
    uint16_t received;           /* whole data bytes received */
    uint8_t low;                 /* first nibble of the byte being taken */
    uint8_t status;
    uint8_t ring_count;
    struct second_entry ring[SECOND_RING_SIZE];
};

enum second_what {
    SECOND_NOTHING,
    SECOND_ENDED,                /* the submitted operation: status and count */
    SECOND_HANDED_OVER           /* a code */
};

struct second_event {
    uint8_t refusal;             /* if not 0, the rest is 0 */
    uint8_t what;                /* enum second_what */
    uint8_t value;               /* status, or code */
    uint16_t count;              /* data bytes in the response buffer */
};

struct second_controller_view {
    bool may_start;              /* no frame and no rest runs */
    bool submitted;
    uint8_t ring_count;
    struct second_entry ring[SECOND_RING_SIZE];
};

int second_controller_make(struct second_controller *controller, uint32_t time_out);
struct second_event second_controller_step(struct second_controller *controller,
                                           struct second_levels seen, bool busy,
                                           const uint8_t *data, size_t data_length,
                                           uint8_t *response, size_t response_length);
int second_submit(struct second_controller *controller,
                  const struct second_command *fields, size_t data_length,
                  size_t response_length);
int second_acknowledge(struct second_controller *controller, uint8_t code);
struct second_controller_view second_controller_look(
    const struct second_controller *controller);

static inline struct second_pulls second_controller_pulls(
    const struct second_controller *controller)
{
    return controller->line.pulls;
}

/* ---- The bus ----------------------------------------------------------- */

/* A unit with all the memory it is lent. */
struct second_station {
    struct second_unit unit;
    bool busy;
    uint8_t command[SECOND_COMMAND_BUFFER];
    uint8_t input[SECOND_QUEUE_SIZE];
    uint8_t output[SECOND_SCREEN_SIZE];
};

struct second_levels second_bus_levels(const struct second_controller *controller,
                                       const struct second_station *stations,
                                       size_t count);
/* One round; the answer is the controller's. */
struct second_event second_bus_round(struct second_controller *controller, bool busy,
                                     const uint8_t *data, size_t data_length,
                                     uint8_t *response, size_t response_length,
                                     struct second_station *stations, size_t count);

#endif
