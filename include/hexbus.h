/* Hex-Bus for a gateway: serial and video units, the controller with its polling ring, messages and device classes.
 *
 * Link libgateway.a (`rt lib` in crates/gateway makes it, in out/). Nothing is allocated, there are no globals, and no call keeps a pointer.
 * State lives in memory of the caller: a hexbus_unit or a hexbus_controller is made by its make call and then changed by its
 * calls alone. Its words may be copied, stored and moved like any other bytes.
 *
 * Every call is total. Where a call returns hexbus_refusal, it returns 0 or the number of the paper's refusal, and a refused call
 * changes neither state nor lent memory. A number that stands in a word of 32 bits is taken modulo its width.
 *
 * No pointer may be null, also where its length is 0, and memory that a call writes may not overlap other memory of that call.
 */
#ifndef HEXBUS_H
#define HEXBUS_H

#include <stdbool.h>
#include <stddef.h>
#include <stdint.h>

#ifdef __cplusplus
extern "C" {
#endif

/* Sizes in words of 32 bits, in bytes, and in entries. */
#define HEXBUS_UNIT_WORDS 32
#define HEXBUS_CONTROLLER_WORDS 33
#define HEXBUS_QUEUE_BYTES 256
#define HEXBUS_SCREEN_ROWS 24
#define HEXBUS_SCREEN_COLUMNS 80
#define HEXBUS_SCREEN_BYTES 1920
#define HEXBUS_COMMAND_BUFFER_BYTES 256
#define HEXBUS_RING_ENTRIES 16
#define HEXBUS_COMMAND_HEAD 9
#define HEXBUS_RESPONSE_HEAD 2
#define HEXBUS_RESPONSE_LEAST 3
#define HEXBUS_DATA_MOST 65535

/* The settings of a unit and of a controller where nobody asks for others. */
#define HEXBUS_RETRY 20
#define HEXBUS_TIMEOUT 200

/* A unit, and a controller with its ring. Own codes 30 to 33 make a video unit, all others a serial unit. */
typedef struct {
    uint32_t word[HEXBUS_UNIT_WORDS];
} hexbus_unit;

typedef struct {
    uint32_t word[HEXBUS_CONTROLLER_WORDS];
} hexbus_controller;

/* What a call returns: 0, or the number of its refusal. */
typedef uint32_t hexbus_refusal;

enum {
    HEXBUS_DONE = 0,
    HEXBUS_RUNNING = 1,           /* a command is submitted while one is submitted or any frame or its two-round rest runs */
    HEXBUS_TOO_LONG = 2,          /* data to submit or write is over 65,535 */
    HEXBUS_POLL_COMMAND = 3,      /* command 0A is submitted */
    HEXBUS_FULL_RING = 4,         /* 08 is submitted for a code not in a full ring */
    HEXBUS_LEVEL = 5,             /* nibble level over 15 */
    HEXBUS_SETTING = 5,           /* time-out not 8 to 65,535 or retry not 4 to 65,535; own code 0 */
    HEXBUS_FULL_QUEUE = 6,        /* a byte is fed to a full input queue */
    HEXBUS_NOT_ENABLED = 7,       /* a request is raised while not enabled, as a video unit always is */
    HEXBUS_NOT_OPEN = 7,          /* a byte is fed while not open for input or update, or to a video unit */
    HEXBUS_NOT_MARKED = 8,        /* an acknowledgement for a code not in the ring or not marked */
    HEXBUS_SHORT_MESSAGE = 9,     /* a command under 9 bytes or a response under 3 is read */
    HEXBUS_OTHER_LENGTH = 10,     /* the length field disagrees with the slice; a step's data differs in length from the submitted */
    HEXBUS_SHORT_BUFFER = 11      /* a buffer is too short: message, response buffer under the buffer length field, command buffer under 256,
                                     output queue under 256, screen under 1,920 */
};

/* Lines that are pulled, in one number: the nibble, 15 where it is released; HEXBUS_HSK and HEXBUS_BAV where that line is pulled. */
typedef uint32_t hexbus_pulls;

enum {
    HEXBUS_NIBBLE = 15,
    HEXBUS_HSK = 16,
    HEXBUS_BAV = 32
};

/* A command's fields. Writing and submitting take the data's length from the data, and do not look at data_length. */
typedef struct {
    uint32_t device;
    uint32_t command;
    uint32_t logical_unit;
    uint32_t record_number;
    uint32_t buffer_length;
    uint32_t data_length;
} hexbus_command;

/* A response's fields. */
typedef struct {
    uint32_t status;
    uint32_t data_length;
} hexbus_response;

/* What a unit is open for. */
enum {
    HEXBUS_CLOSED = 0,
    HEXBUS_INPUT = 1,
    HEXBUS_OUTPUT = 2,
    HEXBUS_UPDATE = 3
};

/* What may be looked at in a unit: open and for what, the accepted length (0 while closed), queued bytes; enabled and requesting, 0 or 1.
 * A read brings at most the accepted length. It is what the open requests, 1 to 128; an open that requests 0 is accepted with 128. */
typedef struct {
    uint32_t opening;
    uint32_t accepted_length;
    uint32_t input_count;
    uint32_t output_count;
    uint32_t enabled;
    uint32_t requesting;
} hexbus_unit_looks;

/* What may be looked at in a screen: the cursor's row and column, then what is 0 or 1. `scrolls` is 0 in page mode. `top` and `bottom`:
 * that line is protected. `asked`: the next read answers the cursor's address. `reading`: a sequence is in progress. */
typedef struct {
    uint32_t row;
    uint32_t column;
    uint32_t scrolls;
    uint32_t wraps;
    uint32_t top;
    uint32_t bottom;
    uint32_t asked;
    uint32_t reading;
} hexbus_screen_looks;

/* What may be looked at in a controller: how many entries its ring has; whether no frame and no rest runs, and whether a command is
 * submitted whose frame has not begun, 0 or 1. */
typedef struct {
    uint32_t entries;
    uint32_t may_start;
    uint32_t submitted;
} hexbus_controller_looks;

/* What a controller's step tells the application. HEXBUS_ENDED: its command ended with the status `value`, and `count` data bytes stand at
 * the front of the response buffer. HEXBUS_HANDED: a request of the device code `value` is handed over. Fields that are not used are 0. */
typedef struct {
    uint32_t kind;
    uint32_t value;
    uint32_t count;
} hexbus_event;

enum {
    HEXBUS_NOTHING = 0,
    HEXBUS_ENDED = 1,
    HEXBUS_HANDED = 2
};

/* An entry of the ring in one number: its device code, and HEXBUS_MARK while its request is not acknowledged. */
enum {
    HEXBUS_CODE = 255,
    HEXBUS_MARK = 256
};

/* What hexbus_unit_take returns for an empty queue. */
enum {
    HEXBUS_NO_BYTE = 256
};

/* ---- a unit ---- */

/* Makes a new unit in the lent words, with its own device code and retry count: refuses 5 for own code 0 or a retry count not 4 to
 * 65,535. */
hexbus_refusal hexbus_unit_make(hexbus_unit *unit, uint8_t own, uint32_t retry);

/* Steps a unit through a round at these levels (true is low), with its host busy or not. It is lent the command buffer of the frame and,
 * to read, the 256 bytes of its input queue. `output` is memory for what is written to the unit, by its own code:
 *   30 to 33: the HEXBUS_SCREEN_BYTES cells of its screen, row by row. A blank cell is 0x20. An accepted open makes all cells blank, and so
 *     does FF on an open unit.
 *   all others: the HEXBUS_QUEUE_BYTES bytes of its output queue.
 * Bytes behind those are left alone. Refuses 5 for a nibble over 15, then 11 for a command buffer under 256 bytes or too short an output. */
hexbus_refusal hexbus_unit_step(hexbus_unit *unit, bool bav, bool hsk, uint8_t nibble, bool busy, uint8_t *command, size_t command_length,
                                const uint8_t input[HEXBUS_QUEUE_BYTES], uint8_t *output, size_t output_length);

/* The lines that a unit pulls after its last step. */
hexbus_pulls hexbus_unit_pulls(const hexbus_unit *unit);

/* Feeds a byte to a unit's input queue, whose 256 bytes are lent: refuses 7 while not open for input or update, then 6 for a full
 * queue. A video unit is never fed: it refuses 7. */
hexbus_refusal hexbus_unit_feed(hexbus_unit *unit, uint8_t input[HEXBUS_QUEUE_BYTES], uint8_t byte);

/* Takes the oldest byte of a unit's output queue, whose 256 bytes are lent: the byte, or HEXBUS_NO_BYTE where the queue is empty. A
 * video unit has no output queue: any 256 bytes may be lent, none is read, and it returns HEXBUS_NO_BYTE. */
uint32_t hexbus_unit_take(hexbus_unit *unit, const uint8_t output[HEXBUS_QUEUE_BYTES]);

/* Raises a unit's request for service, held until its answer 00 has gone out or service ends: refuses 7 while not enabled. */
hexbus_refusal hexbus_unit_raise(hexbus_unit *unit);

/* Writes what may be looked at in a unit into the lent six words. */
void hexbus_unit_look(const hexbus_unit *unit, hexbus_unit_looks *looks);

/* Writes what may be looked at in a unit's screen into the lent eight words. A serial unit's screen stays as a new one. */
void hexbus_screen_look(const hexbus_unit *unit, hexbus_screen_looks *looks);

/* ---- the controller ---- */

/* Makes a new controller in the lent words, with its time-out count and an empty ring: refuses 5 for a time-out not 8 to 65,535. */
hexbus_refusal hexbus_controller_make(hexbus_controller *controller, uint32_t timeout);

/* Steps a controller through a round at these levels (true is low), with its host busy or not, lent the submitted command's data and
 * response buffer of these lengths, looked at only in a submitted frame, and three words for the event: refuses 5 for a nibble over 15,
 * then in a submitted frame 10 for data of another length and 11 for a response buffer under the buffer length field. */
hexbus_refusal hexbus_controller_step(hexbus_controller *controller, bool bav, bool hsk, uint8_t nibble, bool busy, const uint8_t *data,
                                      size_t data_length, uint8_t *response, size_t response_length, hexbus_event *event);

/* The lines that a controller pulls after its last step. */
hexbus_pulls hexbus_controller_pulls(const hexbus_controller *controller);

/* Submits a command for the next frame, each step of which is lent data of this length and a response buffer that is long enough:
 * refuses 1 while one is submitted or a frame or its rest runs, then 2 for data over 65,535, 3 for command 0A, 4 for 08 and a code not
 * in a full ring, 11 for a response buffer under the buffer length field. */
hexbus_refusal hexbus_controller_submit(hexbus_controller *controller, const hexbus_command *command, const uint8_t *data,
                                        size_t data_length, const uint8_t *response, size_t response_length);

/* Acknowledges the request of a device code that was handed over: refuses 8 for a code not in the ring or not marked. */
hexbus_refusal hexbus_controller_acknowledge(hexbus_controller *controller, uint8_t code);

/* Writes what may be looked at in a controller into the lent three words. */
void hexbus_controller_look(const hexbus_controller *controller, hexbus_controller_looks *looks);

/* Entry i of a controller's ring, the front being entry 0: its code, and HEXBUS_MARK while it is marked; 0 past the last. */
uint32_t hexbus_controller_entry(const hexbus_controller *controller, size_t i);

/* ---- messages and classes ---- */

/* Reads the one command that a message of this length must hold into the lent six words; its data starts at byte
 * HEXBUS_COMMAND_HEAD of the message: refuses 9 under 9 bytes, then 10 where the length field disagrees. */
hexbus_refusal hexbus_command_read(const uint8_t *message, size_t length, hexbus_command *command);

/* Writes a command with its data to the front of the lent buffer of `room` bytes, HEXBUS_COMMAND_HEAD + data_length bytes in all, and no
 * byte past it: refuses 2 for data over 65,535, then 11 for no room. */
hexbus_refusal hexbus_command_write(const hexbus_command *command, const uint8_t *data, size_t data_length, uint8_t *out, size_t room);

/* Nibble i of a command with its data of this length; 15 past its end. */
uint8_t hexbus_command_nibble(const hexbus_command *command, const uint8_t *data, size_t data_length, size_t i);

/* Reads the one response that a message of this length must hold into the lent two words; its data starts at byte
 * HEXBUS_RESPONSE_HEAD of the message: refuses 9 under 3 bytes, then 10 where the length field disagrees. */
hexbus_refusal hexbus_response_read(const uint8_t *message, size_t length, hexbus_response *response);

/* Writes a response with its data to the front of the lent buffer of `room` bytes, HEXBUS_RESPONSE_LEAST + data_length bytes in all, and no
 * byte past it: refuses 2 for data over 65,535, then 11 for no room. */
hexbus_refusal hexbus_response_write(uint8_t status, const uint8_t *data, size_t data_length, uint8_t *out, size_t room);

/* Nibble i of a response with its data of this length; 15 past its end. */
uint8_t hexbus_response_nibble(uint8_t status, const uint8_t *data, size_t data_length, size_t i);

/* The class of a device code, 1 to 21; 0 for a code that is not assigned. */
uint8_t hexbus_class(uint8_t code);

#ifdef __cplusplus
}
#endif

#endif
