/* Messages: command and response, read and written (000, 3.4, 4.3, 4.4). */
#include "line.h"

#include <string.h>

enum {
    RESPONSE_HEADER = 2,
    RESPONSE_OVERHEAD = 3,       /* the data length and the status */
    DATA_MOST = 65535
};

void second_header(const struct second_command *fields, uint16_t data_length,
                   uint8_t header[SECOND_COMMAND_HEADER])
{
    header[0] = fields->device;
    header[1] = fields->command;
    header[2] = fields->logical_unit;
    header[3] = (uint8_t)fields->record;
    header[4] = (uint8_t)(fields->record >> 8);
    header[5] = (uint8_t)fields->buffer_length;
    header[6] = (uint8_t)(fields->buffer_length >> 8);
    header[7] = (uint8_t)data_length;
    header[8] = (uint8_t)(data_length >> 8);
}

int second_read_command(const uint8_t *slice, size_t length,
                        struct second_command *fields, struct second_part *data)
{
    if (length < SECOND_COMMAND_HEADER)
        return SECOND_TOO_SHORT;
    if (length - SECOND_COMMAND_HEADER != word_of(slice + 7))
        return SECOND_LENGTH_DIFFERS;
    fields->device = slice[0];
    fields->command = slice[1];
    fields->logical_unit = slice[2];
    fields->record = word_of(slice + 3);
    fields->buffer_length = word_of(slice + 5);
    data->offset = SECOND_COMMAND_HEADER;
    data->length = length - SECOND_COMMAND_HEADER;
    return SECOND_ACCEPTED;
}

int second_read_response(const uint8_t *slice, size_t length,
                         uint8_t *status, struct second_part *data)
{
    if (length < RESPONSE_OVERHEAD)
        return SECOND_TOO_SHORT;
    if (length - RESPONSE_OVERHEAD != word_of(slice))
        return SECOND_LENGTH_DIFFERS;
    *status = slice[length - 1];
    data->offset = RESPONSE_HEADER;
    data->length = length - RESPONSE_OVERHEAD;
    return SECOND_ACCEPTED;
}

/* Room for a message of so many data bytes; refusals 2 and 11. */
static int check_room(size_t data_length, size_t overhead, size_t buffer_length)
{
    if (data_length > DATA_MOST)
        return SECOND_DATA_TOO_LONG;
    if (buffer_length < data_length + overhead)
        return SECOND_BUFFER_TOO_SHORT;
    return SECOND_ACCEPTED;
}

/* Data first, so that it may stand anywhere in the buffer itself. */
static void write_data(uint8_t *tail, const uint8_t *data, size_t data_length)
{
    if (data_length != 0)
        memmove(tail, data, data_length);
}

int second_write_command(const struct second_command *fields,
                         const uint8_t *data, size_t data_length,
                         uint8_t *buffer, size_t buffer_length)
{
    int refusal = check_room(data_length, SECOND_COMMAND_HEADER, buffer_length);

    if (refusal != SECOND_ACCEPTED)
        return refusal;
    write_data(buffer + SECOND_COMMAND_HEADER, data, data_length);
    second_header(fields, (uint16_t)data_length, buffer);
    return SECOND_ACCEPTED;
}

int second_write_response(const uint8_t *data, size_t data_length, uint8_t status,
                          uint8_t *buffer, size_t buffer_length)
{
    int refusal = check_room(data_length, RESPONSE_OVERHEAD, buffer_length);

    if (refusal != SECOND_ACCEPTED)
        return refusal;
    write_data(buffer + RESPONSE_HEADER, data, data_length);
    buffer[0] = (uint8_t)data_length;
    buffer[1] = (uint8_t)(data_length >> 8);
    buffer[RESPONSE_HEADER + data_length] = status;
    return SECOND_ACCEPTED;
}

uint8_t second_command_nibble(const struct second_command *fields,
                              const uint8_t *data, size_t data_length, size_t i)
{
    size_t at = i / 2;

    if (at < SECOND_COMMAND_HEADER) {
        uint8_t header[SECOND_COMMAND_HEADER];

        second_header(fields, (uint16_t)data_length, header);
        return nibble_of(header[at], i);
    }
    at -= SECOND_COMMAND_HEADER;
    return at < data_length ? nibble_of(data[at], i) : SECOND_RELEASED;
}

uint8_t second_response_nibble(const uint8_t *data, size_t data_length,
                               uint8_t status, size_t i)
{
    size_t at = i / 2;

    if (at < RESPONSE_HEADER)
        return nibble_of((uint8_t)(data_length >> (8 * at)), i);
    at -= RESPONSE_HEADER;
    if (at < data_length)
        return nibble_of(data[at], i);
    return at == data_length ? nibble_of(status, i) : SECOND_RELEASED;
}
