/* Messages, random ones. */
#include "compare.h"

int fails(const char *what)
{
    printf("DIFFERENCE in messages: %s\n", what);
    return 1;
}

/* The words that a read is given: it fills them, and a refused one leaves them. */
static bool read_as(const hexbus_command *r, const hexbus_command *before, uint32_t refusal, const struct second_command *s, size_t n)
{
    if (refusal != 0)
        return memcmp(r, before, sizeof *r) == 0;
    return r->device == s->device && r->command == s->command && r->logical_unit == s->logical_unit && r->record_number == s->record
        && r->buffer_length == s->buffer_length && r->data_length == n;
}

static int command_trial(const uint8_t *data, uint32_t n, struct buffer *one, struct buffer *two, uint32_t room)
{
    struct second_command k = random_command(&(struct trial){ .units = 0 }, NULL), s = { 0 };
    hexbus_command h = in_words(&k, ((uint64_t)random_word() << 32) + random_word()), r = { 1, 2, 3, 4, 5, 6 }, r_before = r;
    struct second_part part = { 9, 0 };
    size_t i = below(2 * (9 + n) + 3), length = one_in(2) ? 9 + n : below(ROOM);
    uint32_t answer;

    answer = (uint32_t)second_write_command(&k, data, n, two->bytes, room);
    if (broken == OTHER_BYTE_OF_A_PIECE && answer == 0 && n > 100 && n < 200)
        two->bytes[9 + 100] ^= 1;
    if (hexbus_command_write(&h, data, n, one->bytes, room) != answer || memcmp(one, two, sizeof *one) != 0)
        return fails("writing a command");
    if (hexbus_command_nibble(&h, data, n, i) != second_command_nibble(&k, data, n, i))
        return fails("a command's nibble");
    length = length > ROOM ? ROOM : length;
    answer = hexbus_command_read(one->bytes, length, &r);
    if (answer != (uint32_t)second_read_command(one->bytes, length, &s, &part) || !read_as(&r, &r_before, answer, &s, part.length)
        || part.offset != HEXBUS_COMMAND_HEAD)
        return fails("reading a command");
    return 0;
}

static int response_trial(const uint8_t *data, uint32_t n, struct buffer *one, struct buffer *two, uint32_t room)
{
    hexbus_response r = { 1, 2 };
    struct second_part part = { 2, 0 };
    uint8_t status = random_byte(), s = 0;
    size_t i = below(2 * (3 + n) + 3), length = one_in(2) ? 3 + n : below(ROOM);
    uint32_t answer;

    if (hexbus_response_write(status, data, n, one->bytes, room) != (uint32_t)second_write_response(data, n, status, two->bytes, room)
        || memcmp(one, two, sizeof *one) != 0)
        return fails("writing a response");
    if (hexbus_response_nibble(status, data, n, i) != second_response_nibble(data, n, status, i))
        return fails("a response's nibble");
    length = length > ROOM ? ROOM : length;
    answer = hexbus_response_read(one->bytes, length, &r);
    if (answer != (uint32_t)second_read_response(one->bytes, length, &s, &part) || part.offset != HEXBUS_RESPONSE_HEAD
        || (answer == 0 ? r.status != s || r.data_length != part.length : r.status != 1 || r.data_length != 2))
        return fails("reading a response");
    return 0;
}

/*
 * Data of up to 320 bytes, every length as often as any other in half of the trials, from a place that is aligned or not; at times so much that
 * it may not be written. Past the room nothing changes either way.
 */
int message_trial(void)
{
    static uint8_t data[65536 + 32];
    struct buffer one, two;
    uint32_t n = one_in(50) ? 65530 + below(16) : one_in(2) ? below(MOST_DATA + 1) : random_length(), room = one_in(3) ? below(ROOM + 1) : ROOM;
    const uint8_t *from = data + below(16);
    uint64_t seed = ((uint64_t)random_word() << 32) + random_word();

    fill(data, MOST_DATA + 16, &seed);
    fill(&one, sizeof one, &seed);
    two = one;
    return command_trial(from, n, &one, &two, room) != 0 || response_trial(from, n, &one, &two, room) != 0;
}
