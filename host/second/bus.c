/* A bus: one controller and n units, in rounds. */
#include "second.h"

static void add_pulls(struct second_levels *levels, struct second_pulls pulls)
{
    levels->bav_low = levels->bav_low || pulls.bav;
    levels->hsk_low = levels->hsk_low || pulls.hsk;
    levels->nibble &= pulls.nibble;
}

/* A line is low if any party pulls it; a released nibble reads 15. */
struct second_levels second_bus_levels(const struct second_controller *controller,
                                       const struct second_station *stations,
                                       size_t count)
{
    struct second_levels levels = { .nibble = SECOND_RELEASED };

    add_pulls(&levels, second_controller_pulls(controller));
    for (size_t i = 0; i < count; i++)
        add_pulls(&levels, second_unit_pulls(&stations[i].unit));
    return levels;
}

/* Each party steps once and sees the levels left by the round before. */
struct second_event second_bus_round(struct second_controller *controller, bool busy,
                                     const uint8_t *data, size_t data_length,
                                     uint8_t *response, size_t response_length,
                                     struct second_station *stations, size_t count)
{
    struct second_levels seen = second_bus_levels(controller, stations, count);

    for (size_t i = 0; i < count; i++) {
        struct second_station *s = &stations[i];

        (void)second_unit_step(&s->unit, seen, s->busy, s->command, sizeof s->command,
                               s->input, s->output, sizeof s->output);
    }
    return second_controller_step(controller, seen, busy, data, data_length,
                                  response, response_length);
}
