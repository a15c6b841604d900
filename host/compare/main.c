/*
 * The library against the second implementation, on random input: single units and single controllers at free levels,
 * whole buses, messages and classes, and texts on screens, whole and cut. After every call the answers, the pulls, every
 * lent byte, some bytes around it and what can be looked at are compared. A difference is replayed with calls left out,
 * as long as it stays, and what remains is printed.
 *
 * Before some calls the words of a state are garbled: the bits that no field uses, and tags that no save makes in place
 * of the first case's. The call must do the same, and leave these bits as they are. Then words that are random
 * altogether are stepped beside a copy in which such bits differ.
 *
 *   compare [STEPS [SEED]]
 *
 * Compiled with -DBROKEN it takes a third number and does something wrong on purpose, which must be found (broken_by).
 */
#include "compare.h"

#include <time.h>

uint64_t random_state;
const char *difference;
#ifdef BROKEN
enum broken_by broken;
#endif

int main(int argc, char **argv)
{
    static const enum trial_kind turns[] = { ONE_UNIT, ONE_CONTROLLER, A_BUS, ONE_UNIT, ONE_CONTROLLER, ONE_UNIT };
    long wanted = argc > 1 ? atol(argv[1]) : 10000000, done[3] = { 0, 0, 0 }, texts;
    uint64_t seed = argc > 2 ? strtoull(argv[2], NULL, 0) : (uint64_t)time(NULL);

#ifdef BROKEN
    broken = argc > 3 ? (enum broken_by)atoi(argv[3]) : NOTHING;
#endif
    printf("seed %" PRIu64 "\n", seed);
    fflush(stdout);
    random_state = seed;
    for (unsigned code = 0; code < 256; code++)
        if (hexbus_class((uint8_t)code) != second_class((uint8_t)code))
            return fails("the class of a code");
    for (long i = 0; i < wanted / 1000; i++)
        if (making_trial() != 0)
            return 1;
    for (long i = 0; i < wanted / 20; i++)
        if (message_trial() != 0)
            return 1;
    if (garbage(wanted / 10) != 0)
        return 1;
    texts = screens(4 * wanted);
    if (texts < 0)
        return 1;
    difference = NULL;
    while (done[0] + done[1] + done[2] < wanted)
        for (size_t i = 0; i < sizeof turns / sizeof turns[0]; i++) {
            long steps = run_trial(turns[i]);

            if (steps < 0)
                return 1;
            done[turns[i]] += steps;
        }
    printf("%ld messages, %ld calls on words that no save makes, %ld texts on screens, %ld steps of units, %ld of controllers, %ld on buses: "
           "no difference\n", wanted / 20, wanted / 10, texts, done[0], done[1], done[2]);
    return 0;
}
