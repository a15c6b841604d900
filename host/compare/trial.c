/* Rows of random calls; one that shows a difference is cut down and printed. */
#include "compare.h"

/* The number of the first call that differs, or -1. */
static long replay(const struct trial *t)
{
    static struct bench b;

    if (!prepare(t, &b))
        return 0;
    for (size_t i = 0; i < t->calls; i++)
        if (!perform(t, &b, &t->call[i]))
            return (long)i;
    return -1;
}

static void print_call(const struct call *c)
{
    if (c->garble != 0)
        printf("garbled by %" PRIx64 ": ", c->garble);
    switch (c->kind) {
    case STEP:
        printf("step bav %d hsk %d nibble %u busy %d hosts %" PRIx32 "%s%s", c->bav, c->hsk, c->nibble, c->busy, c->hosts,
               c->wrong_data ? " other-data" : "", c->short_room ? " short-buffer" : "");
        printf(c->output_lacks != 0 ? " output-lacks %u\n" : "\n", c->output_lacks);
        break;
    case FEED:
        printf("feed %u %02X\n", c->at, c->byte);
        break;
    case TAKE:
        printf("take %u\n", c->at);
        break;
    case RAISE:
        printf("raise %u\n", c->at);
        break;
    case SUBMIT:
        printf("submit %02X %02X %02X %u buffer %u data %" PRIu32 " room %" PRIu32 "\n", c->command.device, c->command.command,
               c->command.logical_unit, c->command.record, c->command.buffer_length, c->data_length, c->room);
        break;
    default:
        printf("acknowledge %02X\n", c->byte);
    }
}

/* A trial and the calls that it has. */
static void copy(struct trial *to, const struct trial *from)
{
    memcpy(to, from, offsetof(struct trial, call) + from->calls * sizeof from->call[0]);
}

static struct trial less;

/* Whether a difference stays in `less`: then that is the trial. */
static bool still_differs(struct trial *t)
{
    long first = replay(&less);

    if (first < 0)
        return false;
    copy(t, &less);
    t->calls = t->calls == 0 ? 0 : (size_t)first + 1;
    return true;
}

static void leave_out(struct trial *t, size_t from, size_t part)
{
    memmove(&t->call[from], &t->call[from + part], (t->calls - from - part) * sizeof t->call[0]);
    t->calls -= part;
}

/* Without a row of so many calls, wherever it begins. */
static void without_rows(struct trial *t, size_t part)
{
    for (size_t from = 0; from + part <= t->calls && part < t->calls;) {
        copy(&less, t);
        leave_out(&less, from, part);
        if (!still_differs(t))
            from += t->calls < SHORT ? 1 : part;
    }
}

/* Without two calls that stand apart. */
static bool without_a_pair(struct trial *t)
{
    for (size_t i = 0; i + 1 < t->calls && t->calls < SHORT; i++)
        for (size_t j = i + 1; j < t->calls && t->calls > 2; j++) {
            copy(&less, t);
            leave_out(&less, j, 1);
            leave_out(&less, i, 1);
            if (still_differs(t))
                return true;
        }
    return false;
}

/* A step with the host free, the nibble released, or nothing garbled. */
static void plainer(struct trial *t, size_t i)
{
    copy(&less, t);
    less.call[i].garble = 0;
    if (t->call[i].garble != 0)
        still_differs(t);
    copy(&less, t);
    less.call[i].busy = false;
    less.call[i].hosts = 0;
    if (t->call[i].busy || t->call[i].hosts != 0)
        still_differs(t);
    copy(&less, t);
    less.call[i].nibble = 15;
    if (t->call[i].nibble != 15)
        still_differs(t);
}

/* Calls are left out, and what is left is made plainer, as long as a difference stays. */
static void shrink(struct trial *t, long first)
{
    size_t before;

    t->calls = t->calls == 0 ? 0 : (size_t)first + 1;
    copy(&less, t);
    less.started = false;
    still_differs(t);
    do {
        before = t->calls;
        for (size_t part = t->calls / 2; part > 0; part /= 2)
            without_rows(t, part);
        for (size_t part = t->calls < SHORT ? t->calls : 0; part > 0; part--)
            without_rows(t, part);
        for (size_t i = 0; i < t->calls; i++)
            plainer(t, i);
    } while (t->calls < before || without_a_pair(t));
    replay(t);
}

static int report(struct trial *t, long first)
{
    static const char *const kinds[] = { "one unit", "one controller", "a bus" };

    shrink(t, first);
    printf("DIFFERENCE in %s: %s\n", kinds[t->kind], difference);
    for (unsigned i = 0; i < t->units; i++) {
        const struct start *f = &t->start[i];

        printf("unit %u code %u retry %" PRIu32, i, t->code[i], t->retry[i]);
        if (t->started)
            printf(" mode %u accepted %u enabled %d requesting %d input %u from %u output %u from %u", f->mode, f->accepted, f->enabled,
                   f->requesting, f->input_count, f->input_head, f->output_count, f->output_head);
        if (t->started && is_video(t->code[i]))
            printf(" cursor %u %u scrolls %d wraps %d lines %u to %u asked %d", f->screen.row, f->screen.column, f->screen.scrolls, f->screen.wraps,
                   f->screen.first, f->screen.last, f->screen.asked);
        printf("\n");
    }
    if (t->kind != ONE_UNIT) {
        printf("controller timeout %" PRIu32, t->timeout);
        for (unsigned i = 0; t->started && i < t->entries; i++)
            printf("%s %u%s", i == 0 ? " ring" : "", t->entry[i].code, t->entry[i].marked ? "*" : "");
        printf("\n");
    }
    for (size_t i = 0; i < t->calls; i++)
        print_call(&t->call[i]);
    printf("%zu calls\n", t->calls);
    return 1;
}

/* Returns the steps that were taken, or -1 for a difference. */
long run_trial(enum trial_kind kind)
{
    static struct trial t;
    static struct bench b;
    struct partner p;
    long steps = 0;

    memset(&p, 0, sizeof p);
    partner_clear(&p);
    setup(&t, kind);
    if (!prepare(&t, &b)) {
        report(&t, 0);
        return -1;
    }
    while (all_made && t.calls < MOST_CALLS) {
        struct call *c = &t.call[t.calls++];

        random_call(&t, &b, &p, c);
        if (!perform(&t, &b, c)) {
            report(&t, (long)t.calls - 1);
            return -1;
        }
        if (c->kind == STEP)
            steps += kind == A_BUS ? (long)t.units + 1 : 1;
    }
    return steps;
}

/* Settings around their limits: a party is made or refused, and new. */
int making_trial(void)
{
    static const uint32_t limits[] = { 0, 3, 4, 7, 8, 65535, 65536, 65536 + 8, UINT32_MAX };
    static struct trial t;
    static struct bench b;

    setup(&t, A_BUS);
    t.units = 1;
    t.started = false;
    t.code[0] = one_in(4) ? 0 : random_byte();
    t.retry[0] = one_in(8) ? random_word() >> below(32) : limits[below(sizeof limits / sizeof limits[0])];
    t.timeout = one_in(8) ? random_word() >> below(32) : limits[below(sizeof limits / sizeof limits[0])];
    if (prepare(&t, &b) && (!all_made || (same_unit(&b.station[0]) && same_controller(&b))))
        return 0;
    return report(&t, 0);
}
