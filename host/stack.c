/*
 * How deep each exported call goes on the stack, over the random calls of host/compare: linked with --wrap, so that every call comes through
 * here. Before it the stack below is painted, after it the lowest byte that is no longer paint is looked for. What is printed counts from
 * the caller's stack pointer, with the return address and the arguments that stand on the stack. At the end: a call, its bytes; for
 * comparison, those of the C implementation.
 */
#include "../include/hexbus.h"
#include "second/second.h"

#include <stdio.h>
#include <stdlib.h>

enum { PAINTED = 256 };          /* words of 8 bytes: more than any call uses, or it says so */
static const uint64_t paint_word = UINT64_C(0xA5A5C3C35A5A3C3C);

static void stop(const char *why)
{
    fprintf(stderr, "stack: %s\n", why);
    exit(2);
}

/*
 * Paints the stack below its caller, or looks how far down the paint is still there. It is one function, so that its room stands in the
 * same place both times (gcc's -maccumulate-outgoing-args keeps the caller's stack pointer where it is): what it left behind is what it
 * finds, but for what was called between.
 */
__attribute__((noinline)) static size_t below_caller(bool paints)
{
    uint64_t room[PAINTED];
    static const char *painted_below;
    const char *top = (const char *)__builtin_frame_address(0) + 2 * sizeof(void *);
    size_t i = 0;

    __asm__ volatile("" : "=m"(room));
    if (paints) {
        painted_below = top;
        while (i < PAINTED)
            room[i++] = paint_word;
        __asm__ volatile("" : : "m"(room));
        return 0;
    }
    if (top != painted_below)
        stop("the stack pointer of a caller moves");
    while (i < PAINTED && room[i] == paint_word)
        i++;
    if (i == 0)
        stop("a call goes deeper than what is painted");
    return (size_t)(top - (const char *)&room[i]);
}

static struct deepest {
    const char *name;
    size_t bytes;
    struct deepest *next;
} *all;

static void note(struct deepest *d, size_t bytes)
{
    if (d->bytes == 0) {
        d->next = all;
        all = d;
    }
    if (bytes > d->bytes)
        d->bytes = bytes;
}

static void print_all(void)
{
    for (const struct deepest *d = all; d != NULL; d = d->next)
        printf("stack %s %zu\n", d->name, d->bytes);
}

__attribute__((constructor)) static void print_at_exit(void)
{
    atexit(print_all);
}

#define WRAP(type, name, parameters, arguments)                   \
    type __real_##name parameters;                                \
    type __wrap_##name parameters;                                \
    type __wrap_##name parameters                                 \
    {                                                             \
        static struct deepest d = { #name, 0, NULL };             \
        type answer;                                              \
                                                                  \
        below_caller(true);                                       \
        answer = __real_##name arguments;                         \
        note(&d, below_caller(false));                            \
        return answer;                                            \
    }

#define WRAP_VOID(name, parameters, arguments)                    \
    void __real_##name parameters;                                \
    void __wrap_##name parameters;                                \
    void __wrap_##name parameters                                 \
    {                                                             \
        static struct deepest d = { #name, 0, NULL };             \
                                                                  \
        below_caller(true);                                       \
        __real_##name arguments;                                  \
        note(&d, below_caller(false));                            \
    }

WRAP(uint32_t, hexbus_unit_make, (hexbus_unit *u, uint8_t own, uint32_t retry), (u, own, retry))
WRAP(uint32_t, hexbus_unit_step,
     (hexbus_unit *u, bool bav, bool hsk, uint8_t nibble, bool busy, uint8_t *c, size_t n, const uint8_t *in, uint8_t *out, size_t m),
     (u, bav, hsk, nibble, busy, c, n, in, out, m))
WRAP(uint32_t, hexbus_unit_pulls, (const hexbus_unit *u), (u))
WRAP(uint32_t, hexbus_unit_feed, (hexbus_unit *u, uint8_t *in, uint8_t b), (u, in, b))
WRAP(uint32_t, hexbus_unit_take, (hexbus_unit *u, const uint8_t *out), (u, out))
WRAP(uint32_t, hexbus_unit_raise, (hexbus_unit *u), (u))
WRAP_VOID(hexbus_unit_look, (const hexbus_unit *u, hexbus_unit_looks *l), (u, l))
WRAP_VOID(hexbus_screen_look, (const hexbus_unit *u, hexbus_screen_looks *l), (u, l))
WRAP(uint32_t, hexbus_controller_make, (hexbus_controller *c, uint32_t timeout), (c, timeout))
WRAP(uint32_t, hexbus_controller_step,
     (hexbus_controller *c, bool bav, bool hsk, uint8_t nibble, bool busy, const uint8_t *d_, size_t n, uint8_t *r, size_t m, hexbus_event *e),
     (c, bav, hsk, nibble, busy, d_, n, r, m, e))
WRAP(uint32_t, hexbus_controller_pulls, (const hexbus_controller *c), (c))
WRAP(uint32_t, hexbus_controller_submit,
     (hexbus_controller *c, const hexbus_command *k, const uint8_t *d_, size_t n, const uint8_t *r, size_t m), (c, k, d_, n, r, m))
WRAP(uint32_t, hexbus_controller_acknowledge, (hexbus_controller *c, uint8_t code), (c, code))
WRAP_VOID(hexbus_controller_look, (const hexbus_controller *c, hexbus_controller_looks *l), (c, l))
WRAP(uint32_t, hexbus_controller_entry, (const hexbus_controller *c, size_t i), (c, i))
WRAP(uint32_t, hexbus_command_read, (const uint8_t *m, size_t n, hexbus_command *k), (m, n, k))
WRAP(uint32_t, hexbus_command_write, (const hexbus_command *k, const uint8_t *d_, size_t n, uint8_t *out, size_t m), (k, d_, n, out, m))
WRAP(uint8_t, hexbus_command_nibble, (const hexbus_command *k, const uint8_t *d_, size_t n, size_t i), (k, d_, n, i))
WRAP(uint32_t, hexbus_response_read, (const uint8_t *m, size_t n, hexbus_response *r), (m, n, r))
WRAP(uint32_t, hexbus_response_write, (uint8_t status, const uint8_t *d_, size_t n, uint8_t *out, size_t m), (status, d_, n, out, m))
WRAP(uint8_t, hexbus_response_nibble, (uint8_t status, const uint8_t *d_, size_t n, size_t i), (status, d_, n, i))
WRAP(uint8_t, hexbus_class, (uint8_t code), (code))

WRAP(int, second_unit_step,
     (struct second_unit *u, struct second_levels seen, bool busy, uint8_t *c, size_t n, uint8_t *in, uint8_t *out, size_t m),
     (u, seen, busy, c, n, in, out, m))
WRAP(struct second_event, second_controller_step,
     (struct second_controller *c, struct second_levels seen, bool busy, const uint8_t *d_, size_t n, uint8_t *r, size_t m),
     (c, seen, busy, d_, n, r, m))
WRAP(int, second_submit, (struct second_controller *c, const struct second_command *k, size_t n, size_t m), (c, k, n, m))
WRAP(int, second_write_command, (const struct second_command *k, const uint8_t *d_, size_t n, uint8_t *out, size_t m), (k, d_, n, out, m))
