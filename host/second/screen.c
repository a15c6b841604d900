/* The screen of a video unit (000, display chapter): what each byte does to it. */
#include "second.h"

#include <string.h>

enum { LAST_ROW = SECOND_ROWS - 1, LAST_COLUMN = SECOND_COLUMNS - 1, BLANK = 0x20 };

enum {
    BACKSPACE = 0x08, LINE_FEED = 0x0A, LINE_UP = 0x0B, FORWARD_SPACE = 0x0C,
    CARRIAGE_RETURN = 0x0D, ESCAPE = 0x1B, ERASE_PAGE = 0x1F
};

/* What the next byte is. */
enum { TEXT, COMMAND, CURSOR_ROW, CURSOR_COLUMN, SKIPPED };

void second_screen_start(struct second_screen *screen)
{
    *screen = (struct second_screen){ .last = LAST_ROW, .scrolls = true, .wraps = true };
}

void second_screen_clear(struct second_screen *screen, uint8_t cells[SECOND_SCREEN_SIZE])
{
    second_screen_start(screen);
    memset(cells, BLANK, SECOND_SCREEN_SIZE);
}

struct second_screen_view second_screen_look(const struct second_screen *screen)
{
    return (struct second_screen_view){
        .row = screen->row,
        .column = screen->column,
        .scrolls = screen->scrolls,
        .wraps = screen->wraps,
        .top = screen->first != 0,
        .bottom = screen->last != LAST_ROW,
        .asked = screen->asked,
        .reading = screen->sequence != TEXT,
    };
}

/* ---- Lines ------------------------------------------------------------- */

static uint8_t *line_at(uint8_t *cells, unsigned row)
{
    return cells + row * SECOND_COLUMNS;
}

/* This line and those behind it, to the last unprotected one, move down. */
static void insert_line(const struct second_screen *s, uint8_t *cells, unsigned row)
{
    uint8_t *line = line_at(cells, row);

    memmove(line + SECOND_COLUMNS, line, (s->last - row) * SECOND_COLUMNS);
    memset(line, BLANK, SECOND_COLUMNS);
}

/* Those behind it move up. */
static void delete_line(const struct second_screen *s, uint8_t *cells, unsigned row)
{
    uint8_t *line = line_at(cells, row);

    memmove(line, line + SECOND_COLUMNS, (s->last - row) * SECOND_COLUMNS);
    memset(line_at(cells, s->last), BLANK, SECOND_COLUMNS);
}

static void line_feed(struct second_screen *s, uint8_t *cells)
{
    if (s->row != s->last)
        s->row++;
    else if (s->scrolls)
        delete_line(s, cells, s->first);
    else
        s->row = s->first;
}

static void line_up(struct second_screen *s, uint8_t *cells)
{
    if (s->row != s->first)
        s->row--;
    else if (s->scrolls)
        insert_line(s, cells, s->first);
    else
        s->row = s->last;
}

/* ---- Characters -------------------------------------------------------- */

static void backspace(struct second_screen *s)
{
    if (s->column != 0) {
        s->column--;
    } else if (s->wraps) {
        s->column = LAST_COLUMN;
        if (s->row != s->first)
            s->row--;
        else
            s->row = s->last;
    }
}

static void forward_space(struct second_screen *s)
{
    if (s->column != LAST_COLUMN) {
        s->column++;
    } else if (s->wraps) {
        s->column = 0;
        if (s->row != s->last)
            s->row++;
        else
            s->row = s->first;
    }
}

/* Behind the last column its own carriage return and line feed follow at once. */
static inline void show(struct second_screen *s, uint8_t *cells, uint8_t byte)
{
    line_at(cells, s->row)[s->column] = byte;
    if (s->column != LAST_COLUMN) {
        s->column++;
    } else if (s->wraps) {
        s->column = 0;
        line_feed(s, cells);
    }
}

/* From the cursor to the end of line `row`. */
static void erase_to(const struct second_screen *s, uint8_t *cells, unsigned row)
{
    uint8_t *cursor = line_at(cells, s->row) + s->column;

    memset(cursor, BLANK, (size_t)(line_at(cells, row + 1) - cursor));
}

static void insert_character(const struct second_screen *s, uint8_t *cells)
{
    uint8_t *cursor = line_at(cells, s->row) + s->column;

    memmove(cursor + 1, cursor, (size_t)LAST_COLUMN - s->column);
    *cursor = BLANK;
}

static void delete_character(const struct second_screen *s, uint8_t *cells)
{
    uint8_t *cursor = line_at(cells, s->row) + s->column;

    memmove(cursor, cursor + 1, (size_t)LAST_COLUMN - s->column);
    line_at(cells, s->row)[LAST_COLUMN] = BLANK;
}

static void control(struct second_screen *s, uint8_t *cells, uint8_t byte)
{
    switch (byte) {
    case BACKSPACE:
        backspace(s);
        break;
    case LINE_FEED:
        line_feed(s, cells);
        break;
    case LINE_UP:
        line_up(s, cells);
        break;
    case FORWARD_SPACE:
        forward_space(s);
        break;
    case CARRIAGE_RETURN:
        s->column = 0;
        break;
    case ESCAPE:
        s->sequence = COMMAND;
        break;
    case ERASE_PAGE:
        s->row = s->first;
        s->column = 0;
        erase_to(s, cells, s->last);
        break;
    default:
        break;
    }
}

/* ---- Sequences --------------------------------------------------------- */

/* The cursor is not allowed to be on protected lines. */
static void keep_off_protected(struct second_screen *s)
{
    if (s->row < s->first)
        s->row = s->first;
    if (s->row > s->last)
        s->row = s->last;
}

static void set_cursor(struct second_screen *s, uint8_t row, uint8_t column)
{
    if (row > LAST_ROW || column > LAST_COLUMN)
        return;
    s->row = row;
    s->column = column;
    keep_off_protected(s);
}

static void skip(struct second_screen *s, uint8_t count)
{
    s->sequence = SKIPPED;
    s->argument = count;
}

/* The byte behind an escape. One that is not defined is dropped. */
static void command(struct second_screen *s, uint8_t *cells, uint8_t byte)
{
    s->sequence = TEXT;
    switch (byte) {
    case 'M':
        s->scrolls = true;
        break;
    case 'm':
        s->scrolls = false;
        break;
    case 'Q':
        insert_character(s, cells);
        break;
    case 'W':
        delete_character(s, cells);
        break;
    case 'E':
        insert_line(s, cells, s->row);
        break;
    case 'R':
        delete_line(s, cells, s->row);
        s->column = 0;
        break;
    case 'T':
        erase_to(s, cells, s->row);
        break;
    case 'Y':
        erase_to(s, cells, s->last);
        break;
    case '=':
        s->sequence = CURSOR_ROW;
        break;
    case '0':
        s->first = 1;
        keep_off_protected(s);
        break;
    case '1':
        s->first = 0;
        break;
    case '2':
        s->last = LAST_ROW - 1;
        keep_off_protected(s);
        break;
    case '3':
        s->last = LAST_ROW;
        break;
    case '4':
        s->wraps = false;
        break;
    case '5':
        s->wraps = true;
        break;
    case '9':
        s->asked = true;
        break;
    case '6': case '7': case 'K': case 'L':        /* a byte for each unprotected line */
        skip(s, (uint8_t)(s->last - s->first + 1));
        break;
    case '.': case 'G': case 'C': case 'P':
        skip(s, 1);
        break;
    case 'S':
        skip(s, 2);
        break;
    case 'B':                                      /* the character and eight rows */
        skip(s, 9);
        break;
    default:
        break;
    }
}

static void go_on(struct second_screen *s, uint8_t *cells, uint8_t byte)
{
    switch (s->sequence) {
    case COMMAND:
        command(s, cells, byte);
        break;
    case CURSOR_ROW:
        s->sequence = CURSOR_COLUMN;
        s->argument = byte;
        break;
    case CURSOR_COLUMN:
        s->sequence = TEXT;
        set_cursor(s, s->argument, byte);
        break;
    default:
        if (--s->argument == 0)
            s->sequence = TEXT;
        break;
    }
}

/* ---- A byte, and a text ------------------------------------------------ */

static inline void take_byte(struct second_screen *s, uint8_t *cells, uint8_t byte)
{
    if (s->sequence != TEXT)
        go_on(s, cells, byte);
    else if (byte >= BLANK)
        show(s, cells, byte);
    else
        control(s, cells, byte);
}

void second_screen_byte(struct second_screen *screen, uint8_t cells[SECOND_SCREEN_SIZE],
                        uint8_t byte)
{
    take_byte(screen, cells, byte);
}

void second_screen_write(struct second_screen *screen, uint8_t cells[SECOND_SCREEN_SIZE],
                         const uint8_t *text, size_t length)
{
    for (size_t i = 0; i < length; i++)
        take_byte(screen, cells, text[i]);
}
