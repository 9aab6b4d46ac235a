/*
 * The lamp of a fixture: it files the three sheets of a board and reads each back, and lights green. Then a job that is red, a job that is
 * refused, and one that loses its power and is mended. Each is held to what include/filebox.h promises: it ends with status 1 at the first
 * that is otherwise.
 *
 *     .ci/staticlib filebox_c
 *     gcc -std=c11 -Iinclude examples/lamp.c target/staticlib/libfilebox_c.a -o target/lamp && target/lamp
 */
#include <stdio.h>
#include <string.h>

#include "filebox.h"

#define USER 7u
#define MOST_SHEETS 8u

#define RECORDS 64u

/* A table, and its index beside it. */
struct kept {
    uint8_t table[RECORDS * FILEBOX_RECORD];
    uint16_t index[RECORDS];
};

static struct kept box, before, after;
static uint8_t back[64];

/* A sheet: the link under which it is filed, at most ten characters, and its text. */
struct sheet {
    const char *name, *text;
};

static int wrong(const char *what)
{
    printf("%s: not as promised\n", what);
    return 1;
}

/* A request of document 01 that takes no text. */
static struct filebox_answer ask(const char *line)
{
    const uint8_t *bytes = (const uint8_t *)line;
    return filebox_request(box.table, sizeof box.table, box.index, RECORDS, bytes, strlen(line), bytes, 0, back, sizeof back, USER,
                           FILEBOX_NO_STOP);
}

/* A granted request: so many bytes written and stores made. */
static int granted(struct filebox_answer a, size_t bytes, uint32_t stores)
{
    return a.number == FILEBOX_DONE && a.place == 0 && a.link == 0 && a.names == 1 && a.displaced == 0 && a.bytes == bytes && a.stores == stores;
}

/* A sheet's record: link name, zeros after it, the length of the text. */
static void lay(uint8_t *record, struct sheet sheet)
{
    size_t length = strlen(sheet.text);
    memset(record, 0, FILEBOX_SHEET);
    memcpy(record, sheet.name, strlen(sheet.name));
    record[FILEBOX_SHEET_LENGTH] = (uint8_t)(length % 256);
    record[FILEBOX_SHEET_LENGTH + 1] = (uint8_t)(length / 256);
}

/* The job of these sheets in the directory .R, with a stop number. */
static struct filebox_lamp light(const struct sheet *job, size_t count, uint32_t stop)
{
    uint8_t sheets[MOST_SHEETS * FILEBOX_SHEET], texts[256];
    size_t length = 0;
    for (size_t i = 0; i < count; i++) {
        lay(sheets + i * FILEBOX_SHEET, job[i]);
        memcpy(texts + length, job[i].text, strlen(job[i].text));
        length += strlen(job[i].text);
    }
    before = box;
    memset(back, '?', sizeof back);
    return filebox_lamp(box.table, sizeof box.table, box.index, RECORDS, sheets, count * FILEBOX_SHEET, texts, length, back, sizeof back,
                        (const uint8_t *)".R", 2, USER, stop);
}

static void tell(const char *job, struct filebox_lamp lamp)
{
    static const char *const phases[] = {"", "filing", "reading"};
    if (lamp.light == FILEBOX_GREEN)
        printf("%s: green, %u stores\n", job, lamp.stores);
    else if (lamp.light == FILEBOX_RED)
        printf("%s: red, sheet %u, %s, %u, %u stores\n", job, lamp.sheet, phases[lamp.phase], lamp.number, lamp.stores);
    else
        printf("%s: refused, sheet %u, %u\n", job, lamp.sheet, lamp.number);
}

static int shows(struct filebox_lamp lamp, uint32_t light, uint32_t sheet, uint32_t phase, uint32_t number, uint32_t stores)
{
    return lamp.light == light && lamp.sheet == sheet && lamp.phase == phase && lamp.number == number && lamp.stores == stores;
}

/* The buffer begins with this text, and the rest of it is as lent. */
static int back_is(const char *text)
{
    size_t n = strlen(text);
    if (memcmp(back, text, n) != 0)
        return 0;
    for (size_t i = n; i < sizeof back; i++)
        if (back[i] != '?')
            return 0;
    return 1;
}

/* Table and index are these. */
static int box_is(const struct kept *kept)
{
    return memcmp(box.table, kept->table, sizeof box.table) == 0 && memcmp(box.index, kept->index, sizeof box.index) == 0;
}

/* The sheet stands in .R, whose heading is in record 0, with this text. */
static int filed(struct sheet sheet)
{
    char line[32];
    const uint8_t *name = (const uint8_t *)sheet.name;
    struct filebox_found found = filebox_look_up(box.table, sizeof box.table, box.index, RECORDS, 0, USER, name, strlen(sheet.name));
    snprintf(line, sizeof line, "RDS .R:%s", sheet.name);
    memset(back, '?', sizeof back);
    return found.found == 1 && found.count <= 12 && granted(ask(line), strlen(sheet.text), 0) && back_is(sheet.text);
}

static const struct sheet board[] = {{"LIMITS", "MIN 4.9 V MAX 5.1 V 10 MA"}, {"KEYS", "A7 3F"}, {"SETTINGS", "FAST"}};

/* Heading, text and entry of each, then its count and that of .R; the first text, of 25 bytes, has two records. */
static int green(void)
{
    struct filebox_lamp lamp = light(board, 3, FILEBOX_NO_STOP);
    tell("the board", lamp);
    /* each text was read back over the front of what the last one left */
    return shows(lamp, FILEBOX_GREEN, 0, 0, 0, 16) && back_is("FASTF.9 V MAX 5.1 V 10 MA") && filed(board[0]) && filed(board[1]) &&
           filed(board[2]);
}

/* OLD is a directory with entries: the sheet before it is filed, and displaces the one of its name; the sheet after it is not filed. */
static int red(void)
{
    const struct sheet job[] = {{"LIMITS", "MIN 4.8 V"}, {"OLD", "NONE"}, {"KEYS", "00"}};
    struct filebox_lamp lamp = light(job, 3, FILEBOX_NO_STOP);
    tell("a sheet over a directory", lamp);
    return shows(lamp, FILEBOX_RED, 2, FILEBOX_FILING, FILEBOX_PEOPLED, 8) && back_is("") && filed(job[0]) && filed(board[1]);
}

static int refused(void)
{
    const struct sheet job[] = {{"KEYS", "1"}, {"LIMITS", "2"}, {"KEYS", "3"}};
    struct filebox_lamp lamp = light(job, 3, FILEBOX_NO_STOP);
    tell("a name twice", lamp);
    return shows(lamp, FILEBOX_REFUSED, 3, 0, FILEBOX_SHEET_TWICE, 0) && back_is("") && box_is(&before);
}

/*
 * The power goes in the middle of the second sheet: mended, the first is filed and nothing of the second. The index is as after the first from
 * the cut on. Then the same job again.
 */
static int cut(void)
{
    const struct sheet job[] = {{"LIMITS", "MIN 4.7 V"}, {"KEYS", "B8 40"}};
    struct filebox_lamp first = light(job, 1, FILEBOX_NO_STOP);
    after = box;
    box = before;
    struct filebox_lamp lamp = light(job, 2, first.stores + 2);
    tell("the power cut", lamp);
    if (!shows(lamp, FILEBOX_RED, 2, FILEBOX_FILING, FILEBOX_STOPPED, first.stores + 2) || !back_is("") ||
        memcmp(box.table, after.table, sizeof box.table) == 0 || memcmp(box.index, after.index, sizeof box.index) != 0)
        return 0;
    struct filebox_answer mended = filebox_mend(box.table, sizeof box.table, box.index, RECORDS, FILEBOX_NO_STOP);
    printf("mended: %u, %u stores\n", mended.number, mended.stores);
    if (mended.number != FILEBOX_DONE || !box_is(&after) || !filed(job[0]) || !filed(board[1]))
        return 0;
    lamp = light(job, 2, FILEBOX_NO_STOP);
    tell("the same job again", lamp);
    return shows(lamp, FILEBOX_GREEN, 0, 0, 0, 14) && filed(job[0]) && filed(job[1]);
}

int main(void)
{
    /* a table of free records, and the index of one */
    for (size_t i = 0; i < RECORDS; i++)
        box.index[i] = FILEBOX_PADDING;
    if (!granted(ask("CRD .R"), 0, 3) || !granted(ask("CRD .R:OLD"), 0, 4) || !granted(ask("CRD .R:OLD:BOARD6"), 0, 4))
        return wrong("three directories");
    if (!green())
        return wrong("green");
    if (!red())
        return wrong("red");
    if (!refused())
        return wrong("refused");
    if (!cut())
        return wrong("a cut and a mend");
    printf("lamp: green\n");
    return 0;
}
