/*
 * The index of a table: it starts with no entries, each request keeps it, names are looked up by it in few comparisons, a list that is not
 * true is refused, after a power cut, or for a table from elsewhere, one mend builds it, and a sweep keeps it. Each is held to what
 * include/filebox.h promises: it ends with status 1 at the first that is otherwise.
 *
 *     .ci/staticlib filebox_c
 *     gcc -std=c11 -Iinclude examples/index.c target/staticlib/libfilebox_c.a -o target/index && target/index
 */
#include <stdio.h>
#include <string.h>

#include "filebox.h"

#define USER 7u
#define RECORDS 64u
#define SHEETS 9u

static uint8_t table[RECORDS * FILEBOX_RECORD];
static uint16_t entries[RECORDS];
static uint8_t reply[256];

static uint32_t ask(const char *line, uint32_t stop)
{
    const uint8_t *bytes = (const uint8_t *)line;
    return filebox_request(table, sizeof table, entries, RECORDS, bytes, strlen(line), bytes, 0, reply, sizeof reply, USER, stop)
        .number;
}

static struct filebox_found look_up(uint32_t heading, const char *name)
{
    return filebox_look_up(table, sizeof table, entries, RECORDS, heading, USER, (const uint8_t *)name, strlen(name));
}

/* The heading that an entry names: bytes 4 and 5. */
static uint32_t named(uint32_t entry)
{
    const uint8_t *record = table + entry * FILEBOX_RECORD;
    return record[4] + 256u * record[5];
}

static void tell(const char *name, struct filebox_found found)
{
    if (found.found == 1)
        printf("%s: entry in record %u, comparisons: %u\n", name, found.entry, found.count);
    else
        printf("%s: not there, comparisons: %u\n", name, found.count);
}

/* A directory and nine sheets without text, filed from the last name to the first. */
static int file_sheets(void)
{
    char line[] = "WRS M .R:SHEET0";
    for (size_t i = 0; i < RECORDS; i++)
        entries[i] = FILEBOX_PADDING;
    if (ask("CRD .R", FILEBOX_NO_STOP) != FILEBOX_DONE)
        return 0;
    for (unsigned i = SHEETS; i > 0; i--) {
        line[sizeof line - 2] = (char)('0' + i);
        if (ask(line, FILEBOX_NO_STOP) != FILEBOX_DONE)
            return 0;
    }
    return entries[SHEETS + 1] == FILEBOX_PADDING;
}

static int looked_up(void)
{
    struct filebox_found directory = look_up(FILEBOX_BASE, ".R");
    tell(".R", directory);
    if (directory.found != 1 || directory.entry != entries[SHEETS])
        return 0;
    struct filebox_found sheet = look_up(named(directory.entry), "SHEET5"), none = look_up(named(directory.entry), "KEYS");
    tell("SHEET5", sheet);
    tell("KEYS", none);
    return sheet.found == 1 && sheet.entry == entries[4] && none.found == 0 && none.entry == FILEBOX_PADDING;
}

/* Two entries change places: refused until they stand right again, and a mend sees to that. */
static int refused_and_built(void)
{
    uint16_t first = entries[0];
    entries[0] = entries[1];
    entries[1] = first;
    uint32_t number = ask("LST .R", FILEBOX_NO_STOP);
    printf("two entries changed places: %u\n", number);
    struct filebox_answer mended = filebox_mend(table, sizeof table, entries, RECORDS, FILEBOX_NO_STOP);
    printf("mended: %u, stores: %u\n", mended.number, mended.stores);
    return number == FILEBOX_INDEX && mended.number == FILEBOX_DONE && mended.stores == 0 && entries[0] == first;
}

/* The power goes when the entry of SHEET1 is cleared: the index is as it was, and the mend takes the entry out. */
static int cut_and_built(void)
{
    uint32_t number = ask("DEL .R:SHEET1", 1);
    struct filebox_answer mended = filebox_mend(table, sizeof table, entries, RECORDS, FILEBOX_NO_STOP);
    printf("the power cut: %u, mended: %u\n", number, mended.number);
    tell("SHEET1", look_up(0, "SHEET1"));
    return number == FILEBOX_STOPPED && mended.number == FILEBOX_DONE && entries[SHEETS] == FILEBOX_PADDING &&
           look_up(0, "SHEET1").found == 0 && look_up(0, "SHEET2").found == 1;
}

/* A directory that holds itself loses its base file: the sweep clears it, and takes its entry out of the index. */
static int lost_and_swept(void)
{
    if (ask("CRD .T", FILEBOX_NO_STOP) != FILEBOX_DONE || ask("DUP .T .T:SELF", FILEBOX_NO_STOP) != FILEBOX_DONE ||
        ask("DEL .T", FILEBOX_NO_STOP) != FILEBOX_DONE || entries[SHEETS] == FILEBOX_PADDING)
        return 0;
    struct filebox_answer swept = filebox_sweep(table, sizeof table, entries, RECORDS, FILEBOX_NO_STOP);
    printf("a lost loop swept: %u, stores: %u\n", swept.number, swept.stores);
    return swept.number == FILEBOX_DONE && swept.stores == 2 && entries[SHEETS] == FILEBOX_PADDING && look_up(0, "SHEET2").found == 1;
}

int main(void)
{
    if (!file_sheets() || !looked_up() || !refused_and_built() || !cut_and_built() || !lost_and_swept()) {
        printf("not as promised\n");
        return 1;
    }
    return 0;
}
