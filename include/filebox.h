/*
 * The file box: requests and mending over a table that the caller lends (document 01, "Records, requests and replies of the file box"),
 * with parts of a sheet, trees, rewrites, gives and takes, files destroyed everywhere, counts in the headings, names of six bits a
 * character in the entries, a sorted index beside the table and a sweep of lost loops (document 02), and the lamp, which files the sheets of
 * a job and reads each back (its request m). Link with libfilebox_c.a, which `.ci/staticlib filebox_c` writes for x86-64; it keeps nothing
 * between calls, allocates nothing, and needs of the C library at most memcpy, memmove and memset.
 *
 * The functions are proved for every table, index, line, text, reply buffer, sheets, texts, read-back buffer, chain, name, user and stop
 * number: whatever the bytes are, a call returns, with one of the numbers below. The proof begins where C hands its arguments over, so
 * these the caller owes:
 *
 *  - each pointer is not null, also where its length is 0 (any address will do there, for index an even one), and leads to as many bytes as
 *    its length says; index_length counts numbers of two bytes, and index leads to as many of these;
 *  - table, index, reply and back may be written; they overlap neither each other nor anything else lent to the call (line and text, and
 *    sheets, texts and chain, are only read, and may overlap each other; so may all that filebox_look_up is lent);
 *  - no other thread writes anything lent, or reads table, index, reply or back, before the call returns.
 */
#ifndef FILEBOX_H
#define FILEBOX_H

#include <stddef.h>
#include <stdint.h>

#ifdef __cplusplus
extern "C" {
#endif

/*
 * A record has 32 bytes; a table has 0 to 2,048 of them, and all bytes 0 is a table of free records. An entry (byte 0 is 2) holds its name in
 * bytes 10 to 17, as one number, the low byte first: ten codes of six bits, a character less 32, the first character highest, 0 after the
 * last; byte 9 and bytes 18 to 31 are 0. So the entry .R of user 1 that names record 0 is 2, 0, 255, 255, 0, 0, 1, nine zeros, 178, 3,
 * fourteen zeros. A table from before, with the name's length in byte 9 and its characters from byte 10 on, is not sound (2): see
 * filebox_to_six.
 */
#define FILEBOX_RECORD 32u
#define FILEBOX_MOST_RECORDS 2048u
/*
 * The index is a list of two-byte numbers that the caller keeps beside the table, one place for each record. It is true if it has the record
 * numbers of the table's entries, ordered by directory (bytes 2 and 3, a base file's 65,535 last), then user (bytes 6 to 8), then name, and
 * FILEBOX_PADDING in every place after the last. A table of free records begins with FILEBOX_PADDING in every place; for any other table one
 * mend builds the index, whatever stands in the list (at stop number 0 it does so for a sound table, and never stores). From then on each
 * call keeps it true, until one is stopped (22); then the mend builds it afresh. It need not be kept on a disk.
 */
#define FILEBOX_PADDING 65535u
/* The longest request line and the longest text, in bytes. Of RDS and LST no reply has more bytes than such a text. */
#define FILEBOX_MOST_LINE 256u
#define FILEBOX_MOST_TEXT 24000u
/* The largest user number. */
#define FILEBOX_MOST_USER 999999u
/* A stop number that no request, no mend, no sweep and no job reaches. */
#define FILEBOX_NO_STOP 65535u

/* The reply numbers. */
enum filebox_number {
    FILEBOX_DONE = 0,            /* done */
    FILEBOX_TABLE_LENGTH = 1,    /* table length no multiple of 32, or above 65,536 */
    FILEBOX_TABLE_NOT_SOUND = 2, /* table not sound */
    FILEBOX_USER = 3,            /* user above 999,999 */
    FILEBOX_LINE = 4,            /* line too long, or a byte outside 32..95 */
    FILEBOX_FUNCTION = 5,        /* no such function, empty line */
    FILEBOX_COUNT = 6,           /* wrong count of arguments */
    FILEBOX_NAME = 7,            /* malformed name or chain */
    FILEBOX_BASE_NAME = 8,       /* illegal base name (also CHN's link for a base file, a user's number out of place) */
    FILEBOX_DECLARATION = 9,     /* declaration malformed or unfit */
    FILEBOX_TEXT = 10,           /* WRS text above 24,000 bytes */
    FILEBOX_NOT_THERE = 11,      /* name not there */
    FILEBOX_NO_DIRECTORY = 12,   /* name before the last is no directory */
    FILEBOX_READ = 13,           /* read inhibited */
    FILEBOX_WRITE = 14,          /* write inhibited */
    FILEBOX_TYPE = 15,           /* RDS, CPY, WRS*: not simple; LST: no directory */
    FILEBOX_BORNE = 16,          /* CHN: new name borne by an entry there, itself included; give: link taken */
    FILEBOX_FULL = 17,           /* directory or base list full, nothing displaced */
    FILEBOX_PEOPLED = 18,        /* file losing its last entry is a directory with entries */
    FILEBOX_ROOM = 19,           /* fewer free records than the request needs */
    FILEBOX_REPLY = 20,          /* reply buffer too short */
    FILEBOX_CODE = 21,           /* DPR: new code lacks a bit of the heading's */
    FILEBOX_STOPPED = 22,        /* stop number reached; the stores made stand */
    FILEBOX_MARKED = 23,         /* RDS, CPY: marked, since a rewrite of it was cut */
    FILEBOX_LIFETIME = 24,       /* WRS*: lifetime L */
    FILEBOX_LEVEL = 25,          /* CPY: level too low, below the source's */
    FILEBOX_INDEX = 26,          /* index not true: length or content; mending: length */
    FILEBOX_NUMBER = 27,         /* RDS: bad number: not one to six octal digits, or a count of 0 */
    FILEBOX_BEYOND = 28          /* RDS: first beyond the end */
};

/* An answer. On any number but 0, displaced and bytes are 0. */
struct filebox_answer {
    uint32_t number;    /* one of the numbers above */
    uint32_t place;     /* the argument that was refused, from 1; 0 for the numbers 0..6, 10, 19, 20, 22 and 26 */
    uint32_t link;      /* which link of that argument's chain, from 1, a supplied .W counted as link 1: for 7 and 8 the first wrong name,
                           on the way down (11, 12, 13) the link refused, at its end (13 to 18, 23, 24) the last; 0 where place is 0, for a lone
                           dash, a chain that is only too long, and an argument that is no chain (a declaration, CHN's link, the numbers of
                           RDS and LST*) */
    uint32_t names;     /* names done: all of whose stores were made; 1 for a granted RDS, LST or LST* */
    uint32_t displaced; /* 1 if an entry already bearing the new name was overwritten */
    size_t bytes;       /* bytes written to the front of reply, up to reply_length; the rest of it is as lent */
    uint32_t stores;    /* stores made in table, a record each; at most the stop number */
};

/*
 * One request: the function and its arguments in line, the content of a WRS or WRS* in text, for a user, with a stop number.
 *
 * A chain begins in the user's own base files. Two forms begin in another's; .nnnnnn is a point and the six digits of that user's number:
 *
 *   DUP old .nnnnnn:link  a give: the file is entered in that user's .G. It never displaces: 16 where the link is taken.
 *   RDS .nnnnnn:name      a take, as the first argument of RDS, LST, LST*, CPY and DUP: the chain begins at that user's .T. Bare, .nnnnnn
 *                         is the file .T itself, in RDS, LST, LST* and CPY.
 *
 * Anywhere else .nnnnnn gets 8. Who is given a file, or takes it, has an entry of his own with no less inhibited than the old one has;
 * unless that entry or the heading inhibits writing (DUP .R:SHEET .000777:SHEET .1), he may inhibit more of the file for everyone, by DPR,
 * or, in a directory, write and delete.
 *
 * RDS name first count writes a part of the text: count bytes from byte first on, counted from 0, both octal and of one to six digits. A dash
 * or nothing in their place means 0 and to the end. A count past the end gives what there is, first equal to the length no bytes; the reply
 * buffer need hold no more than what is written.
 *
 * LST* name digit lists a directory as LST does and, under each entry that is a readable directory, its entries, down to that depth, 1 to 8, two
 * blanks more in front for each level. Another digit gets 9. A directory that holds itself is shown again at each level; where the lines are
 * longer than reply, 20, told before anything is written and without counting them to their end. No reply length is enough for every tree.
 *
 * A heading keeps how many entries name it (bytes 12 and 13, the low byte first) and, for a directory, how many it holds (bytes 14 and
 * 15). After the store of its entry, and before it clears anything, a request stores each heading whose counts that made untrue: of the file
 * named, of the file displaced, of the directory. So CRD .R takes 3 stores. CHN, DPR and WRS* store no count. A table whose counts are not
 * true is not sound (2).
 *
 * WRS* M name rewrites a simple file of lifetime M: text becomes its content, for every entry that names it, and its heading stays in its
 * place, with its level and codes. It needs write on the file, and nothing of the directory; its room is the free records and those of the
 * old text. While it is under way the file is marked (byte 5 of its heading is 1) and has length 0. A file that a cut left marked is
 * refused by RDS and CPY (23) and is otherwise a file as any; another WRS* repairs it.
 *
 * DST takes 1 to 8 names and destroys each file everywhere: its heading is cleared, then its text by position, then every entry that names
 * it, of whatever user and in whatever directory, by record number; then the counts of the directories that held one are corrected. It
 * needs write on the file, and asks nothing of the directories, nor of those who hold the other entries. A directory with entries, its own
 * included, gets 18. A name of a file that a name before it destroyed gets 11.
 *
 * Granted (0): the whole job is done, exactly as the documents have it, in table and reply, and index is true of table as it is now.
 * Refused (1 to 21, 23 to 28): table, index and reply are as lent, byte for byte. Only a DEL or a DST of several names keeps what the names
 *   before the refused one did: names says how many, stores how many stores that took, and index is true of the table that they left.
 *   26 comes straight after 2: table is sound, and index is not its true index, in its length or in any place.
 * Stopped (22): exactly the first stop stores of the request were made, and reply and index are as lent. filebox_mend then gives, byte for
 *   byte, the table before the request or the table after it (for a DEL or a DST: after some first part of its names; for a WRS* cut between
 *   its first and its last store: the table after it with that one file marked and empty), and its index. So a stop number stands for a power
 *   cut between two stores. Even where what was left is sound, as of a DEL stopped between two names, it gets 26 until it is mended.
 */
struct filebox_answer filebox_request(uint8_t *table, size_t table_length, uint16_t *index, size_t index_length, const uint8_t *line,
                                      size_t line_length, const uint8_t *text, size_t text_length, uint8_t *reply, size_t reply_length,
                                      uint32_t user, uint32_t stop);

/*
 * Mending, after a power cut, in rounds. A round clears every entry that names no heading or, base files' entries apart, whose directory is
 * no heading; then every heading that no entry names; then every text record whose heading is not a simple file's, or is marked; each by
 * record number. Rounds go on until one finds nothing to clear; after a request that was cut one is enough. Then the counts of the headings
 * that are left are corrected, a store for each that has an untrue one. A mark stays. A sound table is left as it is, directories that no
 * base file reaches but that name each other included: see filebox_sweep. A table without counts is brought up to date by one mend.
 *
 * Done (0): the table is sound, and index is its true index, built afresh. Refused (1, 2, 26): both are as lent; 26 is tried last, and of
 * index the length alone is judged, on a sound table too. Stopped (22): the first stop stores stand, index is as lent, and a mend cut
 * anywhere and run again ends as an uncut one. place, link, names, displaced and bytes are 0.
 */
struct filebox_answer filebox_mend(uint8_t *table, size_t table_length, uint16_t *index, size_t index_length, uint32_t stop);

/*
 * Sweep what is lost: directories that link each other and are cut off from all base files keep their records, and all that stands in them,
 * though no request comes to them. A sweep clears exactly what no chain of entries from any user's base files reaches, of any length and
 * whatever codes, levels and marks are on it: the entries, then the headings, then the text, each by record number; then it corrects the
 * counts of the headings that are left, a store for each that has an untrue one. It never clears an entry of a base list, and is no
 * request: it asks for no user, and looks at no code.
 *
 * Done (0): table is sound, with nothing lost in it, and index is true of table as it is now. All that was reached is as it was, byte for byte, but
 *   for those counts. Where nothing is lost there are no stores, and table and index are as lent.
 * Refused (1, 2, 26, in this order): both are as lent. As for a request, table is to be sound and index its true index; a table that was cut
 *   is mended first.
 * Stopped (22): exactly the first stop stores of the sweep were made, and index is as lent. filebox_mend then answers 0; the table that it
 *   gives is sound, and may be neither the one before the sweep nor the one after it, but a sweep of it ends in the same table as the sweep uncut,
 *   byte for byte. So after a power cut, mend and sweep again; both may be cut in turn.
 *
 * place, link, names, displaced and bytes are 0.
 */
struct filebox_answer filebox_sweep(uint8_t *table, size_t table_length, uint16_t *index, size_t index_length, uint32_t stop);

/* The directory of base files, which belong to a user. */
#define FILEBOX_BASE 65535u

/* What looking a name up came to. */
struct filebox_found {
    uint32_t found; /* 1 if an entry bears the name there, else 0 */
    uint32_t entry; /* that entry's record number, from 0; 65,535 where there is none */
    uint32_t count; /* entries looked at, a comparison each; at most 12 in an index of up to 2,048 numbers */
};

/*
 * Look a name up by the index: the entry that bears it in the directory whose heading is in record heading, or, with FILEBOX_BASE, among the
 * base files of user (with a directory, user is not looked at). name is one link name, as "LIMITS" or ".R"; bytes that are none are borne by
 * no entry, and none is looked at. The list is halved, the lower middle first, until an entry equal to what is sought is met.
 *
 * On a sound table with a true index it is what looking at every record would find. It judges neither: on any others it returns all the
 * same, with whatever the halving meets. All that is lent is only read.
 */
struct filebox_found filebox_look_up(const uint8_t *table, size_t table_length, const uint16_t *index, size_t index_length, uint32_t heading,
                                     uint32_t user, const uint8_t *name, size_t name_length);

/*
 * Conversion of a table of the old layout, in which an entry has the length of its name in byte 9 and its characters in bytes 10 to 19, to names
 * of six bits, and back. Each entry is converted in its place and all else stays. Every request answers on the converted table as it did on the old
 * one, and leaves the conversion of what it left there; a table converted there and back is the table lent, byte for byte.
 *
 * 0: table was sound in the layout that it is converted from, and is now sound in the other one.
 * 1: its length is no multiple of 32, or above 65,536. It is as lent.
 * 2: it is not sound in the layout that it is converted from. It is as lent. So a table that has entries gets 2 from the second of two calls of
 *    the same function; one without entries is of both layouts, and gets 0 and stays. A table that was cut gets 2 until it is mended, by the
 *    library that wrote it.
 *
 * There is no stop number, and nothing is promised of a conversion that the power cuts, not even that mending helps: convert a copy, and put it
 * in the table's place when it is whole.
 */
uint32_t filebox_to_six(uint8_t *table, size_t table_length);
uint32_t filebox_from_six(uint8_t *table, size_t table_length);

/*
 * A job sheet: a record of 32 bytes for each sheet, in order. Its first 10 bytes are the link name under which the sheet is filed, zeros
 * after it; bytes 10 and 11 are the length of its text, the low byte first; the rest is zero. The texts stand one after the other in a
 * buffer of their own. So a record of a sheet named A of 300 bytes is 'A', nine zeros, 44, 1, twenty zeros.
 */
#define FILEBOX_SHEET 32u        /* bytes of a sheet's record */
#define FILEBOX_SHEET_NAME 10u   /* bytes for its link name, from byte 0 */
#define FILEBOX_SHEET_LENGTH 10u /* where the two bytes of its text's length stand */

/* The lights. */
enum filebox_light {
    FILEBOX_GREEN = 0,  /* every sheet is filed, was read back with reply 0, and each text read back is the text sent */
    FILEBOX_RED = 1,    /* a sheet was not filed, or not read back */
    FILEBOX_REFUSED = 2 /* the job itself is refused, and nothing was stored */
};

/* What was done with the sheet that failed. */
enum filebox_phase {
    FILEBOX_FILING = 1, /* WRS M chain:link */
    FILEBOX_READING = 2 /* RDS chain:link */
};

/* The lamp's own refusals. Each is tried over all sheets before the next; sheet is the first of which it is true. */
enum filebox_refusal {
    FILEBOX_SHEET_MALFORMED = 1, /* a last part of 1 to 31 bytes, no legal link name, or the rest not zero */
    FILEBOX_SHEET_TWICE = 2,     /* a name that a sheet before it bears */
    FILEBOX_TEXTS_SHORT = 3,     /* its text is not wholly there: texts are shorter than the lengths' sum */
    FILEBOX_BACK_SHORT = 4       /* its text is longer than the read-back buffer */
};

/* The answer of the lamp. */
struct filebox_lamp {
    uint32_t light;  /* green, red or refused */
    uint32_t sheet;  /* green: 0. Else the sheet that failed or is refused, from 1 (4,294,967,295 for every sheet from that one on) */
    uint32_t phase;  /* red: filing or reading. Else 0 */
    uint32_t number; /* red: the reply number of that filing or reading. Refused: the lamp's own. Green: 0 */
    uint32_t stores; /* stores made in table, a record each, by all filings together; at most the stop number */
};

/*
 * The lamp: a job for a user, with one stop number. Every sheet is filed in order, as WRS M chain:link, in the directory that chain names;
 * then each is read back, as RDS chain:link, into back. It needs no more of back than the longest text, and texts may be longer than
 * all lengths together. chain stands in both lines as it is, so a blank in it counts, or not, as in any request line.
 *
 * Green: the whole job is done: table and index are what the filings, asked one by one, leave; each text was read to the front of back, over
 *   what the last one left there. A job without sheets is green on any table with any index, and stores nothing.
 * Red in filing: sheet got number (one of 1 to 14, 17 to 19, 22 and 26), and no sheet after it was filed. The sheets before it are filed,
 *   index is what they leave, and back is as lent. What is wrong with table, index, user, chain or directory shows here, at sheet 1; a line
 *   that only its link makes too long (4), at the sheet with that link.
 * Red in reading: every sheet is filed; it is sheet 1, with 12, and back is as lent: the last sheet displaced a link of the chain itself,
 *   so that the chain no longer leads to the directory.
 * Refused: table, index and back are as lent, byte for byte.
 * Stopped (red in filing, 22): exactly the first stop stores of the job were made, and index is as after the sheet before sheet. filebox_mend
 *   then gives, byte for byte, the table after the sheets before sheet, or after sheet too: the first sheets filed, and no half of any.
 *
 * After a red light the sheets filed so far stay. To try again, mend if it was stopped, and give the same job: a sheet displaces the file
 * of its name, and needs its room beside that file's.
 */
struct filebox_lamp filebox_lamp(uint8_t *table, size_t table_length, uint16_t *index, size_t index_length, const uint8_t *sheets,
                                 size_t sheets_length, const uint8_t *texts, size_t texts_length, uint8_t *back, size_t back_length,
                                 const uint8_t *chain, size_t chain_length, uint32_t user, uint32_t stop);

/*
 * The table on a disk that keeps writes back until it is flushed, and may make them in any order: when to write which record. Lend a
 * request a copy of the table and of its index, and if it is granted (0) write the records that differ by their phases:
 *
 *   every record of phase 1, a flush, the record of phase 2 (there is at most one), a flush, every record of phase 3, a flush.
 *
 * Within a phase any order will do. Whatever part of the unflushed phase is on the disk when the power fails, filebox_mend then answers 0
 * and gives, byte for byte, the table before the request or the table after it: after it once the record of phase 2 is there. A phase
 * without records needs no flush. A DEL of several names is written name by name; a mend writes what it clears and counts in any order.
 * Counts need no flush of their own: a heading of which they alone are others may be written at any time.
 *
 * A DST has two phases, which the tables before and after do not tell, since it is the heading that counts: write the records that differ
 * between the table before and the one at stop number 1 (the heading, cleared), a flush, then all others that differ between that and the
 * table after, in any order, a flush. Of several names it is written name by name, the table before a name being the one at the least stop
 * number at which the names before it are done. What is on the disk is mended to the table before, or after once the heading is cleared.
 *
 * A WRS* has phases of its own, which the tables before and after do not tell, since old and new text may share a record. With n the stores
 * of its answer, write the records that differ between the table before and the one at stop number 1 (the heading, marked), a flush, those
 * that differ between that and the table at stop number n - 1 (all text), a flush, those that differ between that and the table after (the
 * heading), a flush. What is on the disk is mended to the table before, to the table after, or to that with the one file marked and empty.
 *
 * A sweep has two phases, which the table before it tells: write every record that differs and was no text (byte 0 was not 3), so that the entries
 * and headings are cleared, in any order, a flush, then every record that differs and was text, a flush. What is on the disk is mended to a
 * sound table, and that, swept again, is the table after.
 */
enum filebox_disk_phase {
    FILEBOX_SAME = 0,  /* nothing to write */
    FILEBOX_FIRST = 1, /* free before, and no entry after: a new file's heading, with its count as it is after, and text */
    FILEBOX_ENTRY = 2, /* an entry before or after, or, for DPR, the heading: the write that counts */
    FILEBOX_LAST = 3   /* free after: what was displaced or deleted; or a heading of which the counts alone are others */
};

/*
 * The phase of record number record (from 0), by the table before and the table after. It is 0 for two tables of different lengths, and
 * for a record that is not wholly there. before and after are only read, and may overlap.
 */
uint8_t filebox_disk_phase(const uint8_t *before, size_t before_length, const uint8_t *after, size_t after_length, size_t record);

#ifdef __cplusplus
}
#endif

#endif
