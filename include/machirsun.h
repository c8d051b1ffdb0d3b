/* Machirsun: word graphs loaded or built from word lists, counted, looked up and exported, words read from text, and a record of words in play.
 *
 * Link with libmachirsun.a, which `sh compare/library` writes to target/staticlib/ (x86-64 Linux).
 *
 * Buffers. The caller owns every buffer. A call reads and writes only the buffers that it is handed, keeps no pointer to them
 * after it returns, and allocates nothing; its stack does not grow with its input and stays under 64 KiB. A buffer is a pointer and a
 * number of entries, side by side; it has to hold that many entries, aligned for their type. Where the number is 0 nothing is read through the
 * pointer, but NULL is not allowed. A buffer that a call writes (one that is not const) must not overlap any other buffer of that
 * call. Buffers that are only read may.
 *
 * Threads. There is no global state. Calls are safe at the same time from several threads as long as no buffer that one of them
 * writes is read or written by another.
 *
 * Answers. Every answer has `refusal`: 0, or a number from the table below. The answer of machirsun_load_in_pieces has two of them,
 * `begun` and `finished.refusal`. A refused call has done nothing but what its comment says. Fields that an answer has no value for
 * are 0: `arc`, `node`, `tile` and `bad` are filled by the refusals that carry them, the other fields where nothing is refused.
 *
 * Nodes. The loaded table is 32-bit nodes: arc bits 8-31, accepts 7, end 6, tile 0-5. A place is the number of a node, from 0. The run from
 * a place is the nodes from there up to the first with the end bit, whatever leads to them: two runs may share their last nodes. Arc 0
 * means that the node has no arc, not that it leads to node 0. Wherever a call takes nodes, lend the part that finish or build answered: its
 * first N nodes. The words of a DAWG begin at node 0's arc, those of a GADDAG at node 1's: pass that arc as the start, and where it is 0 there are
 * no words.
 *
 * Every call ends on every input; none needs its input to be sound. What each answers is proved: the contracts are in
 * crates/machirsun/src, and crates/flat/specs says how a struct here is read as an answer there.
 */
#ifndef MACHIRSUN_H
#define MACHIRSUN_H

#include <stdbool.h>
#include <stddef.h>
#include <stdint.h>

#ifdef __cplusplus
extern "C" {
#endif

/* ---- Refusals ----------------------------------------------------------------------------------------------------------------
 *
 *  No.  Meaning                                                                        Given by
 *   1   the announced length is 0 or no multiple of 4                                  begin
 *   2   the announced length is over 67,108,864                                        begin
 *   3   the node buffer has fewer than max(length / 4, 2) nodes                        begin
 *   4   no load of this buffer has this state: begin would refuse its length, or       feed, finish
 *       it has taken more than that, or its held bytes are not taken mod 4, or an
 *       unused place of held is not 0
 *   5   the piece is longer than what is missing; nothing was taken                    feed
 *   6   a node does not fit the layout; carries node, tile, arc                        feed, finish, repack
 *   7   bytes are missing                                                              finish
 *   8   the largest arc is at least the number of nodes; carries that arc              finish, count_words, to_macondo, to_lxd
 *   9   the last node is no end                                                        finish, count_words, to_macondo, to_lxd
 *  10   under 2 nodes or over 16,777,216                                               count_words, to_macondo, to_lxd
 *  11   a lent list is too short. count_words: counts under N or work under 2 x N;     count_words, letter_bits, to_macondo, to_lxd,
 *       letter_bits: either list under N; to_macondo, to_lxd: work under 8 x N, or,    write_page, arrive, leave, build
 *       last of all checks, the file buffer under the file's length; write_page:
 *       the page buffer under 960 bytes; arrive, leave: the record has fewer bits
 *       than the start's count; build: work under 8 x list_len + 64, or, last of all
 *       checks, the node buffer under the graph's nodes
 *  12   a node can be reached from itself; carries the lowest such node                count_words
 *  13   some node (to_lxd: the start) has 4,294,967,295 words or more                  count_words, to_lxd
 *  14   a step leads to a node or a count that is not lent                             seek, cursor_at, cursor_step, word_index,
 *                                                                                      word_by_index, accepts_alpha, alpha_cross_set,
 *                                                                                      write_page, arrive, leave
 *  15   a difference is below 0, or a sum above 4,294,967,295: the counts are not      seek, word_index, word_by_index, write_page,
 *       the graph's                                                                    arrive, leave
 *  16   the word buffer is full; read_words: tiles or sizes has no more room           word_by_index, next_word, read_words
 *  17   the tally has over 64 entries                                                  accepts_alpha, alpha_cross_set
 *  18   no label, or over 50                                                           to_macondo
 *  19   a text is too long: a name over 255 bytes, a title over 31, a date over 19;    to_macondo, to_lxd, write_page
 *       write_page: a title over 40 bytes
 *  20   the title or the date has a code point without a byte in Windows-1252          to_lxd
 *  21   a tile has no label; write_page: a tile that is shown                          to_macondo, to_lxd, write_page
 *  22   over 64 runs, each reached by an arc of the one before, from the start         to_macondo, to_lxd
 *  23   to_macondo: the label of a letter (tiles 1 up, used or not, not the            to_macondo, to_lxd
 *       blank's) is not one code point; to_lxd: the label of a tile that is reached
 *       from the start, the blank's too, has no byte in Windows-1252
 *  24   runs do not ascend                                                             to_macondo
 *  25   the file or graph would have too many nodes: over 2^24 (to_lxd: 2^22)          to_macondo, to_lxd, build
 *  26   a byte of the title or a shown label is outside 20 to 7E hexadecimal           write_page
 *  27   a line of the label file is bad; carries its number, from 1, as bad            next_word, read_words
 *  28   the text cannot be read: no label matches; carries the byte's place as bad     next_word, read_words
 *  29   the word is not in the lexicon, or its number is not below the start's count   arrive, leave
 *  30   the word is in play already                                                    arrive
 *  31   the word is not in play                                                        leave
 *  32   a word of the list has a length that is not 1 to 64, or a tile that is not 1   build
 *       to 63, or the list ends inside it
 *  33   a word of the list is not above the one before it                              build
 *
 * Where several apply, the first in the order that the call's comment gives is answered.
 */
enum {
    MACHIRSUN_NOT_WHOLE_NODES = 1,
    MACHIRSUN_OVER_LIMIT = 2,
    MACHIRSUN_NODES_TOO_SHORT = 3,
    MACHIRSUN_BAD_STATE = 4,
    MACHIRSUN_TOO_LONG = 5,
    MACHIRSUN_DOES_NOT_FIT = 6,
    MACHIRSUN_MISSING = 7,
    MACHIRSUN_ARC_PAST_END = 8,
    MACHIRSUN_NO_END = 9,
    MACHIRSUN_WRONG_SIZE = 10,
    MACHIRSUN_LIST_TOO_SHORT = 11,
    MACHIRSUN_LOOPS = 12,
    MACHIRSUN_TOO_MANY_WORDS = 13,
    MACHIRSUN_NOT_LENT = 14,
    MACHIRSUN_OUT_OF_RANGE = 15,
    MACHIRSUN_BUFFER_FULL = 16,
    MACHIRSUN_TALLY_TOO_LONG = 17,
    MACHIRSUN_LABEL_COUNT = 18,
    MACHIRSUN_TEXT_TOO_LONG = 19,
    MACHIRSUN_NOT_WINDOWS_1252 = 20,
    MACHIRSUN_NO_LABEL = 21,
    MACHIRSUN_CHAIN_TOO_LONG = 22,
    MACHIRSUN_BAD_LETTER = 23,
    MACHIRSUN_NOT_ASCENDING = 24,
    MACHIRSUN_TOO_MANY_NODES = 25,
    MACHIRSUN_NOT_PRINTABLE = 26,
    MACHIRSUN_BAD_LABEL_LINE = 27,
    MACHIRSUN_UNREADABLE = 28,
    MACHIRSUN_NO_WORD = 29,
    MACHIRSUN_ALREADY_IN_PLAY = 30,
    MACHIRSUN_NOT_IN_PLAY = 31,
    MACHIRSUN_BAD_WORD = 32,
    MACHIRSUN_NOT_ABOVE = 33
};

/* ---- Layouts and formats: 0 is the first, every other number the second -------------------------------------------------------- */

/* KWG: tile bits 24-31, accepts 23, end 22, arc 0-21. KBWG: the loaded table's. */
enum { MACHIRSUN_KWG = 0, MACHIRSUN_KBWG = 1 };

enum { MACHIRSUN_DAWG = 0, MACHIRSUN_GADDAG = 1 };

/* ---- Loading -------------------------------------------------------------------------------------------------------------------
 *
 * A file's length is announced to begin, its bytes come to feed in any pieces, also cut inside a node, and finish judges the
 * nodes. The same node buffer is lent throughout. The state goes in and comes back by value; it holds no pointer.
 */

/* The state of a load. Where refusal is not 0 it keeps refusal 6 with node, tile and arc. The first held_count bytes of held are
 * those after the last whole node, the others 0. */
typedef struct machirsun_loader {
    size_t announced;
    size_t taken;
    size_t held_count;
    size_t node;
    uint32_t layout;
    uint32_t refusal;
    uint32_t arc;
    uint8_t tile;
    uint8_t held[3];
} machirsun_loader;

typedef struct machirsun_begun {
    uint32_t refusal;
    machirsun_loader loader;
} machirsun_begun;

/* Announces a file of so many bytes. Of the nodes only their number counts. A refused begin gives a state that feed and finish refuse by
 * 4. Order: 1, 2, 3. */
machirsun_begun machirsun_begin(size_t announced, uint32_t layout, const uint32_t *nodes, size_t nodes_len);

typedef struct machirsun_fed {
    uint32_t refusal;
    uint32_t arc;
    size_t node;
    uint8_t tile;
    machirsun_loader loader;
} machirsun_fed;

/* The next piece of the file, of any length. Writes each node that it completes and no other. After 4 or 5 the nodes are untouched, and the
 * state that comes back is the one that was handed over as it is read, field by field: padding may differ, a layout other than 0 comes back
 * as 1 and a refusal other than 0 as 6. A node that does not fit (6) stops the load, and each later feed and finish repeats it. Order: 4, 6
 * that the state keeps, 5, 6. */
machirsun_fed machirsun_feed(machirsun_loader loader, const uint8_t *piece, size_t piece_len, uint32_t *nodes, size_t nodes_len);

typedef struct machirsun_finished {
    uint32_t refusal;
    uint32_t arc;
    size_t nodes;
    size_t node;
    uint8_t tile;
} machirsun_finished;

/* The end of the file: answers the number of its nodes. A file of one node gets its copy as node 1, and answers 2. Nothing else is written.
 * Order: 4, 6 that the state keeps, 7, 8, 9. */
machirsun_finished machirsun_finish(machirsun_loader loader, uint32_t *nodes, size_t nodes_len);

typedef struct machirsun_loaded {
    uint32_t begun;
    machirsun_loader loader;
    machirsun_finished finished;
} machirsun_loaded;

/* A whole load in one call: begin, a feed of each piece, finish. The pieces are the first cuts[0] bytes, the next cuts[1] and so on, and
 * the rest as one more; a cut past the end takes what is there. begun is the number of begin's refusal, or 0; loader is the state after the
 * last feed. Each feed's answer goes to answers, in order: the number of its refusal (4, 5, 6), or 0. Where answers is shorter than cuts_len
 * + 1 the later ones are not written; entries past them stay. The calls are those above: after a refused begin each feed and finish answers 4,
 * a piece that is too long is left out and the next one is fed, and a 6 is repeated to the end. */
machirsun_loaded machirsun_load_in_pieces(size_t announced, uint32_t layout, const uint8_t *bytes, size_t bytes_len, const uint32_t *cuts,
                                          size_t cuts_len, uint32_t *answers, size_t answers_len, uint32_t *nodes, size_t nodes_len);

typedef struct machirsun_repacked {
    uint32_t refusal;
    uint32_t arc;
    size_t node;
    uint8_t tile;
} machirsun_repacked;

/* Puts the nodes of a file's bytes into another layout, where they stand. A node that does not fit (6) stops it, with the nodes before
 * rewritten; a part node at the end stays. */
machirsun_repacked machirsun_repack(uint8_t *bytes, size_t bytes_len, uint32_t from, uint32_t to);

/* ---- Counting ------------------------------------------------------------------------------------------------------------------ */

typedef struct machirsun_counted {
    uint32_t refusal;
    uint32_t arc;
    uint32_t node;
} machirsun_counted;

/* Puts the number of words from each of the N nodes into the first N counts. The work list has at least 2 x N numbers; what is in these
 * afterwards is free. After 12 or 13 the first N counts are 0; after the others nothing is written. Order: 10, 8, 9, 11, 12, 13. */
machirsun_counted machirsun_count_words(const uint32_t *nodes, size_t nodes_len, uint32_t *counts, size_t counts_len, uint32_t *work,
                                        size_t work_len);

/* ---- Lookups: on the way the refusal met first is answered ---------------------------------------------------------------------- */

typedef struct machirsun_sought {
    uint32_t refusal;
    bool found;
    uint32_t place;
    uint32_t before;
} machirsun_sought;

/* The first node with the tile in the run that the arc of the node at a place leads to, and how many words of the run come before it: the
 * run's first count less that of the node found. With the graph's own counts, where runs ascend, these are the words of the run that begin
 * below the tile. Counts are read only for a tile that is found. */
machirsun_sought machirsun_seek(const uint32_t *nodes, size_t nodes_len, const uint32_t *counts, size_t counts_len, uint32_t place,
                                uint8_t tile);

typedef struct machirsun_cursor {
    uint32_t refusal;
    bool done;
    uint32_t at;
} machirsun_cursor;

/* A cursor at a node. `at` is the place asked for, also where it is not lent (14); each step from there is refused too. `done` is false, also
 * at an end: only a step says that the run is over. */
machirsun_cursor machirsun_cursor_at(const uint32_t *nodes, size_t nodes_len, uint32_t at);

/* The cursor one node further along its run. At an end it is done and stays; where the next node is not lent (14) it stays too. */
machirsun_cursor machirsun_cursor_step(const uint32_t *nodes, size_t nodes_len, uint32_t at);

typedef struct machirsun_index {
    uint32_t refusal;
    bool found;
    uint32_t number;
} machirsun_index;

/* The number of a word among the words from the start, from 0. Not found: no such word, the empty word, or start 0. */
machirsun_index machirsun_word_index(const uint32_t *nodes, size_t nodes_len, const uint32_t *counts, size_t counts_len, uint32_t start,
                                     const uint8_t *word, size_t word_len);

typedef struct machirsun_word {
    uint32_t refusal;
    bool found;
    size_t tiles;
} machirsun_word;

/* Puts the tiles of the word with a number among the words from the start, and answers how many. Not found: there are fewer words. After
 * that or a refusal the tiles already put stay; the rest of the word buffer is as before. */
machirsun_word machirsun_word_by_index(const uint32_t *nodes, size_t nodes_len, const uint32_t *counts, size_t counts_len,
                                       uint32_t start, uint32_t number, uint8_t *word, size_t word_len);

/* ---- Letter and alpha sets: bit t of a set stands for tile t -------------------------------------------------------------------- */

/* Writes for each node all tiles, and the accepting tiles, from it to its run's end, or to the last node where no end comes. Answers
 * just the number of the refusal (11), or 0; after 11 nothing is written. */
uint32_t machirsun_letter_bits(const uint32_t *nodes, size_t nodes_len, uint64_t *letter_bits, size_t letter_bits_len,
                               uint64_t *accepting_bits, size_t accepting_bits_len);

typedef struct machirsun_accepts {
    uint32_t refusal;
    bool accepts;
} machirsun_accepts;

/* Whether the letters of a tally, in ascending order, spell a word. Entry t of the tally says how many letters of tile t there are; entry 0
 * is unread. Order: 17, 14. */
machirsun_accepts machirsun_accepts_alpha(const uint32_t *nodes, size_t nodes_len, const uint8_t *tally, size_t tally_len);

typedef struct machirsun_cross_set {
    uint32_t refusal;
    uint64_t tiles;
} machirsun_cross_set;

/* The tiles that make a word with the letters of a tally, all in ascending order; bit 0 is always set. Order: 17, 14. */
machirsun_cross_set machirsun_alpha_cross_set(const uint32_t *nodes, size_t nodes_len, const uint8_t *tally, size_t tally_len);

/* ---- Files for other programs ----------------------------------------------------------------------------------------------------
 *
 * A file has the words from the start: node 0's arc, for a Macondo GADDAG node 1's. Where that arc is 0 the start is node 0 itself, as in
 * the original, and the file has the words of node 0's run. Labels are one code point a tile, the blank's (tile 0) first; D800 to DFFF, and
 * 110000 and above (hexadecimal), mean "not one code point". The work list has at least 8 x N numbers; what is in these afterwards is free. A
 * refusal writes no byte of the file.
 *
 * How long a file can get. Where every arc leads to the beginning of a run, that is to a node after an end, as in lexicons made by the usual
 * builders: Macondo at most 468 + 16 x N bytes, LXD at most 72 + 4 x N. Where arcs lead into the middle of runs, each such place is
 * written as a run of its own: Macondo at most 468 + 8 x N + 4 x min(51 x N, 2^24) bytes, LXD at most 64 + 4 x 2^22.
 */

/* written: the file's length in bytes. */
typedef struct machirsun_file {
    uint32_t refusal;
    uint32_t arc;
    size_t written;
} machirsun_file;

/* Writes a Macondo file; the name is bytes, copied. Order: 10, 8, 9, 18, 19, 21, 24, 11 for the work list, 22, 23, 25, 11 for the file. */
machirsun_file machirsun_to_macondo(const uint32_t *nodes, size_t nodes_len, const uint32_t *labels, size_t labels_len,
                                    const uint8_t *name, size_t name_len, uint32_t format, uint32_t *work, size_t work_len,
                                    uint8_t *file, size_t file_len);

/* Writes an LXD file; title and date are code points. They and the labels are written as bytes of Windows-1252, by the Unicode Consortium's
 * table CP1252: its 27 code points over FF (hexadecimal), such as 152, have the bytes 80 to 9F, of which five stand for no character and are
 * never written; the code points 80 to 9F have no byte; every other up to FF is its own. Order: 10, 8, 9, 20 and 19 for the title, 20 and 19
 * for the date, 21, 11 for the work list, 22, 23, 13, 25, 11 for the file. */
machirsun_file machirsun_to_lxd(const uint32_t *nodes, size_t nodes_len, const uint32_t *labels, size_t labels_len,
                                const uint32_t *title, size_t title_len, const uint32_t *date, size_t date_len, uint32_t *work,
                                size_t work_len, uint8_t *file, size_t file_len);

/* ---- Pages of words for a text service ------------------------------------------------------------------------------------------- */

/* Writes a page of 24 rows of 40 bytes, without line ends, blanks (20 hexadecimal) filled in: the first 960 bytes of the page buffer; bytes past
 * them stay. Row 0 is the title, at most 40 bytes. Row r (1 to 23) is for the number first + r - 1 among the words from the start: the
 * number right-aligned in 10 columns, a blank, the labels of the word's first 28 tiles, one byte each, in 28 columns, and `+` where the word has
 * more tiles, else a blank. From the first number that names no word, or is over 4,294,967,295, rows are blank.
 *
 * A word is the one that machirsun_word_by_index puts, start 0 included; its walk stops at the 29th tile, and ends the page where it finds none.
 * Labels are one number a tile, the blank's (tile 0) first; only those of tiles that are shown are read. Answers just the number of
 * the refusal, or 0; after any refusal nothing is written. Order: 19, 11, 14 or 15 (the first that the rows' walks meet, one row after the
 * other), 21 for a tile of any row, 26 for the title and the label of a tile of any row. */
uint32_t machirsun_write_page(const uint32_t *nodes, size_t nodes_len, const uint32_t *counts, size_t counts_len,
                              const uint32_t *labels, size_t labels_len, const uint8_t *title, size_t title_len, uint32_t start,
                              uint32_t first, uint8_t *page, size_t page_len);

/* ---- Words as viewers type them --------------------------------------------------------------------------------------------------
 *
 * A text has one word a line. Lines end at 0A, at 0D 0A or at a lone 0D (bytes are hexadecimal here), the last with or without an ending. A
 * place is the number of a byte of the text, from 0; what is before it does not count, so that a place inside a line, or between 0D and
 * 0A, is where a line begins.
 *
 * The label file says which bytes are which tile. Its lines end in the same way, and each is one label: the tile, 1 to 63 in decimal without a
 * leading zero, a tab, and 1 to 15 bytes, which are the label, whatever they are; blanks, tabs and bytes over 7F are bytes like the others. A
 * tile may have several lines. There are at most 256; an empty line is bad, and an empty file has no labels.
 *
 * A line is read label by label, from its first byte on: of those that match at a place, the longest is taken, and of several as long, the
 * one with the lowest tile. The word ends where the line ends, or at the first byte of 20 or less that no label matches; what follows that
 * byte is not read. Every other byte that no label matches is unreadable (28), and so is one of 20 or less as the first of its line: no word
 * is empty. An empty line is no word, and is passed over.
 */

/* found: a line was read. Where it is false and nothing is refused, this is the end: no line is left. bad: for 27 the number of the label
 * file's line, for 28 the place of the byte in the text, which may be 0. The whole line, without its ending, is in the caller's own text: the
 * end - start bytes from text + start. after: the place after its ending. tiles: how many were put. */
typedef struct machirsun_typed {
    uint32_t refusal;
    bool found;
    size_t bad;
    size_t start;
    size_t end;
    size_t after;
    size_t tiles;
} machirsun_typed;

/* Reads the next line that is not empty, from a place on, and puts the tiles of its word. At a place at or past the text's end there is
 * none. A call from `after` reads the line after it. 16 means that a tile has no room; a word that just fits is read.
 *
 * Order: 27, for the first bad line of the label file, a 257th included, and also where no line is left; then 28 or 16, whichever comes first in
 * the text. After these two the tiles already put stay; the rest of the word buffer is as before, after 27 and at the end all of it. To
 * leave out the line of an unreadable byte, go on from the first 0A or 0D after it, or from the text's end. */
machirsun_typed machirsun_next_word(const uint8_t *labels, size_t labels_len, const uint8_t *text, size_t text_len, size_t at,
                                    uint8_t *word, size_t word_len);

/* found: at least one line was read. bad: as above. words: how many were read. tiles: how many tiles these have in all. after: the place
 * after the ending of the last line read. */
typedef struct machirsun_typed_list {
    uint32_t refusal;
    bool found;
    size_t bad;
    size_t words;
    size_t tiles;
    size_t after;
} machirsun_typed_list;

/* Reads line after line as machirsun_next_word does, each with what is left of tiles as its word buffer, and puts the number of tiles of
 * each word into sizes. The label file is taken once for all of them, so for many lines this is the faster call. It stops at the end, at the
 * first line for which sizes has no room (16; the line is not read), or at the first line that is refused (28, or 16 where tiles has
 * no room).
 *
 * Where a word was read, the answer is the words, with refusal 0, whatever stopped the call. The next call, from `after`, begins with the
 * line that stopped this one: with the buffers anew it may have room for it; an unreadable one is refused there. So go on from `after`, with
 * the buffers anew, as long as found is true. Where none was read, the answer is what stopped the call: the end, 16 or 28; 16 then says that
 * the buffers are too short for the next line as far as it was read; call again from the same place with longer ones. Order: 27, the end, 16
 * for sizes, then 28 or 16 as above.
 *
 * The words' tiles stand one after the other from the front of tiles, and those that a refused line had put, after them. Everything past them
 * stays, and so do the entries of sizes past the words. */
machirsun_typed_list machirsun_read_words(const uint8_t *labels, size_t labels_len, const uint8_t *text, size_t text_len, size_t at,
                                          uint8_t *tiles, size_t tiles_len, size_t *sizes, size_t sizes_len);

/* ---- Words in play ---------------------------------------------------------------------------------------------------------------
 *
 * During a round words arrive, and may leave again. Which are in play is kept in a record that the caller lends: bit n mod 8 of byte n / 8,
 * bit 0 being the lowest, stands for word number n of the start, by machirsun_word_index, and is set while that word is in play. The caller
 * makes the record empty before the first call, all bytes 0, with at least count / 8 bytes, rounded up, where count is the start's:
 * counts[start]. Start 0 is a lexicon of no words: its count is 0, and counts[0] is not read.
 *
 * Only bits below the count are read. A call that is not refused changes one of them, a refused call none; bits from the count on may be
 * anything, and stay. The record does not hold its start or its counts: lend the same to each call. With others over the same record, its bits
 * stand for the words that have those numbers there, and the answers are of those.
 */

/* found: some word is not in play, and lowest is the lowest number among those. remaining: how many they are. Where found is false and nothing
 * is refused, every word is in play. */
typedef struct machirsun_in_play {
    uint32_t refusal;
    bool found;
    uint32_t remaining;
    uint32_t lowest;
} machirsun_in_play;

/* A word arrives: sets its bit, and answers the words that are not in play after that. Order: 14 where the start's node is not lent, or its
 * count (for start 0 the node alone), whatever the word; 11; 14 or 15 as machirsun_word_index meets them; 29, from start 0 for every word; 30.
 * After any refusal the record is as before. */
machirsun_in_play machirsun_arrive(const uint32_t *nodes, size_t nodes_len, const uint32_t *counts, size_t counts_len, uint32_t start,
                                   const uint8_t *word, size_t word_len, uint8_t *bits, size_t bits_len);

/* A word leaves: clears its bit, and answers the words that are not in play after that, itself among them. Order: as above, with 31 in the
 * place of 30. After any refusal the record is as before. */
machirsun_in_play machirsun_leave(const uint32_t *nodes, size_t nodes_len, const uint32_t *counts, size_t counts_len, uint32_t start,
                                  const uint8_t *word, size_t word_len, uint8_t *bits, size_t bits_len);

/* ---- A lexicon from a word list --------------------------------------------------------------------------------------------------
 *
 * A list is bytes: for each word one length byte, 1 to 64, and that many tiles, each 1 to 63. The words ascend: they are compared tile by tile,
 * a word that begins another stands before it, and none stands twice.
 *
 * What is built is a DAWG in the loaded table's form, of which no two runs that arcs lead to have the same words. Node 0 leads to the words: its
 * arc is 2, or 0 where the list has none; node 1 leads nowhere. From node 2 on come the runs, in the order in which a walk from node 2 first
 * meets them, each run whole before those that its arcs lead to. This is how an LXD file numbers runs, so machirsun_to_lxd leaves these nodes
 * their numbers. The nodes can be lent to every other call as they are; written as four bytes each, the lowest first, they are a KBWG file.
 */

/* nodes: how many the graph has. */
typedef struct machirsun_built {
    uint32_t refusal;
    uint32_t nodes;
} machirsun_built;

/* Builds the graph of a list's words in the first nodes of the node buffer; entries past them stay. An empty list is a graph of two nodes. The
 * work list has at least 8 x list_len + 64 numbers; what is in these afterwards is free, but after 32, 33 and its own 11 it is as before. A node
 * buffer of list_len + 2 is enough for every graph that is not refused by 25. A refusal writes no node. Order: 32 and 33, of the first word in
 * the list that either is true of, 32 before 33; 11 for the work list; 25; 11 for the nodes. */
machirsun_built machirsun_build(const uint8_t *list, size_t list_len, uint32_t *work, size_t work_len, uint32_t *nodes, size_t nodes_len);

#ifdef __cplusplus
}
#endif

#endif
