/* Loads a lexicon in pieces, looks a word up, says how many words begin before its first letter, names a number, reads words as viewers type
 * them, shows the page of words from that number on, plays a short round, and looks the word up in a lexicon that it builds from a list: words FILE
 * WORD NUMBER. Its letters are A to Z, tiles 1 to 26. */
#include <stdio.h>
#include <stdlib.h>
#include <string.h>

#include "machirsun.h"

/* A piece of any length will do; this one cuts inside nodes. */
enum { PIECE = 7, LETTERS = 26, LONGEST = 64 };

/* A page of the text service. */
enum { ROWS = 24, COLUMNS = 40 };

/* What viewers typed: small letters, a letter of two bytes, an empty line, more than the word. */
static const char TYPED[] = "lexicon\r\nLÉTTER\n\ntiles of wood\n";

/* The most bytes of a label file of 53 lines here. */
enum { LABEL_FILE = 53 * 5 };

/* The words of a regional editor, in order, and the most bytes of a list of so many. */
static const char *const REGIONAL[] = {"LEXICON", "LEXICONS", "TIDE", "TIDES"};
enum { REGIONAL_WORDS = 4, REGIONAL_LIST = REGIONAL_WORDS * (1 + LONGEST) };

static int refused(const char *call, uint32_t refusal)
{
    fprintf(stderr, "%s: refusal %u\n", call, refusal);
    return 1;
}

/* Puts the tiles of a word and their number. False where there are too many, or one is no letter. */
static bool read_word(const char *word, uint8_t tiles[LONGEST], size_t *length)
{
    size_t i;

    *length = strlen(word);
    if (*length > LONGEST)
        return false;
    for (i = 0; i < *length; i++) {
        if (word[i] < 'A' || word[i] > 'Z')
            return false;
        tiles[i] = (uint8_t)(word[i] - 'A' + 1);
    }
    return true;
}

/* Reads digits and nothing else. False where there is none, or the number is over 32 bits. */
static bool read_number(const char *digits, uint32_t *number)
{
    uint64_t sum = 0;

    if (*digits == '\0')
        return false;
    for (; *digits != '\0'; digits++) {
        if (*digits < '0' || *digits > '9')
            return false;
        sum = 10 * sum + (uint64_t)(*digits - '0');
        if (sum > UINT32_MAX)
            return false;
    }
    *number = (uint32_t)sum;
    return true;
}

/* The length of a file, or -1. */
static long length_of(FILE *file)
{
    long length = -1;

    if (fseek(file, 0, SEEK_END) == 0)
        length = ftell(file);
    rewind(file);
    return length;
}

/* Feeds the file in pieces; answers the number of the refusal, or 0 and the number of nodes. */
static uint32_t load(FILE *file, size_t length, uint32_t *nodes, size_t room, size_t *count)
{
    uint8_t piece[PIECE];
    size_t got;
    machirsun_begun begun = machirsun_begin(length, MACHIRSUN_KWG, nodes, room);
    machirsun_loader loader = begun.loader;
    machirsun_finished finished;

    if (begun.refusal != 0)
        return begun.refusal;
    while ((got = fread(piece, 1, PIECE, file)) > 0) {
        machirsun_fed fed = machirsun_feed(loader, piece, got, nodes, room);
        if (fed.refusal != 0)
            return fed.refusal;
        loader = fed.loader;
    }
    finished = machirsun_finish(loader, nodes, room);
    *count = finished.nodes;
    return finished.refusal;
}

/* Looks the word up in nodes that are counted. */
static int look_up(const uint32_t *nodes, const uint32_t *counts, size_t n, const char *word, const uint8_t *tiles, size_t length)
{
    machirsun_index index = machirsun_word_index(nodes, n, counts, n, nodes[0] >> 8, tiles, length);

    if (index.refusal != 0)
        return refused("word_index", index.refusal);
    if (index.found)
        printf("%s is word %u\n", word, index.number);
    else
        printf("%s is no word\n", word);
    return 0;
}

/* Says how many words begin before a letter, in nodes that are counted. */
static int count_before(const uint32_t *nodes, const uint32_t *counts, size_t n, char letter, uint8_t tile)
{
    machirsun_sought sought = machirsun_seek(nodes, n, counts, n, 0, tile);

    if (sought.refusal != 0)
        return refused("seek", sought.refusal);
    if (sought.found)
        printf("%u words begin before %c\n", sought.before, letter);
    else
        printf("no word begins with %c\n", letter);
    return 0;
}

/* Names the number, in nodes that are counted. */
static int name(const uint32_t *nodes, const uint32_t *counts, size_t n, uint32_t number)
{
    uint8_t tiles[LONGEST];
    machirsun_word named = machirsun_word_by_index(nodes, n, counts, n, nodes[0] >> 8, number, tiles, LONGEST);
    size_t i;

    if (named.refusal != 0)
        return refused("word_by_index", named.refusal);
    if (!named.found) {
        printf("there is no word %u\n", number);
        return 0;
    }
    for (i = 0; i < named.tiles; i++) {
        if (tiles[i] < 1 || tiles[i] > LETTERS) {
            fprintf(stderr, "word %u has tile %u, which is no letter A to Z\n", number, tiles[i]);
            return 1;
        }
    }
    printf("word %u is ", number);
    for (i = 0; i < named.tiles; i++)
        putchar('A' - 1 + tiles[i]);
    putchar('\n');
    return 0;
}

/* Writes the label file, and answers its length: each letter, large and small, is its tile, and É is the tile of E. */
static size_t label_file(char file[LABEL_FILE + 1])
{
    char *end = file;
    int tile;

    for (tile = 1; tile <= LETTERS; tile++)
        end += sprintf(end, "%d\t%c\n%d\t%c\n", tile, 'A' - 1 + tile, tile, 'a' - 1 + tile);
    end += sprintf(end, "5\tÉ\n");
    return (size_t)(end - file);
}

/* Shows a line that was read, and looks its word up in nodes that are counted. */
static int show_typed(const uint32_t *nodes, const uint32_t *counts, size_t n, machirsun_typed typed, const uint8_t *tiles)
{
    machirsun_index index = machirsun_word_index(nodes, n, counts, n, nodes[0] >> 8, tiles, typed.tiles);
    size_t i;

    if (index.refusal != 0)
        return refused("word_index", index.refusal);
    printf("typed \"%.*s\": tiles", (int)(typed.end - typed.start), TYPED + typed.start);
    for (i = 0; i < typed.tiles; i++)
        printf(" %u", tiles[i]);
    if (index.found)
        printf(", word %u\n", index.number);
    else
        printf(", no word\n");
    return 0;
}

/* Reads what viewers typed, line by line. */
static int read_typed(const uint32_t *nodes, const uint32_t *counts, size_t n)
{
    char labels[LABEL_FILE + 1];
    size_t labels_len = label_file(labels), at = 0;
    uint8_t tiles[LONGEST];
    int status = 0;

    while (status == 0) {
        machirsun_typed typed = machirsun_next_word((const uint8_t *)labels, labels_len, (const uint8_t *)TYPED, sizeof TYPED - 1, at, tiles,
                                                    LONGEST);
        if (typed.refusal != 0)
            return refused("next_word", typed.refusal);
        if (!typed.found)
            break;
        status = show_typed(nodes, counts, n, typed, tiles);
        at = typed.after;
    }
    return status;
}

/* Shows the page of words from the number on, in nodes that are counted. */
static int show_page(const uint32_t *nodes, const uint32_t *counts, size_t n, uint32_t number)
{
    static const uint8_t title[] = {'W', 'O', 'R', 'D', 'S'};
    uint32_t labels[LETTERS + 1], refusal;
    uint8_t page[ROWS * COLUMNS];
    uint32_t i;

    labels[0] = '?';
    for (i = 1; i <= LETTERS; i++)
        labels[i] = 'A' - 1 + i;
    refusal = machirsun_write_page(nodes, n, counts, n, labels, LETTERS + 1, title, sizeof title, nodes[0] >> 8, number, page, sizeof page);
    if (refusal != 0)
        return refused("write_page", refusal);
    for (i = 0; i < ROWS; i++)
        printf("%.*s\n", COLUMNS, (const char *)&page[i * COLUMNS]);
    return 0;
}

/* A word arrives, or leaves, and a line says how many words are not in play then. */
static void play(const uint32_t *nodes, const uint32_t *counts, size_t n, const char *word, bool arrives, uint8_t *bits, size_t bytes)
{
    uint8_t tiles[LONGEST];
    size_t length;
    machirsun_in_play answer;

    read_word(word, tiles, &length);
    answer = (arrives ? machirsun_arrive : machirsun_leave)(nodes, n, counts, n, nodes[0] >> 8, tiles, length, bits, bytes);
    printf("%s %s: ", word, arrives ? "arrives" : "leaves");
    if (answer.refusal != 0)
        printf("refusal %u\n", answer.refusal);
    else if (answer.found)
        printf("%u words are not in play, the lowest is word %u\n", answer.remaining, answer.lowest);
    else
        printf("all words are in play\n");
}

/* A short round: the word and two others arrive, one of them again, which is refused, and then it leaves. The record has a bit for each word. */
static int play_round(const uint32_t *nodes, const uint32_t *counts, size_t n, const char *word)
{
    size_t bytes = counts[nodes[0] >> 8] / 8 + 1;
    uint8_t *bits = calloc(bytes, 1);

    if (bits == NULL) {
        fprintf(stderr, "there is no memory for %zu bytes\n", bytes);
        return 1;
    }
    play(nodes, counts, n, word, true, bits, bytes);
    play(nodes, counts, n, "CAPTION", true, bits, bytes);
    play(nodes, counts, n, "CAPTIONS", true, bits, bytes);
    play(nodes, counts, n, "CAPTION", true, bits, bytes);
    play(nodes, counts, n, "CAPTION", false, bits, bytes);
    free(bits);
    return 0;
}

/* Makes the list of the regional editor's words: of each word its length and its tiles. Answers how many bytes it has. */
static size_t regional_list(uint8_t list[REGIONAL_LIST])
{
    size_t bytes = 0, length, i;

    for (i = 0; i < REGIONAL_WORDS; i++) {
        read_word(REGIONAL[i], &list[bytes + 1], &length);
        list[bytes] = (uint8_t)length;
        bytes += 1 + length;
    }
    return bytes;
}

/* Builds a lexicon of the regional editor's words, and looks the word up in it. */
static int build_regional(const char *word, const uint8_t *tiles, size_t length)
{
    uint8_t list[REGIONAL_LIST];
    uint32_t work[8 * REGIONAL_LIST + 64], nodes[REGIONAL_LIST + 2], counts[REGIONAL_LIST + 2];
    size_t bytes = regional_list(list);
    machirsun_built built = machirsun_build(list, bytes, work, 8 * bytes + 64, nodes, bytes + 2);
    machirsun_counted counted;

    if (built.refusal != 0)
        return refused("build", built.refusal);
    counted = machirsun_count_words(nodes, built.nodes, counts, built.nodes, work, 2 * (size_t)built.nodes);
    if (counted.refusal != 0)
        return refused("count_words", counted.refusal);
    printf("a list of %u words: %u nodes\n", counts[nodes[0] >> 8], built.nodes);
    return look_up(nodes, counts, built.nodes, word, tiles, length);
}

int main(int argc, char **argv)
{
    FILE *file;
    long length;
    size_t room, n, letters;
    uint32_t *nodes, *counts, *work, refusal, number;
    uint8_t tiles[LONGEST];
    machirsun_counted counted;
    int status;

    if (argc != 4) {
        fprintf(stderr, "usage: words FILE WORD NUMBER\n");
        return 1;
    }
    if (!read_word(argv[2], tiles, &letters)) {
        fprintf(stderr, "%s is not a word of at most %d letters A to Z\n", argv[2], LONGEST);
        return 1;
    }
    if (!read_number(argv[3], &number)) {
        fprintf(stderr, "%s is not a number from 0 to 4294967295 in digits\n", argv[3]);
        return 1;
    }
    if ((file = fopen(argv[1], "rb")) == NULL || (length = length_of(file)) < 0) {
        perror(argv[1]);
        return 1;
    }
    room = length > 8 ? (size_t)length / 4 : 2;
    nodes = calloc(room, sizeof *nodes);
    counts = calloc(room, sizeof *counts);
    work = calloc(2 * room, sizeof *work);
    if (nodes == NULL || counts == NULL || work == NULL) {
        fprintf(stderr, "%s: there is no memory for %zu nodes\n", argv[1], room);
        return 1;
    }
    refusal = load(file, (size_t)length, nodes, room, &n);
    fclose(file);
    if (refusal != 0)
        return refused("load", refusal);
    counted = machirsun_count_words(nodes, n, counts, room, work, 2 * room);
    if (counted.refusal != 0)
        return refused("count_words", counted.refusal);
    printf("%zu nodes, %u words\n", n, counts[nodes[0] >> 8]);
    status = look_up(nodes, counts, n, argv[2], tiles, letters);
    if (status == 0 && letters > 0)
        status = count_before(nodes, counts, n, argv[2][0], tiles[0]);
    if (status == 0)
        status = name(nodes, counts, n, number);
    if (status == 0)
        status = read_typed(nodes, counts, n);
    if (status == 0)
        status = show_page(nodes, counts, n, number);
    if (status == 0)
        status = play_round(nodes, counts, n, argv[2]);
    if (status == 0)
        status = build_regional(argv[2], tiles, letters);
    free(nodes);
    free(counts);
    free(work);
    return status;
}
