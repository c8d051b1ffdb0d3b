/* Calls every function of machirsun.h from C: on document 01's five nodes, and on input that each has to refuse. Every field of every answer
 * is compared, and every entry of a lent buffer, those past what the call may write included. */
#include <stdio.h>
#include <string.h>

#include "machirsun.h"

/* ---- The layout of the structs: of each field where it begins and how many bytes it has, of each struct how many it has ------------ */

#define FIELD(type, field, begins, bytes) \
    _Static_assert(offsetof(type, field) == (begins) && sizeof(((type *)0)->field) == (bytes), #type "." #field)
#define WHOLE(type, bytes) _Static_assert(sizeof(type) == (bytes) && _Alignof(type) <= 8, #type)

_Static_assert(sizeof(size_t) == 8 && sizeof(void *) == 8 && sizeof(bool) == 1, "x86-64");

FIELD(machirsun_loader, announced, 0, 8);
FIELD(machirsun_loader, taken, 8, 8);
FIELD(machirsun_loader, held_count, 16, 8);
FIELD(machirsun_loader, node, 24, 8);
FIELD(machirsun_loader, layout, 32, 4);
FIELD(machirsun_loader, refusal, 36, 4);
FIELD(machirsun_loader, arc, 40, 4);
FIELD(machirsun_loader, tile, 44, 1);
FIELD(machirsun_loader, held, 45, 3);
WHOLE(machirsun_loader, 48);

FIELD(machirsun_begun, refusal, 0, 4);
FIELD(machirsun_begun, loader, 8, 48);
WHOLE(machirsun_begun, 56);

FIELD(machirsun_fed, refusal, 0, 4);
FIELD(machirsun_fed, arc, 4, 4);
FIELD(machirsun_fed, node, 8, 8);
FIELD(machirsun_fed, tile, 16, 1);
FIELD(machirsun_fed, loader, 24, 48);
WHOLE(machirsun_fed, 72);

FIELD(machirsun_finished, refusal, 0, 4);
FIELD(machirsun_finished, arc, 4, 4);
FIELD(machirsun_finished, nodes, 8, 8);
FIELD(machirsun_finished, node, 16, 8);
FIELD(machirsun_finished, tile, 24, 1);
WHOLE(machirsun_finished, 32);

FIELD(machirsun_loaded, begun, 0, 4);
FIELD(machirsun_loaded, loader, 8, 48);
FIELD(machirsun_loaded, finished, 56, 32);
WHOLE(machirsun_loaded, 88);

FIELD(machirsun_repacked, refusal, 0, 4);
FIELD(machirsun_repacked, arc, 4, 4);
FIELD(machirsun_repacked, node, 8, 8);
FIELD(machirsun_repacked, tile, 16, 1);
WHOLE(machirsun_repacked, 24);

FIELD(machirsun_counted, refusal, 0, 4);
FIELD(machirsun_counted, arc, 4, 4);
FIELD(machirsun_counted, node, 8, 4);
WHOLE(machirsun_counted, 12);

FIELD(machirsun_sought, refusal, 0, 4);
FIELD(machirsun_sought, found, 4, 1);
FIELD(machirsun_sought, place, 8, 4);
FIELD(machirsun_sought, before, 12, 4);
WHOLE(machirsun_sought, 16);

FIELD(machirsun_cursor, refusal, 0, 4);
FIELD(machirsun_cursor, done, 4, 1);
FIELD(machirsun_cursor, at, 8, 4);
WHOLE(machirsun_cursor, 12);

FIELD(machirsun_index, refusal, 0, 4);
FIELD(machirsun_index, found, 4, 1);
FIELD(machirsun_index, number, 8, 4);
WHOLE(machirsun_index, 12);

FIELD(machirsun_word, refusal, 0, 4);
FIELD(machirsun_word, found, 4, 1);
FIELD(machirsun_word, tiles, 8, 8);
WHOLE(machirsun_word, 16);

FIELD(machirsun_accepts, refusal, 0, 4);
FIELD(machirsun_accepts, accepts, 4, 1);
WHOLE(machirsun_accepts, 8);

FIELD(machirsun_cross_set, refusal, 0, 4);
FIELD(machirsun_cross_set, tiles, 8, 8);
WHOLE(machirsun_cross_set, 16);

FIELD(machirsun_file, refusal, 0, 4);
FIELD(machirsun_file, arc, 4, 4);
FIELD(machirsun_file, written, 8, 8);
WHOLE(machirsun_file, 16);

FIELD(machirsun_typed, refusal, 0, 4);
FIELD(machirsun_typed, found, 4, 1);
FIELD(machirsun_typed, bad, 8, 8);
FIELD(machirsun_typed, start, 16, 8);
FIELD(machirsun_typed, end, 24, 8);
FIELD(machirsun_typed, after, 32, 8);
FIELD(machirsun_typed, tiles, 40, 8);
WHOLE(machirsun_typed, 48);

FIELD(machirsun_typed_list, refusal, 0, 4);
FIELD(machirsun_typed_list, found, 4, 1);
FIELD(machirsun_typed_list, bad, 8, 8);
FIELD(machirsun_typed_list, words, 16, 8);
FIELD(machirsun_typed_list, tiles, 24, 8);
FIELD(machirsun_typed_list, after, 32, 8);
WHOLE(machirsun_typed_list, 40);

FIELD(machirsun_in_play, refusal, 0, 4);
FIELD(machirsun_in_play, found, 4, 1);
FIELD(machirsun_in_play, remaining, 8, 4);
FIELD(machirsun_in_play, lowest, 12, 4);
WHOLE(machirsun_in_play, 16);

FIELD(machirsun_built, refusal, 0, 4);
FIELD(machirsun_built, nodes, 4, 4);
WHOLE(machirsun_built, 8);

/* ---- What is compared ------------------------------------------------------------------------------------------------------------ */

static unsigned compared, differences;

static void compare(bool same, const char *text, int line)
{
    compared++;
    if (!same) {
        differences++;
        fprintf(stderr, "calls.c:%d: not so: %s\n", line, text);
    }
}

#define SAME(condition) compare(condition, #condition, __LINE__)
#define SAME_LIST(list, ...) compare(same_bytes(list, sizeof(list), __VA_ARGS__, sizeof(__VA_ARGS__)), #list, __LINE__)
#define LENGTH(list) (sizeof(list) / sizeof((list)[0]))
#define LENT(list) list, LENGTH(list)

static bool same_bytes(const void *list, size_t bytes, const void *expected, size_t expected_bytes)
{
    return bytes == expected_bytes && memcmp(list, expected, bytes) == 0;
}

/* The five nodes as a KWG file, and loaded. */
static const uint8_t FILE_OF_G[20] = {2, 0, 0x40, 0, 0, 0, 0x40, 0, 4, 0, 0x80, 1, 4, 0, 0x40, 2, 0, 0, 0xC0, 2};
static const uint32_t G[5] = {0x240, 0x40, 0x481, 0x442, 0xC2};
static const uint32_t COUNTS_OF_G[5] = {3, 0, 3, 1, 1};
static const uint32_t LABELS[3] = {'?', 'A', 'B'};

/* KWG: node 0 fits, node 1 has tile 64 and arc 3. */
static const uint8_t TILE_64[8] = {0, 0, 0x40, 0, 3, 0, 0x40, 0x40};

/* Graphs that several calls refuse: arc 5 of 2 nodes, a last node that is no end, node 1 from itself, a run from itself. Of five nodes, 1
 * and 3 lead to loops and do not loop; nodes 2 and 4 do, each by itself. */
static const uint32_t ARC_5[2] = {0x40, 0x540};
static const uint32_t NO_END[2] = {0x40, 0};
static const uint32_t NODE_1_LOOPS[2] = {0x40, 0x140};
static const uint32_t NODE_2_LOOPS[3] = {0x240, 0x40, 0x2C1};
static const uint32_t NODES_2_AND_4_LOOP[5] = {0x40, 0x440, 0x240, 0x440, 0x440};

/* ---- Loading ---------------------------------------------------------------------------------------------------------------------- */

static void same_loader(const char *name, int line, machirsun_loader loader, machirsun_loader expected)
{
    compare(loader.announced == expected.announced && loader.taken == expected.taken && loader.held_count == expected.held_count &&
                loader.node == expected.node && loader.layout == expected.layout && loader.refusal == expected.refusal &&
                loader.arc == expected.arc && loader.tile == expected.tile && memcmp(loader.held, expected.held, 3) == 0,
            name, line);
}

static void same_finished(const char *name, int line, machirsun_finished finished, machirsun_finished expected)
{
    compare(finished.refusal == expected.refusal && finished.arc == expected.arc && finished.nodes == expected.nodes &&
                finished.node == expected.node && finished.tile == expected.tile,
            name, line);
}

/* The fields that are not named are 0. */
#define SAME_LOADER(loader, ...) same_loader(#loader, __LINE__, loader, (machirsun_loader){__VA_ARGS__})
#define SAME_FINISHED(finished, ...) same_finished(#finished, __LINE__, finished, (machirsun_finished){__VA_ARGS__})

static void begins(void)
{
    uint32_t nodes[6] = {7, 7, 7, 7, 7, 7};
    machirsun_begun begun;

    begun = machirsun_begin(20, MACHIRSUN_KWG, LENT(nodes));
    SAME(begun.refusal == 0);
    SAME_LOADER(begun.loader, .announced = 20);
    begun = machirsun_begin(8, MACHIRSUN_KBWG, nodes, 2);
    SAME(begun.refusal == 0);
    SAME_LOADER(begun.loader, .announced = 8, .layout = MACHIRSUN_KBWG);

    begun = machirsun_begin(0, MACHIRSUN_KBWG, LENT(nodes));
    SAME(begun.refusal == MACHIRSUN_NOT_WHOLE_NODES);
    SAME_LOADER(begun.loader, .layout = MACHIRSUN_KBWG);
    SAME(machirsun_feed(begun.loader, FILE_OF_G, 1, LENT(nodes)).refusal == MACHIRSUN_BAD_STATE);
    SAME(machirsun_finish(begun.loader, LENT(nodes)).refusal == MACHIRSUN_BAD_STATE);
    SAME(machirsun_begin(7, MACHIRSUN_KWG, LENT(nodes)).refusal == MACHIRSUN_NOT_WHOLE_NODES);
    SAME(machirsun_begin(67108868, MACHIRSUN_KWG, LENT(nodes)).refusal == MACHIRSUN_OVER_LIMIT);
    SAME(machirsun_begin((size_t)1 << 63, MACHIRSUN_KWG, LENT(nodes)).refusal == MACHIRSUN_OVER_LIMIT);
    SAME(machirsun_begin(67108864, MACHIRSUN_KWG, LENT(nodes)).refusal == MACHIRSUN_NODES_TOO_SHORT);
    SAME(machirsun_begin(28, MACHIRSUN_KWG, LENT(nodes)).refusal == MACHIRSUN_NODES_TOO_SHORT);
    SAME(machirsun_begin(4, MACHIRSUN_KWG, nodes, 1).refusal == MACHIRSUN_NODES_TOO_SHORT);
    SAME_LIST(nodes, (uint32_t[]){7, 7, 7, 7, 7, 7});
}

/* A file that comes in two pieces, cut inside a node. */
static void feeds_and_finishes(void)
{
    uint32_t nodes[6] = {7, 7, 7, 7, 7, 7};
    machirsun_loader loader = machirsun_begin(20, MACHIRSUN_KWG, LENT(nodes)).loader;
    machirsun_fed fed;
    machirsun_finished finished;

    fed = machirsun_feed(loader, FILE_OF_G, 7, LENT(nodes));
    SAME(fed.refusal == 0 && fed.arc == 0 && fed.node == 0 && fed.tile == 0);
    SAME_LOADER(fed.loader, .announced = 20, .taken = 7, .held_count = 3, .held = {0, 0, 0x40});
    SAME_LIST(nodes, (uint32_t[]){0x240, 7, 7, 7, 7, 7});
    loader = fed.loader;

    fed = machirsun_feed(loader, FILE_OF_G, 14, LENT(nodes));
    SAME(fed.refusal == MACHIRSUN_TOO_LONG && fed.arc == 0 && fed.node == 0 && fed.tile == 0);
    SAME_LOADER(fed.loader, .announced = 20, .taken = 7, .held_count = 3, .held = {0, 0, 0x40});
    finished = machirsun_finish(loader, LENT(nodes));
    SAME_FINISHED(finished, .refusal = MACHIRSUN_MISSING);
    SAME_LIST(nodes, (uint32_t[]){0x240, 7, 7, 7, 7, 7});

    fed = machirsun_feed(loader, FILE_OF_G + 7, 13, LENT(nodes));
    SAME(fed.refusal == 0 && fed.arc == 0 && fed.node == 0 && fed.tile == 0);
    SAME_LOADER(fed.loader, .announced = 20, .taken = 20);
    finished = machirsun_finish(fed.loader, LENT(nodes));
    SAME_FINISHED(finished, .nodes = 5);
    SAME_LIST(nodes, (uint32_t[]){0x240, 0x40, 0x481, 0x442, 0xC2, 7});
}

/* A node that does not fit stops the load, and each later call repeats it. */
static void keeps_a_refusal(void)
{
    uint32_t nodes[3] = {7, 7, 7};
    machirsun_loader loader = machirsun_begin(8, MACHIRSUN_KWG, LENT(nodes)).loader;
    machirsun_fed fed = machirsun_feed(loader, LENT(TILE_64), LENT(nodes));
    machirsun_finished finished;

    SAME(fed.refusal == MACHIRSUN_DOES_NOT_FIT && fed.arc == 3 && fed.node == 1 && fed.tile == 64);
    SAME_LOADER(fed.loader, .announced = 8, .taken = 4, .node = 1, .refusal = MACHIRSUN_DOES_NOT_FIT, .arc = 3, .tile = 64);
    SAME_LIST(nodes, (uint32_t[]){0x40, 7, 7});
    fed = machirsun_feed(fed.loader, TILE_64, 0, LENT(nodes));
    SAME(fed.refusal == MACHIRSUN_DOES_NOT_FIT && fed.arc == 3 && fed.node == 1 && fed.tile == 64);
    SAME_LOADER(fed.loader, .announced = 8, .taken = 4, .node = 1, .refusal = MACHIRSUN_DOES_NOT_FIT, .arc = 3, .tile = 64);
    finished = machirsun_finish(fed.loader, LENT(nodes));
    SAME_FINISHED(finished, .refusal = MACHIRSUN_DOES_NOT_FIT, .arc = 3, .node = 1, .tile = 64);
    SAME_LIST(nodes, (uint32_t[]){0x40, 7, 7});
}

/* Each field of a state that no load has, alone. */
static void refuses_states(void)
{
    uint32_t nodes[3] = {7, 7, 7};
    machirsun_loader sound = machirsun_begin(8, MACHIRSUN_KWG, LENT(nodes)).loader;
    machirsun_loader bad[6] = {sound, sound, sound, sound, sound, sound};
    size_t i;

    bad[0].announced = 16;
    bad[1].taken = 9;
    bad[2].held_count = 1;
    bad[3].held[0] = 1;
    bad[4].held[1] = 1;
    bad[5].held[2] = 1;
    for (i = 0; i < LENGTH(bad); i++) {
        machirsun_fed fed = machirsun_feed(bad[i], LENT(TILE_64), LENT(nodes));
        SAME(fed.refusal == MACHIRSUN_BAD_STATE && fed.arc == 0 && fed.node == 0 && fed.tile == 0);
        same_loader("a refused state stays", __LINE__, fed.loader, bad[i]);
        SAME(machirsun_finish(bad[i], LENT(nodes)).refusal == MACHIRSUN_BAD_STATE);
    }
    SAME_LIST(nodes, (uint32_t[]){7, 7, 7});
}

static machirsun_finished finish_of(const uint8_t *file, size_t file_len, uint32_t layout, uint32_t *nodes, size_t nodes_len)
{
    machirsun_loader loader = machirsun_begin(file_len, layout, nodes, nodes_len).loader;
    return machirsun_finish(machirsun_feed(loader, file, file_len, nodes, nodes_len).loader, nodes, nodes_len);
}

static void judges_nodes(void)
{
    static const uint8_t one[4] = {0, 0, 0x40, 0}, tile_63[4] = {0, 0, 0x40, 0x3F};
    static const uint8_t arc_2[8] = {0, 0, 0x40, 0, 2, 0, 0x40, 0}, no_end[8] = {0, 0, 0x40, 0, 0, 0, 0, 0};
    static const uint8_t kbwg[8] = {0x40, 1, 0, 0, 0xC3, 0, 0, 0};
    uint32_t nodes[3] = {7, 7, 7};

    SAME_FINISHED(finish_of(LENT(one), MACHIRSUN_KWG, LENT(nodes)), .nodes = 2);
    SAME_LIST(nodes, (uint32_t[]){0x40, 0x40, 7});
    SAME_FINISHED(finish_of(LENT(tile_63), MACHIRSUN_KWG, LENT(nodes)), .nodes = 2);
    SAME_LIST(nodes, (uint32_t[]){0x7F, 0x7F, 7});
    SAME_FINISHED(finish_of(LENT(kbwg), MACHIRSUN_KBWG, LENT(nodes)), .nodes = 2);
    SAME_LIST(nodes, (uint32_t[]){0x140, 0xC3, 7});
    SAME_FINISHED(finish_of(LENT(arc_2), MACHIRSUN_KWG, LENT(nodes)), .refusal = MACHIRSUN_ARC_PAST_END, .arc = 2);
    SAME_FINISHED(finish_of(LENT(no_end), MACHIRSUN_KWG, LENT(nodes)), .refusal = MACHIRSUN_NO_END);
}

static void loads_in_pieces(void)
{
    static const uint32_t cuts[3] = {7, 0, 6}, cut_5[1] = {5}, cut_6[1] = {6};
    uint32_t nodes[6] = {7, 7, 7, 7, 7, 7}, answers[5] = {9, 9, 9, 9, 9};
    machirsun_loaded loaded;

    loaded = machirsun_load_in_pieces(20, MACHIRSUN_KWG, LENT(FILE_OF_G), LENT(cuts), LENT(answers), LENT(nodes));
    SAME(loaded.begun == 0);
    SAME_LOADER(loaded.loader, .announced = 20, .taken = 20);
    SAME_FINISHED(loaded.finished, .nodes = 5);
    SAME_LIST(answers, (uint32_t[]){0, 0, 0, 0, 9});
    SAME_LIST(nodes, (uint32_t[]){0x240, 0x40, 0x481, 0x442, 0xC2, 7});

    /* A node that does not fit, from the second piece on. */
    loaded = machirsun_load_in_pieces(8, MACHIRSUN_KWG, LENT(TILE_64), LENT(cut_5), LENT(answers), LENT(nodes));
    SAME(loaded.begun == 0);
    SAME_LOADER(loaded.loader, .announced = 8, .taken = 4, .node = 1, .refusal = MACHIRSUN_DOES_NOT_FIT, .arc = 3, .tile = 64);
    SAME_FINISHED(loaded.finished, .refusal = MACHIRSUN_DOES_NOT_FIT, .arc = 3, .node = 1, .tile = 64);
    SAME_LIST(answers, (uint32_t[]){0, MACHIRSUN_DOES_NOT_FIT, 0, 0, 9});
    SAME_LIST(nodes, (uint32_t[]){0x40, 0x40, 0x481, 0x442, 0xC2, 7});

    /* The first piece is too long, and left out. Only one answer has room. */
    loaded = machirsun_load_in_pieces(4, MACHIRSUN_KWG, LENT(TILE_64), LENT(cut_6), answers, 1, LENT(nodes));
    SAME(loaded.begun == 0);
    SAME_LOADER(loaded.loader, .announced = 4, .taken = 2, .held_count = 2, .held = {0x40, 0x40, 0});
    SAME_FINISHED(loaded.finished, .refusal = MACHIRSUN_MISSING);
    SAME_LIST(answers, (uint32_t[]){MACHIRSUN_TOO_LONG, MACHIRSUN_DOES_NOT_FIT, 0, 0, 9});

    loaded = machirsun_load_in_pieces(19, MACHIRSUN_KBWG, LENT(FILE_OF_G), LENT(cuts), LENT(answers), LENT(nodes));
    SAME(loaded.begun == MACHIRSUN_NOT_WHOLE_NODES);
    SAME_LOADER(loaded.loader, .layout = MACHIRSUN_KBWG);
    SAME_FINISHED(loaded.finished, .refusal = MACHIRSUN_BAD_STATE);
    SAME_LIST(answers, (uint32_t[]){4, 4, 4, 4, 9});
    SAME_LIST(nodes, (uint32_t[]){0x40, 0x40, 0x481, 0x442, 0xC2, 7});
}

static void repacks(void)
{
    uint8_t bytes[11] = {4, 0, 0x80, 1, 4, 0, 0x40, 2, 9, 8, 7};
    uint8_t wide[8] = {0, 0, 0x40, 1, 3, 0, 0x40, 0x40};
    uint8_t far[8] = {0xC1, 0, 0, 0, 5, 1, 0, 0x40};
    machirsun_repacked repacked = machirsun_repack(LENT(bytes), MACHIRSUN_KWG, MACHIRSUN_KBWG);

    SAME(repacked.refusal == 0 && repacked.arc == 0 && repacked.node == 0 && repacked.tile == 0);
    SAME_LIST(bytes, (uint8_t[]){0x81, 4, 0, 0, 0x42, 4, 0, 0, 9, 8, 7});
    SAME(machirsun_repack(LENT(bytes), MACHIRSUN_KBWG, MACHIRSUN_KWG).refusal == 0);
    SAME_LIST(bytes, (uint8_t[]){4, 0, 0x80, 1, 4, 0, 0x40, 2, 9, 8, 7});
    repacked = machirsun_repack(LENT(wide), MACHIRSUN_KWG, MACHIRSUN_KBWG);
    SAME(repacked.refusal == MACHIRSUN_DOES_NOT_FIT && repacked.arc == 3 && repacked.node == 1 && repacked.tile == 64);
    SAME_LIST(wide, (uint8_t[]){0x41, 0, 0, 0, 3, 0, 0x40, 0x40});
    repacked = machirsun_repack(LENT(far), MACHIRSUN_KBWG, MACHIRSUN_KWG);
    SAME(repacked.refusal == MACHIRSUN_DOES_NOT_FIT && repacked.arc == 0x400001 && repacked.node == 1 && repacked.tile == 5);
    SAME_LIST(far, (uint8_t[]){0, 0, 0xC0, 1, 5, 1, 0, 0x40});
}

/* ---- Counting --------------------------------------------------------------------------------------------------------------------- */

static void counts_words(void)
{
    uint32_t counts[6] = {7, 7, 7, 7, 7, 7}, work[11] = {0}, many[35], many_counts[35], many_work[70];
    machirsun_counted counted;
    uint32_t i;

    work[10] = 7;
    counted = machirsun_count_words(LENT(G), LENT(counts), LENT(work));
    SAME(counted.refusal == 0 && counted.arc == 0 && counted.node == 0);
    SAME_LIST(counts, (uint32_t[]){3, 0, 3, 1, 1, 7});
    SAME(work[10] == 7);

    SAME(machirsun_count_words(G, 1, LENT(counts), LENT(work)).refusal == MACHIRSUN_WRONG_SIZE);
    counted = machirsun_count_words(LENT(ARC_5), LENT(counts), LENT(work));
    SAME(counted.refusal == MACHIRSUN_ARC_PAST_END && counted.arc == 5 && counted.node == 0);
    SAME(machirsun_count_words(LENT(NO_END), LENT(counts), LENT(work)).refusal == MACHIRSUN_NO_END);
    SAME(machirsun_count_words(LENT(G), counts, 4, LENT(work)).refusal == MACHIRSUN_LIST_TOO_SHORT);
    SAME(machirsun_count_words(LENT(G), LENT(counts), work, 9).refusal == MACHIRSUN_LIST_TOO_SHORT);
    SAME_LIST(counts, (uint32_t[]){3, 0, 3, 1, 1, 7});
    counted = machirsun_count_words(LENT(NODE_1_LOOPS), LENT(counts), LENT(work));
    SAME(counted.refusal == MACHIRSUN_LOOPS && counted.arc == 0 && counted.node == 1);
    SAME_LIST(counts, (uint32_t[]){0, 0, 3, 1, 1, 7});
    counted = machirsun_count_words(LENT(NODES_2_AND_4_LOOP), LENT(counts), LENT(work));
    SAME(counted.refusal == MACHIRSUN_LOOPS && counted.arc == 0 && counted.node == 2);
    SAME_LIST(counts, (uint32_t[]){0, 0, 0, 0, 0, 7});
    SAME(work[10] == 7);

    /* Each node accepts, and its arc and its run lead to the next: node 2 has over 2^32 words. */
    many[0] = many[1] = 0x40;
    for (i = 2; i < 34; i++)
        many[i] = (i + 1) << 8 | 0x81;
    many[34] = 0xC1;
    counted = machirsun_count_words(LENT(many), LENT(many_counts), LENT(many_work));
    SAME(counted.refusal == MACHIRSUN_TOO_MANY_WORDS && counted.arc == 0 && counted.node == 0);
    for (i = 0; i < 35; i++)
        SAME(many_counts[i] == 0);
}

/* ---- Lookups ---------------------------------------------------------------------------------------------------------------------- */

static void seeks(void)
{
    static const uint32_t foreign[5] = {0, 0, 0, 1, 1};
    machirsun_sought sought;

    sought = machirsun_seek(LENT(G), LENT(COUNTS_OF_G), 0, 1);
    SAME(sought.refusal == 0 && sought.found && sought.place == 2 && sought.before == 0);
    sought = machirsun_seek(LENT(G), LENT(COUNTS_OF_G), 0, 2);
    SAME(sought.refusal == 0 && sought.found && sought.place == 3 && sought.before == 2);
    sought = machirsun_seek(LENT(G), LENT(COUNTS_OF_G), 0, 3);
    SAME(sought.refusal == 0 && !sought.found && sought.place == 0 && sought.before == 0);
    sought = machirsun_seek(LENT(G), LENT(COUNTS_OF_G), 4, 1);
    SAME(sought.refusal == 0 && !sought.found && sought.place == 0 && sought.before == 0);
    sought = machirsun_seek(LENT(G), LENT(COUNTS_OF_G), 5, 1);
    SAME(sought.refusal == MACHIRSUN_NOT_LENT && !sought.found && sought.place == 0 && sought.before == 0);
    sought = machirsun_seek(G, 3, LENT(COUNTS_OF_G), 0, 2);
    SAME(sought.refusal == MACHIRSUN_NOT_LENT && !sought.found && sought.place == 0 && sought.before == 0);
    /* The count of the node found is not lent; for a tile that is not found none is read. */
    sought = machirsun_seek(LENT(G), COUNTS_OF_G, 3, 0, 2);
    SAME(sought.refusal == MACHIRSUN_NOT_LENT && !sought.found && sought.place == 0 && sought.before == 0);
    sought = machirsun_seek(LENT(G), COUNTS_OF_G, 0, 0, 3);
    SAME(sought.refusal == 0 && !sought.found && sought.place == 0 && sought.before == 0);
    sought = machirsun_seek(LENT(G), LENT(foreign), 0, 2);
    SAME(sought.refusal == MACHIRSUN_OUT_OF_RANGE && !sought.found && sought.place == 0 && sought.before == 0);
}

static void steps(void)
{
    machirsun_cursor cursor = machirsun_cursor_at(LENT(G), 2);

    SAME(cursor.refusal == 0 && !cursor.done && cursor.at == 2);
    cursor = machirsun_cursor_step(LENT(G), cursor.at);
    SAME(cursor.refusal == 0 && !cursor.done && cursor.at == 3);
    cursor = machirsun_cursor_step(LENT(G), cursor.at);
    SAME(cursor.refusal == 0 && cursor.done && cursor.at == 3);
    cursor = machirsun_cursor_step(G, 3, 2);
    SAME(cursor.refusal == MACHIRSUN_NOT_LENT && !cursor.done && cursor.at == 2);
    cursor = machirsun_cursor_at(LENT(G), 5);
    SAME(cursor.refusal == MACHIRSUN_NOT_LENT && !cursor.done && cursor.at == 5);
    cursor = machirsun_cursor_step(LENT(G), 4294967295);
    SAME(cursor.refusal == MACHIRSUN_NOT_LENT && !cursor.done && cursor.at == 4294967295);
}

static machirsun_index index_of(const uint32_t *counts, size_t counts_len, uint32_t start, const uint8_t *word, size_t word_len)
{
    return machirsun_word_index(LENT(G), counts, counts_len, start, word, word_len);
}

static void numbers_words(void)
{
    static const uint8_t a[1] = {1}, ab[2] = {1, 2}, ai[2] = {1, 9}, b[1] = {2}, bb[2] = {2, 2};
    static const uint32_t foreign[5] = {0, 0, 0, 1, 1}, large[5] = {3, 0, 3, 1, 4294967295};
    machirsun_index index;

    SAME(index_of(LENT(COUNTS_OF_G), 2, LENT(a)).found);
    index = index_of(LENT(COUNTS_OF_G), 2, LENT(ab));
    SAME(index.refusal == 0 && index.found && index.number == 1);
    index = index_of(LENT(COUNTS_OF_G), 2, LENT(bb));
    SAME(index.refusal == 0 && index.found && index.number == 2);
    index = index_of(LENT(COUNTS_OF_G), 2, LENT(b));
    SAME(index.refusal == 0 && !index.found && index.number == 0);
    SAME(!index_of(LENT(COUNTS_OF_G), 2, a, 0).found);
    SAME(!index_of(LENT(COUNTS_OF_G), 0, LENT(a)).found);
    index = index_of(COUNTS_OF_G, 2, 2, LENT(a));
    SAME(index.refusal == MACHIRSUN_NOT_LENT && !index.found && index.number == 0);
    index = index_of(LENT(foreign), 2, LENT(bb));
    SAME(index.refusal == MACHIRSUN_OUT_OF_RANGE && !index.found && index.number == 0);
    /* A further tile's run counts by the words before the tile alone, and where it is not found by none. */
    index = index_of(LENT(large), 2, LENT(ab));
    SAME(index.refusal == 0 && index.found && index.number == 1);
    index = index_of(COUNTS_OF_G, 3, 2, LENT(ai));
    SAME(index.refusal == 0 && !index.found && index.number == 0);
}

static void names_numbers(void)
{
    static const uint32_t foreign[5] = {0, 0, 0, 1, 1};
    uint8_t word[3] = {9, 9, 9};
    machirsun_word named;

    named = machirsun_word_by_index(LENT(G), LENT(COUNTS_OF_G), 2, 0, LENT(word));
    SAME(named.refusal == 0 && named.found && named.tiles == 1);
    SAME_LIST(word, (uint8_t[]){1, 9, 9});
    named = machirsun_word_by_index(LENT(G), LENT(COUNTS_OF_G), 2, 2, LENT(word));
    SAME(named.refusal == 0 && named.found && named.tiles == 2);
    SAME_LIST(word, (uint8_t[]){2, 2, 9});
    named = machirsun_word_by_index(LENT(G), LENT(COUNTS_OF_G), 2, 3, LENT(word));
    SAME(named.refusal == 0 && !named.found && named.tiles == 0);
    SAME_LIST(word, (uint8_t[]){2, 2, 9});
    named = machirsun_word_by_index(LENT(G), LENT(COUNTS_OF_G), 2, 1, word, 1);
    SAME(named.refusal == MACHIRSUN_BUFFER_FULL && !named.found && named.tiles == 0);
    SAME_LIST(word, (uint8_t[]){1, 2, 9});
    named = machirsun_word_by_index(LENT(G), LENT(COUNTS_OF_G), 5, 0, LENT(word));
    SAME(named.refusal == MACHIRSUN_NOT_LENT && !named.found && named.tiles == 0);
    named = machirsun_word_by_index(LENT(G), LENT(foreign), 2, 1, LENT(word));
    SAME(named.refusal == MACHIRSUN_OUT_OF_RANGE && !named.found && named.tiles == 0);
    SAME_LIST(word, (uint8_t[]){1, 2, 9});
}

/* ---- Letter and alpha sets -------------------------------------------------------------------------------------------------------- */

static void writes_letter_bits(void)
{
    static const uint32_t tile_63[1] = {0xFF};
    uint64_t letters[6] = {9, 9, 9, 9, 9, 9}, accepting[6] = {9, 9, 9, 9, 9, 9};

    SAME(machirsun_letter_bits(LENT(G), letters, 4, LENT(accepting)) == MACHIRSUN_LIST_TOO_SHORT);
    SAME(machirsun_letter_bits(LENT(G), LENT(letters), accepting, 4) == MACHIRSUN_LIST_TOO_SHORT);
    SAME_LIST(letters, (uint64_t[]){9, 9, 9, 9, 9, 9});
    SAME_LIST(accepting, (uint64_t[]){9, 9, 9, 9, 9, 9});
    SAME(machirsun_letter_bits(LENT(G), LENT(letters), LENT(accepting)) == 0);
    SAME_LIST(letters, (uint64_t[]){1, 1, 6, 4, 4, 9});
    SAME_LIST(accepting, (uint64_t[]){0, 0, 2, 0, 4, 9});
    SAME(machirsun_letter_bits(LENT(tile_63), LENT(letters), LENT(accepting)) == 0);
    SAME(letters[0] == (uint64_t)1 << 63 && accepting[0] == (uint64_t)1 << 63);
}

static void alpha_sets(void)
{
    static const uint8_t one_a[2] = {0, 1}, one_b[3] = {0, 0, 1}, a_and_b[3] = {0, 1, 1}, over_64[65] = {0};
    static const uint32_t tile_63[3] = {0x240, 0x40, 0xFF};
    machirsun_accepts accepts;
    machirsun_cross_set set;

    accepts = machirsun_accepts_alpha(LENT(G), LENT(a_and_b));
    SAME(accepts.refusal == 0 && accepts.accepts);
    SAME(machirsun_accepts_alpha(LENT(G), LENT(one_a)).accepts);
    accepts = machirsun_accepts_alpha(LENT(G), LENT(one_b));
    SAME(accepts.refusal == 0 && !accepts.accepts);
    accepts = machirsun_accepts_alpha(LENT(G), LENT(over_64));
    SAME(accepts.refusal == MACHIRSUN_TALLY_TOO_LONG && !accepts.accepts);
    accepts = machirsun_accepts_alpha(G, 0, LENT(one_a));
    SAME(accepts.refusal == MACHIRSUN_NOT_LENT && !accepts.accepts);

    set = machirsun_alpha_cross_set(LENT(G), LENT(one_a));
    SAME(set.refusal == 0 && set.tiles == 5);
    set = machirsun_alpha_cross_set(LENT(G), LENT(one_b));
    SAME(set.refusal == 0 && set.tiles == 7);
    set = machirsun_alpha_cross_set(LENT(tile_63), one_a, 0);
    SAME(set.refusal == 0 && set.tiles == ((uint64_t)1 << 63 | 1));
    set = machirsun_alpha_cross_set(LENT(G), LENT(over_64));
    SAME(set.refusal == MACHIRSUN_TALLY_TOO_LONG && set.tiles == 0);
    set = machirsun_alpha_cross_set(G, 0, LENT(one_a));
    SAME(set.refusal == MACHIRSUN_NOT_LENT && set.tiles == 0);
}

/* ---- Files for other programs ----------------------------------------------------------------------------------------------------- */

static uint32_t work[41];
static uint8_t file[100];

static void blank_file(void)
{
    memset(file, 0xEE, sizeof file);
}

static bool file_is(const uint8_t *expected, size_t length)
{
    size_t i;

    if (memcmp(file, expected, length) != 0)
        return false;
    for (i = length; i < sizeof file; i++)
        if (file[i] != 0xEE)
            return false;
    return true;
}

static void same_file(int line, machirsun_file answer, uint32_t refusal, uint32_t arc)
{
    compare(answer.refusal == refusal && answer.arc == arc && answer.written == 0 && file_is(file, 0), "a refused file", line);
}

#define REFUSED(answer, refusal, arc) same_file(__LINE__, answer, refusal, arc)

static machirsun_file macondo(const uint32_t *nodes, size_t nodes_len, const uint32_t *labels, size_t labels_len, size_t name_len,
                              size_t work_len, size_t file_len)
{
    static const uint8_t name[256] = {'G'};

    blank_file();
    return machirsun_to_macondo(nodes, nodes_len, labels, labels_len, name, name_len, MACHIRSUN_DAWG, work, work_len, file, file_len);
}

static void writes_macondo(void)
{
    static const uint8_t expected[58] = {'c', 'd', 'w', 'g', 1, 'G', 0, 0, 0, 2, 0, 0, 0, 'A', 0, 0, 0, 'B', 0, 0,
                                         0, 2, 0, 0, 0, 0, 0, 0, 0, 1, 0, 0, 0, 0, 0, 0, 0, 2, 0, 0,
                                         0, 4, 2, 0, 0, 0, 0, 0, 0, 3, 1, 0, 0, 3, 0, 0, 0, 1};
    static const uint32_t two_labels[3] = {'?', 0xD800, 'B'}, falling[4] = {0x240, 0x40, 0x82, 0xC1};
    machirsun_file answer;

    work[40] = 7;
    answer = macondo(LENT(G), LENT(LABELS), 1, 40, 100);
    SAME(answer.refusal == 0 && answer.arc == 0 && answer.written == 58 && file_is(LENT(expected)));
    SAME(work[40] == 7);
    answer = macondo(LENT(G), LENT(LABELS), 1, 40, 58);
    SAME(answer.refusal == 0 && answer.written == 58 && file_is(LENT(expected)));
    blank_file();
    answer = machirsun_to_macondo(LENT(G), LENT(LABELS), (const uint8_t *)"GG", 2, MACHIRSUN_GADDAG, LENT(work), LENT(file));
    SAME(answer.refusal == 0 && memcmp(file, "cgdg\2GG", 7) == 0);

    REFUSED(macondo(G, 1, LENT(LABELS), 1, 40, 100), MACHIRSUN_WRONG_SIZE, 0);
    REFUSED(macondo(LENT(ARC_5), LENT(LABELS), 1, 40, 100), MACHIRSUN_ARC_PAST_END, 5);
    REFUSED(macondo(LENT(NO_END), LENT(LABELS), 1, 40, 100), MACHIRSUN_NO_END, 0);
    REFUSED(macondo(LENT(G), LABELS, 0, 1, 40, 100), MACHIRSUN_LABEL_COUNT, 0);
    REFUSED(macondo(LENT(G), LENT(LABELS), 256, 40, 100), MACHIRSUN_TEXT_TOO_LONG, 0);
    REFUSED(macondo(LENT(G), LABELS, 2, 1, 40, 100), MACHIRSUN_NO_LABEL, 0);
    REFUSED(macondo(LENT(falling), LENT(LABELS), 1, 40, 100), MACHIRSUN_NOT_ASCENDING, 0);
    REFUSED(macondo(LENT(G), LENT(LABELS), 1, 39, 100), MACHIRSUN_LIST_TOO_SHORT, 0);
    REFUSED(macondo(LENT(NODE_2_LOOPS), LENT(LABELS), 1, 40, 100), MACHIRSUN_CHAIN_TOO_LONG, 0);
    REFUSED(macondo(LENT(G), LENT(two_labels), 1, 40, 100), MACHIRSUN_BAD_LETTER, 0);
    REFUSED(macondo(LENT(G), LENT(LABELS), 1, 40, 57), MACHIRSUN_LIST_TOO_SHORT, 0);
}

static machirsun_file lxd(const uint32_t *nodes, size_t nodes_len, const uint32_t *labels, size_t labels_len, const uint32_t *title,
                          size_t title_len, const uint32_t *date, size_t date_len, size_t work_len, size_t file_len)
{
    blank_file();
    return machirsun_to_lxd(nodes, nodes_len, labels, labels_len, title, title_len, date, date_len, work, work_len, file, file_len);
}

static void writes_lxd(void)
{
    static const uint8_t expected[84] = {
        64, 0, 0, 0, 5, 0, 0, 0,
        0x8C, 0xE9, 0, 0, 0, 0, 0, 0, 0, 0, 0, 0, 0, 0, 0, 0, 0, 0, 0, 0, 0, 0, 0, 0, 0, 0, 0, 0, 0, 0, 0, 0,
        '2', '0', '2', '6', 0, 0, 0, 0, 0, 0, 0, 0, 0, 0, 0, 0, 0, 0, 0, 0,
        3, 0, 0, 0, 0, 0, 0x80, 0x8A, 2, 0, 0x80, 0x8A, 4, 0, 0x40, 0x50, 4, 0, 0x80, 0x90, 0, 0, 0x80, 0xD0};
    static const uint32_t title[2] = {0x152, 0xE9}, date[4] = {'2', '0', '2', '6'}, texts[32] = {'a'}, wide[1] = {0x100};
    static const uint32_t control[1] = {0x8C}, control_label[3] = {'?', 0x8C, 'B'}, oe_label[3] = {'?', 0x152, 'B'};
    machirsun_file answer;

    work[40] = 7;
    answer = lxd(LENT(G), LENT(LABELS), LENT(title), LENT(date), 40, 100);
    SAME(answer.refusal == 0 && answer.arc == 0 && answer.written == 84 && file_is(LENT(expected)));
    SAME(work[40] == 7);
    answer = lxd(LENT(G), LENT(LABELS), LENT(title), LENT(date), 40, 84);
    SAME(answer.refusal == 0 && answer.written == 84 && file_is(LENT(expected)));
    answer = lxd(LENT(G), LENT(oe_label), LENT(title), LENT(date), 40, 84);
    SAME(answer.refusal == 0 && answer.written == 84 && memcmp(file + 72, "\4\0\0\x63", 4) == 0);

    REFUSED(lxd(G, 1, LENT(LABELS), LENT(title), LENT(date), 40, 100), MACHIRSUN_WRONG_SIZE, 0);
    REFUSED(lxd(LENT(ARC_5), LENT(LABELS), LENT(title), LENT(date), 40, 100), MACHIRSUN_ARC_PAST_END, 5);
    REFUSED(lxd(LENT(NO_END), LENT(LABELS), LENT(title), LENT(date), 40, 100), MACHIRSUN_NO_END, 0);
    REFUSED(lxd(LENT(G), LENT(LABELS), LENT(control), LENT(date), 40, 100), MACHIRSUN_NOT_WINDOWS_1252, 0);
    REFUSED(lxd(LENT(G), LENT(LABELS), texts, 32, LENT(date), 40, 100), MACHIRSUN_TEXT_TOO_LONG, 0);
    REFUSED(lxd(LENT(G), LENT(LABELS), LENT(title), LENT(wide), 40, 100), MACHIRSUN_NOT_WINDOWS_1252, 0);
    REFUSED(lxd(LENT(G), LENT(LABELS), LENT(title), texts, 20, 40, 100), MACHIRSUN_TEXT_TOO_LONG, 0);
    REFUSED(lxd(LENT(G), LABELS, 2, LENT(title), LENT(date), 40, 100), MACHIRSUN_NO_LABEL, 0);
    REFUSED(lxd(LENT(G), LENT(LABELS), LENT(title), LENT(date), 39, 100), MACHIRSUN_LIST_TOO_SHORT, 0);
    REFUSED(lxd(LENT(NODE_2_LOOPS), LENT(LABELS), LENT(title), LENT(date), 40, 100), MACHIRSUN_CHAIN_TOO_LONG, 0);
    REFUSED(lxd(LENT(G), LENT(control_label), LENT(title), LENT(date), 40, 100), MACHIRSUN_BAD_LETTER, 0);
    REFUSED(lxd(LENT(G), LENT(LABELS), LENT(title), LENT(date), 40, 83), MACHIRSUN_LIST_TOO_SHORT, 0);
}

/* ---- Pages of words --------------------------------------------------------------------------------------------------------------- */

static uint8_t page[962];

static void blank_page(void)
{
    memset(page, 0xEE, sizeof page);
}

/* Whether the page has these rows, all later ones blank, and bytes past it as they were. No row: whether nothing was written. */
static bool page_is(const char *const *rows, size_t count)
{
    static uint8_t expected[sizeof page];
    size_t i;

    memset(expected, 0xEE, sizeof expected);
    if (count > 0)
        memset(expected, ' ', 960);
    for (i = 0; i < count; i++)
        memcpy(expected + 40 * i, rows[i], strlen(rows[i]));
    return memcmp(page, expected, sizeof page) == 0;
}

static uint32_t page_of_g(const uint32_t *counts, const uint32_t *labels, size_t labels_len, const char *title, size_t title_len,
                          uint32_t start, uint32_t first, size_t page_len)
{
    blank_page();
    return machirsun_write_page(LENT(G), counts, 5, labels, labels_len, (const uint8_t *)title, title_len, start, first, page, page_len);
}

static void same_refusal(int line, uint32_t answer, uint32_t refusal)
{
    compare(answer == refusal && page_is(NULL, 0), "a refused page", line);
}

#define NO_PAGE(answer, refusal) same_refusal(__LINE__, answer, refusal)

static void writes_pages(void)
{
    static const char *const words[4] = {"G", "         0 A", "         1 AB", "         2 BB"};
    static const char *const last[2] = {"", "         2 BB"}, *const none[1] = {"1234567890123456789012345678901234567890"};
    static const char *const long_words[3] = {"", "         0 AAAAAAAAAAAAAAAAAAAAAAAAAAAA", "         1 AAAAAAAAAAAAAAAAAAAAAAAAAAAA+"};
    uint32_t long_nodes[31], long_counts[31], long_work[62];
    uint32_t i;

    SAME(page_of_g(COUNTS_OF_G, LENT(LABELS), "G", 1, 2, 0, 962) == 0 && page_is(LENT(words)));
    SAME(page_of_g(COUNTS_OF_G, LENT(LABELS), "G", 1, 2, 0, 960) == 0 && page_is(LENT(words)));
    SAME(page_of_g(COUNTS_OF_G, LENT(LABELS), "", 0, 2, 2, 960) == 0 && page_is(LENT(last)));
    SAME(page_of_g(COUNTS_OF_G, LABELS, 0, none[0], 40, 2, 3, 960) == 0 && page_is(LENT(none)));
    SAME(page_of_g(COUNTS_OF_G, LABELS, 0, none[0], 40, 2, 4294967295, 960) == 0 && page_is(LENT(none)));

    /* A chain of 29 nodes with the words of 28 and of 29 tiles. */
    long_nodes[0] = 0x240;
    long_nodes[1] = 0x40;
    for (i = 2; i < 30; i++)
        long_nodes[i] = (i + 1) << 8 | (i == 29 ? 0xC1 : 0x41);
    long_nodes[30] = 0xC1;
    SAME(machirsun_count_words(LENT(long_nodes), LENT(long_counts), LENT(long_work)).refusal == 0);
    blank_page();
    SAME(machirsun_write_page(LENT(long_nodes), LENT(long_counts), LENT(LABELS), (const uint8_t *)"", 0, 2, 0, LENT(page)) == 0);
    SAME(page_is(LENT(long_words)));
}

static void refuses_pages(void)
{
    static const char wide[41] = {1};
    static const uint32_t foreign[5] = {0, 0, 0, 1, 1};
    static const uint32_t unprintable[5] = {0x1F, 0x7F, 0x141, 0xD800, 4294967295};
    uint32_t labels[3] = {'?', 'A', 'B'};
    size_t i;

    NO_PAGE(page_of_g(foreign, LABELS, 0, LENT(wide), 5, 0, 959), MACHIRSUN_TEXT_TOO_LONG);
    NO_PAGE(page_of_g(foreign, LABELS, 0, wide, 40, 5, 0, 959), MACHIRSUN_LIST_TOO_SHORT);
    NO_PAGE(page_of_g(foreign, LABELS, 0, wide, 40, 5, 0, 960), MACHIRSUN_NOT_LENT);
    NO_PAGE(page_of_g(foreign, LABELS, 0, wide, 40, 2, 0, 960), MACHIRSUN_OUT_OF_RANGE);
    NO_PAGE(page_of_g(COUNTS_OF_G, LABELS, 2, wide, 40, 2, 0, 960), MACHIRSUN_NO_LABEL);
    NO_PAGE(page_of_g(COUNTS_OF_G, LENT(LABELS), wide, 40, 2, 0, 960), MACHIRSUN_NOT_PRINTABLE);
    for (i = 0; i < 5; i++) {
        labels[2] = unprintable[i];
        NO_PAGE(page_of_g(COUNTS_OF_G, LENT(labels), "", 0, 2, 0, 960), MACHIRSUN_NOT_PRINTABLE);
    }
}

/* ---- Words as viewers type them ---------------------------------------------------------------------------------------------------- */

/* Tile 1 has two labels, tile 3 has one of two bytes, tiles 4 and 5 begin as tile 2 does; tiles 6 and 7 share a label. The lines end in
 * each of the ways. */
static const char LABEL_FILE[] = "1\tA\n1\ta\r\n2\tC\r3\t\303\211\n5\tCHA\n4\tCH\n7\t-\n6\t-\n63\t+";

static uint8_t typed[8];
static size_t sizes[4];

static void blank_typed(void)
{
    size_t i;

    memset(typed, 99, sizeof typed);
    for (i = 0; i < LENGTH(sizes); i++)
        sizes[i] = 77;
}

/* Whether the word buffer has these tiles, and is as before past them. */
static bool typed_is(const char *tiles)
{
    uint8_t expected[sizeof typed];

    memset(expected, 99, sizeof expected);
    memcpy(expected, tiles, strlen(tiles));
    return memcmp(typed, expected, sizeof expected) == 0;
}

static machirsun_typed next(const char *labels, const char *text, size_t at, size_t room)
{
    blank_typed();
    return machirsun_next_word((const uint8_t *)labels, strlen(labels), (const uint8_t *)text, strlen(text), at, typed, room);
}

static void same_typed(int line, machirsun_typed word, machirsun_typed expected, const char *tiles)
{
    compare(word.refusal == expected.refusal && word.found == expected.found && word.bad == expected.bad &&
                word.start == expected.start && word.end == expected.end && word.after == expected.after &&
                word.tiles == expected.tiles && typed_is(tiles),
            "a typed word", line);
}

/* The tiles are a string, for want of a tile 0. */
#define READ(word, start, end, after, tiles) \
    same_typed(__LINE__, word, (machirsun_typed){0, true, 0, start, end, after, strlen(tiles)}, tiles)
#define UNREAD(word, refusal, bad, tiles) same_typed(__LINE__, word, (machirsun_typed){refusal, false, bad, 0, 0, 0, 0}, tiles)

static void reads_words(void)
{
    static const char *const text = "\r\nCHAaC -\n\303\211+\rCH\r\n\nA";

    READ(next(LABEL_FILE, text, 0, 8), 2, 9, 10, "\5\1\2");
    READ(next(LABEL_FILE, text, 10, 8), 10, 13, 14, "\3\77");
    READ(next(LABEL_FILE, text, 14, 8), 14, 16, 18, "\4");
    READ(next(LABEL_FILE, text, 18, 8), 19, 20, 20, "\1");
    UNREAD(next(LABEL_FILE, text, 20, 8), 0, 0, "");
    UNREAD(next(LABEL_FILE, text, 21, 8), 0, 0, "");
    UNREAD(next(LABEL_FILE, text, SIZE_MAX, 0), 0, 0, "");

    /* A place inside a line, at its ending, and inside that. */
    READ(next(LABEL_FILE, text, 4, 8), 4, 9, 10, "\1\1\2");
    READ(next(LABEL_FILE, text, 16, 8), 19, 20, 20, "\1");
    READ(next(LABEL_FILE, text, 17, 8), 19, 20, 20, "\1");
    READ(next(LABEL_FILE, text, 8, 8), 8, 9, 10, "\6");

    /* A blank with a label, and letters that only begin as one does. */
    READ(next("1\tA\n2\t \n3\tA\tB", " A\tB\tA", 0, 8), 0, 6, 6, "\2\3");
    READ(next("1\tA\n2\tABCDEFGHIJKLMNO", "ABCDEFGHIJKLMNO", 0, 1), 0, 15, 15, "\2");
    UNREAD(next("1\tA\n2\tABCDEFGHIJKLMNO", "ABCDEFGHIJKLMN", 0, 8), MACHIRSUN_UNREADABLE, 1, "\1");
    UNREAD(next("", "\n\r\n", 0, 8), 0, 0, "");
    UNREAD(next("", "\nA", 0, 8), MACHIRSUN_UNREADABLE, 1, "");
}

static void refuses_words(void)
{
    /* What comes first in the text. */
    READ(next(LABEL_FILE, "\nAC ?", 0, 2), 1, 5, 5, "\1\2");
    UNREAD(next(LABEL_FILE, "\nAC?", 0, 2), MACHIRSUN_UNREADABLE, 3, "\1\2");
    UNREAD(next(LABEL_FILE, "\nAC?", 0, 1), MACHIRSUN_BUFFER_FULL, 0, "\1");
    UNREAD(next(LABEL_FILE, "A", 0, 0), MACHIRSUN_BUFFER_FULL, 0, "");
    UNREAD(next(LABEL_FILE, "?", 0, 0), MACHIRSUN_UNREADABLE, 0, "");
    UNREAD(next(LABEL_FILE, "A A", 1, 8), MACHIRSUN_UNREADABLE, 1, "");
    UNREAD(next(LABEL_FILE, "A\303", 0, 8), MACHIRSUN_UNREADABLE, 1, "\1");
    UNREAD(next(LABEL_FILE, "A!", 0, 8), MACHIRSUN_UNREADABLE, 1, "\1");
}

static void refuses_label_files(void)
{
    static const char *const bad[14] = {"", "A", "1", "1\t", "1 A", "\tA", "0\tA", "01\tA", "64\tA", "100\tA", "+1\tA", " 1\tA", "1 \tA",
                                        "1\tABCDEFGHIJKLMNOP"};
    char labels[4 * 258 + 1], file[64];
    size_t i;

    for (i = 0; i < LENGTH(bad); i++) {
        snprintf(file, sizeof file, "1\tA\r\n2\tB\r%s\n0\tA", bad[i]);
        UNREAD(next(file, "A", 0, 8), MACHIRSUN_BAD_LABEL_LINE, 3, "");
        UNREAD(next(file, "?", 0, 0), MACHIRSUN_BAD_LABEL_LINE, 3, "");
        UNREAD(next(file, "", 9, 8), MACHIRSUN_BAD_LABEL_LINE, 3, "");
    }
    for (i = 0; i < 258; i++)
        memcpy(labels + 4 * i, "1\tA\n", 4);
    labels[4 * 258] = '\0';
    UNREAD(next(labels, "", 0, 8), MACHIRSUN_BAD_LABEL_LINE, 257, "");
    labels[4 * 257] = '\0';
    UNREAD(next(labels, "A", 0, 8), MACHIRSUN_BAD_LABEL_LINE, 257, "");
    labels[4 * 256] = '\0';
    READ(next(labels, "A", 0, 8), 0, 1, 1, "\1");
    labels[4 * 255] = 'A';
    UNREAD(next(labels, "A", 0, 8), MACHIRSUN_BAD_LABEL_LINE, 256, "");
}

static machirsun_typed_list list(const char *labels, const char *text, size_t at, size_t room, size_t size_room)
{
    blank_typed();
    return machirsun_read_words((const uint8_t *)labels, strlen(labels), (const uint8_t *)text, strlen(text), at, typed, room, sizes,
                                size_room);
}

static void same_list(int line, machirsun_typed_list words, machirsun_typed_list expected, const char *tiles, const size_t *expected_sizes)
{
    compare(words.refusal == expected.refusal && words.found == expected.found && words.bad == expected.bad &&
                words.words == expected.words && words.tiles == expected.tiles && words.after == expected.after && typed_is(tiles) &&
                memcmp(sizes, expected_sizes, sizeof sizes) == 0,
            "a list of typed words", line);
}

/* The tiles put may be more than those of the words. */
#define LISTED(answer, words, tiles, after, put, ...) \
    same_list(__LINE__, answer, (machirsun_typed_list){0, true, 0, words, tiles, after}, put, (size_t[LENGTH(sizes)]){__VA_ARGS__})
#define UNLISTED(answer, refusal, bad, put) \
    same_list(__LINE__, answer, (machirsun_typed_list){refusal, false, bad, 0, 0, 0}, put, (size_t[LENGTH(sizes)]){77, 77, 77, 77})

static void reads_lists(void)
{
    static const char *const text = "A\n\nCHAa\r\nAC?\n\303\211";

    /* The end, and where it is met first. */
    LISTED(list(LABEL_FILE, "A\n\nCHAa\n\n", 0, 8, 4), 2, 3, 8, "\1\5\1", 1, 2, 77, 77);
    UNLISTED(list(LABEL_FILE, "A\n\nCHAa\n\n", 8, 8, 4), 0, 0, "");
    UNLISTED(list(LABEL_FILE, "A\n\nCHAa\n\n", 9, 0, 0), 0, 0, "");
    UNLISTED(list(LABEL_FILE, "A\n\nCHAa\n\n", SIZE_MAX, 8, 4), 0, 0, "");

    /* An unreadable line is refused by the call that begins with it. */
    LISTED(list(LABEL_FILE, text, 0, 8, 4), 2, 3, 9, "\1\5\1\1\2", 1, 2, 77, 77);
    UNLISTED(list(LABEL_FILE, text, 9, 8, 4), MACHIRSUN_UNREADABLE, 11, "\1\2");
    LISTED(list(LABEL_FILE, text, 12, 8, 4), 1, 1, 15, "\3", 1, 77, 77, 77);

    /* No room for a tile: the next call has the room anew. */
    LISTED(list(LABEL_FILE, text, 0, 4, 4), 2, 3, 9, "\1\5\1\1", 1, 2, 77, 77);
    UNLISTED(list(LABEL_FILE, text, 9, 4, 4), MACHIRSUN_UNREADABLE, 11, "\1\2");
    LISTED(list(LABEL_FILE, text, 0, 2, 4), 1, 1, 2, "\1\5", 1, 77, 77, 77);
    LISTED(list(LABEL_FILE, text, 2, 2, 4), 1, 2, 9, "\5\1", 2, 77, 77, 77);
    LISTED(list("1\tA", "A\nAA", 0, 2, 4), 1, 1, 2, "\1\1", 1, 77, 77, 77);
    LISTED(list("1\tA", "A\nAA", 2, 2, 4), 1, 2, 4, "\1\1", 2, 77, 77, 77);

    /* A first line is read as far as there is room, and may be no word. */
    UNLISTED(list("1\tA", "AA?", 0, 1, 4), MACHIRSUN_BUFFER_FULL, 0, "\1");
    UNLISTED(list("1\tA", "AA?", 0, 2, 4), MACHIRSUN_UNREADABLE, 2, "\1\1");

    /* No room for a size: the line is not read. */
    LISTED(list(LABEL_FILE, text, 0, 8, 2), 2, 3, 9, "\1\5\1", 1, 2, 77, 77);
    LISTED(list(LABEL_FILE, text, 0, 8, 1), 1, 1, 2, "\1", 1, 77, 77, 77);
    UNLISTED(list(LABEL_FILE, text, 0, 8, 0), MACHIRSUN_BUFFER_FULL, 0, "");
    UNLISTED(list(LABEL_FILE, "?", 0, 8, 0), MACHIRSUN_BUFFER_FULL, 0, "");

    UNLISTED(list("1\tA\n", "?", 0, 8, 4), MACHIRSUN_UNREADABLE, 0, "");
    UNLISTED(list("1\tA\n0\tA", "A", 0, 8, 4), MACHIRSUN_BAD_LABEL_LINE, 2, "");
    UNLISTED(list("1\tA\n0\tA", "", 9, 0, 0), MACHIRSUN_BAD_LABEL_LINE, 2, "");
}

/* ---- Words in play ----------------------------------------------------------------------------------------------------------------- */

static bool same_in_play(machirsun_in_play answer, uint32_t refusal, bool found, uint32_t remaining, uint32_t lowest)
{
    return answer.refusal == refusal && answer.found == found && answer.remaining == remaining && answer.lowest == lowest;
}

/* The words of G: one bit each of the first byte. */
static void words_of_g_in_play(void)
{
    static const uint8_t a[1] = {1}, ab[2] = {1, 2}, bb[2] = {2, 2};
    uint8_t bits[2] = {0xF8, 0xEE};

    SAME(same_in_play(machirsun_arrive(LENT(G), LENT(COUNTS_OF_G), 2, LENT(a), LENT(bits)), 0, true, 2, 1));
    SAME_LIST(bits, (uint8_t[]){0xF9, 0xEE});
    SAME(same_in_play(machirsun_arrive(LENT(G), LENT(COUNTS_OF_G), 2, LENT(bb), LENT(bits)), 0, true, 1, 1));
    SAME_LIST(bits, (uint8_t[]){0xFD, 0xEE});
    SAME(same_in_play(machirsun_arrive(LENT(G), LENT(COUNTS_OF_G), 2, LENT(a), LENT(bits)), MACHIRSUN_ALREADY_IN_PLAY, false, 0, 0));
    SAME(same_in_play(machirsun_leave(LENT(G), LENT(COUNTS_OF_G), 2, LENT(ab), LENT(bits)), MACHIRSUN_NOT_IN_PLAY, false, 0, 0));
    SAME_LIST(bits, (uint8_t[]){0xFD, 0xEE});
    SAME(same_in_play(machirsun_arrive(LENT(G), LENT(COUNTS_OF_G), 2, LENT(ab), bits, 1), 0, false, 0, 0));
    SAME_LIST(bits, (uint8_t[]){0xFF, 0xEE});
    SAME(same_in_play(machirsun_leave(LENT(G), LENT(COUNTS_OF_G), 2, LENT(bb), bits, 1), 0, true, 1, 2));
    SAME_LIST(bits, (uint8_t[]){0xFB, 0xEE});
    SAME(same_in_play(machirsun_leave(LENT(G), LENT(COUNTS_OF_G), 2, LENT(a), LENT(bits)), 0, true, 2, 0));
    SAME_LIST(bits, (uint8_t[]){0xFA, 0xEE});

    /* The same record by another start: B B is word 0 of node 3's one. */
    SAME(same_in_play(machirsun_arrive(LENT(G), LENT(COUNTS_OF_G), 3, LENT(bb), LENT(bits)), 0, false, 0, 0));
    SAME_LIST(bits, (uint8_t[]){0xFB, 0xEE});
}

/* The words are the tiles 1 to 19, each alone: two bytes of the record, and three bits of the third. */
static void words_in_play_over_bytes(void)
{
    uint32_t nodes[21] = {0x240, 0x40}, counts[21], work[42], i;
    uint8_t bits[4] = {0, 0, 0xF8, 0xEE}, expected[4] = {0, 0, 0xF8, 0xEE}, word[1];

    for (i = 0; i < 19; i++)
        nodes[2 + i] = (i == 18 ? 0xC0 : 0x80) | (i + 1);
    SAME(machirsun_count_words(LENT(nodes), LENT(counts), LENT(work)).refusal == 0);
    SAME(machirsun_arrive(LENT(nodes), LENT(counts), 2, word, 0, bits, 2).refusal == MACHIRSUN_LIST_TOO_SHORT);
    for (i = 0; i < 19; i++) {
        word[0] = (uint8_t)(i + 1);
        expected[i / 8] |= (uint8_t)(1 << i % 8);
        SAME(same_in_play(machirsun_arrive(LENT(nodes), LENT(counts), 2, LENT(word), bits, 3), 0, i < 18, 18 - i, i < 18 ? i + 1 : 0));
        SAME_LIST(bits, expected);
    }
    for (i = 19; i-- > 0;) {
        word[0] = (uint8_t)(i + 1);
        expected[i / 8] &= (uint8_t)~(1 << i % 8);
        SAME(same_in_play(machirsun_leave(LENT(nodes), LENT(counts), 2, LENT(word), LENT(bits)), 0, true, 19 - i, i));
        SAME_LIST(bits, expected);
    }
}

static void same_refused(int line, machirsun_in_play answer, uint32_t refusal, const uint8_t bits[2], uint8_t fill)
{
    compare(same_in_play(answer, refusal, false, 0, 0) && bits[0] == fill && bits[1] == fill, "a refused word", line);
}

/* Both calls refuse by this number, whatever is in the record, and leave it. Of G and the record so many entries are lent. */
static void refused_in_play(int line, uint32_t refusal, size_t nodes_len, const uint32_t *counts, size_t counts_len, uint32_t start,
                            const uint8_t *word, size_t word_len, size_t bits_len)
{
    static const uint8_t fills[3] = {0, 0x55, 0xFF};
    size_t i;

    for (i = 0; i < LENGTH(fills); i++) {
        uint8_t bits[2] = {fills[i], fills[i]};
        machirsun_in_play answer = machirsun_arrive(G, nodes_len, counts, counts_len, start, word, word_len, bits, bits_len);

        same_refused(line, answer, refusal, bits, fills[i]);
        answer = machirsun_leave(G, nodes_len, counts, counts_len, start, word, word_len, bits, bits_len);
        same_refused(line, answer, refusal, bits, fills[i]);
    }
}

#define NOT_PLAYED(refusal, ...) refused_in_play(__LINE__, refusal, __VA_ARGS__)

/* In the order of the checks, each with a fault that a later one would find where there is such. */
static void refuses_words_in_play(void)
{
    static const uint8_t a[1] = {1}, b[1] = {2}, bb[2] = {2, 2};
    static const uint32_t foreign[5] = {3, 0, 3, 4, 1}, past[5] = {3, 0, 3, 0, 1}, none[5] = {0}, many[5] = {3, 0, 4294967295, 0, 1};
    static const uint32_t nine[5] = {3, 0, 9, 10, 1};

    NOT_PLAYED(MACHIRSUN_NOT_LENT, 5, LENT(foreign), 5, LENT(bb), 0);
    NOT_PLAYED(MACHIRSUN_NOT_LENT, 5, LENT(foreign), 4294967295, b, 0, 0);
    NOT_PLAYED(MACHIRSUN_NOT_LENT, 2, LENT(foreign), 2, LENT(bb), 0);
    NOT_PLAYED(MACHIRSUN_NOT_LENT, 5, foreign, 2, 2, LENT(bb), 0);
    NOT_PLAYED(MACHIRSUN_NOT_LENT, 5, foreign, 2, 2, b, 0, 2);
    NOT_PLAYED(MACHIRSUN_NOT_LENT, 0, LENT(foreign), 0, LENT(a), 0);
    NOT_PLAYED(MACHIRSUN_LIST_TOO_SHORT, 5, LENT(foreign), 2, LENT(bb), 0);
    NOT_PLAYED(MACHIRSUN_LIST_TOO_SHORT, 5, foreign, 3, 2, LENT(bb), 0);
    NOT_PLAYED(MACHIRSUN_LIST_TOO_SHORT, 5, LENT(nine), 2, LENT(bb), 1);
    NOT_PLAYED(MACHIRSUN_LIST_TOO_SHORT, 5, LENT(many), 2, LENT(b), 2);
    NOT_PLAYED(MACHIRSUN_NOT_LENT, 5, COUNTS_OF_G, 3, 2, LENT(bb), 1);
    NOT_PLAYED(MACHIRSUN_NOT_LENT, 3, LENT(COUNTS_OF_G), 2, LENT(bb), 1);
    NOT_PLAYED(MACHIRSUN_OUT_OF_RANGE, 5, LENT(foreign), 2, LENT(bb), 1);
    NOT_PLAYED(MACHIRSUN_OUT_OF_RANGE, 5, LENT(nine), 2, LENT(bb), 2);
    NOT_PLAYED(MACHIRSUN_NO_WORD, 5, LENT(COUNTS_OF_G), 2, LENT(b), 1);
    NOT_PLAYED(MACHIRSUN_NO_WORD, 5, LENT(COUNTS_OF_G), 2, b, 0, 1);
    NOT_PLAYED(MACHIRSUN_NO_WORD, 5, LENT(COUNTS_OF_G), 0, LENT(a), 2);
    NOT_PLAYED(MACHIRSUN_NO_WORD, 1, COUNTS_OF_G, 0, 0, LENT(a), 0);

    /* Numbers that are not below the start's count: 3 of 3, and 0 of 0. */
    NOT_PLAYED(MACHIRSUN_NO_WORD, 5, LENT(past), 2, LENT(bb), 1);
    NOT_PLAYED(MACHIRSUN_NO_WORD, 5, LENT(none), 2, LENT(a), 0);
}

/* ---- A lexicon from a word list ---------------------------------------------------------------------------------------------------- */

enum { WORK = 8 * 65 + 64, FILL = 0xEE };

static bool is_filled(const uint32_t *list, size_t from, size_t to)
{
    size_t i;

    for (i = from; i < to; i++)
        if (list[i] != FILL)
            return false;
    return true;
}

/* A call with so much of a work list and of a node list lent, both of which are filled before; what is past those parts is compared too, and
 * of the work list all past its free part. */
static machirsun_built build(int line, const uint8_t *list, size_t list_len, uint32_t work[WORK], size_t work_len, uint32_t nodes[70],
                             size_t nodes_len)
{
    machirsun_built built;
    size_t i;

    for (i = 0; i < WORK; i++)
        work[i] = FILL;
    for (i = 0; i < 70; i++)
        nodes[i] = FILL;
    built = machirsun_build(list, list_len, work, work_len, nodes, nodes_len);
    compare(is_filled(work, 8 * list_len + 64 < WORK ? 8 * list_len + 64 : WORK, WORK), "the work list past its free part", line);
    compare(is_filled(nodes, built.nodes, 70), "the nodes past those that are built", line);
    return built;
}

/* The list's graph, with lists just long enough and with longer ones. */
static void same_built(int line, const uint8_t *list, size_t list_len, const uint32_t *expected, size_t count)
{
    uint32_t work[WORK], nodes[70];
    machirsun_built built = build(line, list, list_len, work, 8 * list_len + 64, nodes, count);

    compare(built.refusal == 0 && built.nodes == count && memcmp(nodes, expected, count * sizeof *nodes) == 0, "a graph", line);
    built = build(line, list, list_len, work, WORK, nodes, 70);
    compare(built.refusal == 0 && built.nodes == count && memcmp(nodes, expected, count * sizeof *nodes) == 0, "a graph", line);
    built = build(line, list, list_len, work, WORK, nodes, count - 1);
    compare(built.refusal == MACHIRSUN_LIST_TOO_SHORT && built.nodes == 0, "too few nodes", line);
    built = build(line, list, list_len, work, 8 * list_len + 63, nodes, 70);
    compare(built.refusal == MACHIRSUN_LIST_TOO_SHORT && built.nodes == 0 && is_filled(work, 0, WORK), "a work list too short", line);
}

#define SAME_BUILT(list, ...) same_built(__LINE__, LENT(list), (__VA_ARGS__), LENGTH((__VA_ARGS__)))

static void builds(void)
{
    static const uint8_t of_g[8] = {1, 1, 2, 1, 2, 2, 2, 2}, one[2] = {1, 63}, ends[6] = {2, 1, 9, 2, 2, 9};
    static const uint8_t in_order[13] = {3, 1, 1, 1, 2, 1, 2, 3, 2, 1, 1, 1, 3};
    uint8_t longest[65] = {64};
    uint32_t of_longest[66] = {0x240, 0x40}, i;

    same_built(__LINE__, of_g, 0, (const uint32_t[2]){0x40, 0x40}, 2);
    same_built(__LINE__, LENT(of_g), LENT(G));
    SAME_BUILT(one, (const uint32_t[3]){0x240, 0x40, 0xFF});
    SAME_BUILT(ends, (const uint32_t[5]){0x240, 0x40, 0x401, 0x442, 0xC9});

    /* Below 1 a run of two nodes, and what that leads to before what 2 leads to. */
    SAME_BUILT(in_order, (const uint32_t[9]){0x240, 0x40, 0x501, 0x802, 0xC3, 0x701, 0xC2, 0xC1, 0x741});
    for (i = 0; i < 64; i++) {
        longest[i + 1] = (uint8_t)(i % 63 + 1);
        of_longest[i + 2] = (i < 63 ? (i + 3) << 8 : 0x80) | 0x40 | longest[i + 1];
    }
    same_built(__LINE__, LENT(longest), LENT(of_longest));
}

/* Refused by this number whatever is lent, and nothing is changed. */
static void same_unbuilt(int line, uint32_t refusal, const uint8_t *list, size_t list_len)
{
    uint32_t work[WORK], nodes[70];
    machirsun_built built = build(line, list, list_len, work, WORK, nodes, 70);

    compare(built.refusal == refusal && built.nodes == 0 && is_filled(work, 0, WORK), "a refused list", line);
    built = build(line, list, list_len, work, 0, nodes, 0);
    compare(built.refusal == refusal && built.nodes == 0 && is_filled(work, 0, WORK), "a refused list", line);
}

#define UNBUILT(refusal, ...) same_unbuilt(__LINE__, refusal, LENT(((const uint8_t[]){__VA_ARGS__})))

static void refuses_lists(void)
{
    uint8_t cut[64] = {64}, over[66] = {65};

    memset(cut + 1, 1, 63);
    memset(over + 1, 1, 65);
    same_unbuilt(__LINE__, MACHIRSUN_BAD_WORD, LENT(cut));
    same_unbuilt(__LINE__, MACHIRSUN_BAD_WORD, LENT(over));
    UNBUILT(MACHIRSUN_BAD_WORD, 0);
    UNBUILT(MACHIRSUN_BAD_WORD, 1);
    UNBUILT(MACHIRSUN_BAD_WORD, 1, 0);
    UNBUILT(MACHIRSUN_BAD_WORD, 1, 64);
    UNBUILT(MACHIRSUN_BAD_WORD, 2, 1, 255);
    UNBUILT(MACHIRSUN_NOT_ABOVE, 1, 1, 1, 1);
    UNBUILT(MACHIRSUN_NOT_ABOVE, 1, 2, 1, 1);
    UNBUILT(MACHIRSUN_NOT_ABOVE, 2, 1, 1, 1, 1);

    /* The first word with a fault decides, and in one word 32. */
    UNBUILT(MACHIRSUN_NOT_ABOVE, 1, 2, 1, 1, 0);
    UNBUILT(MACHIRSUN_BAD_WORD, 1, 2, 0, 1, 1);
    UNBUILT(MACHIRSUN_BAD_WORD, 1, 2, 2, 1, 0);
}

int main(void)
{
    begins();
    feeds_and_finishes();
    keeps_a_refusal();
    refuses_states();
    judges_nodes();
    loads_in_pieces();
    repacks();
    counts_words();
    seeks();
    steps();
    numbers_words();
    names_numbers();
    writes_letter_bits();
    alpha_sets();
    writes_macondo();
    writes_lxd();
    writes_pages();
    refuses_pages();
    reads_words();
    refuses_words();
    refuses_label_files();
    reads_lists();
    words_of_g_in_play();
    words_in_play_over_bytes();
    refuses_words_in_play();
    builds();
    refuses_lists();
    printf("calls from C: %u compared, %u differences\n", compared, differences);
    return differences == 0 ? 0 : 1;
}
