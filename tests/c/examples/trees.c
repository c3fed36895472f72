#include "examples.h"

#include "rooms.h"

#include <string.h>

/* Example L with any number of levels: A0 -> A1 A1 and so on, the last one vanishing. */
struct tree {
    uint8_t levels;
    uint8_t book[6 + 20 * 6];
    uint8_t table[2 * 20];
    uint8_t list[1 << 17];
    size_t listed;
    struct grammar grammar;
};

static struct tree tree;

static void list_tree(uint8_t level)
{
    tree.list[tree.listed++] = level;
    if (level + 1 == tree.levels)
        return;
    list_tree((uint8_t)(level + 1));
    list_tree((uint8_t)(level + 1));
}

static void make_tree(uint8_t levels)
{
    const uint8_t header[] = { 'G', 'R', 1, levels, 0, levels };
    size_t length = sizeof header;
    memcpy(tree.book, header, sizeof header);
    for (uint8_t level = 0; level < levels; level++) {
        const uint8_t record[] = { 'P', 'R', level, 2, (uint8_t)N(level + 1), (uint8_t)N(level + 1) };
        size_t size = level + 1 < levels ? sizeof record : 4;
        memcpy(tree.book + length, record, size);
        length += size;
        tree.table[2 * level] = NO;
        tree.table[2 * level + 1] = level;
    }
    tree.book[length - 1] = 0;
    tree.grammar = (struct grammar){ .name = "L", .book = { tree.book, length },
                                     .table = { tree.table, 2 * (size_t)levels } };
    tree.levels = levels;
    tree.listed = 0;
    list_tree(0);
}

static void check_tree_run(size_t stack, size_t list)
{
    struct run_case c = { "L", &tree.grammar, NONE, stack, list, { DESK_DONE, 0, 0, tree.listed, 0 },
                          { tree.list, tree.listed }, tree.levels };
    if (counted(list) < tree.listed) {
        c.wanted = (struct wanted){ DESK_ROOM, 0, DESK_ROOM_LIST, counted(list), 0 };
        c.listed.length = counted(list);
        c.depth = counted(list) + 1 < tree.levels ? counted(list) + 1 : tree.levels;
    }
    check_run(&c);
}

/* Checks an expansion of the tree's list, of which `list` productions are passed. */
static void check_tree_back(const char *name, size_t list, size_t stack, struct wanted wanted, uint64_t depth)
{
    check_expand(&(struct expand_case){ name, &tree.grammar, { tree.list, list }, stack, 0, wanted, NONE, depth });
}

/* Checks example L: 2,047 productions and 11 stack cells for no token at all. */
static void check_example_l(void)
{
    static const size_t rooms[] = { 0, 2046, 2047, 2048, 65535, 65536, MANY_CELLS };
    make_tree(11);
    check("L", "2047 productions", tree.listed == 2047);
    for (size_t i = 0; i < COUNT(rooms); i++)
        check_tree_run(11, rooms[i]);
    check_run(&(struct run_case){ "L", &tree.grammar, NONE, 10, 2047, { DESK_ROOM, 0, DESK_ROOM_STACK, 9, 0 },
                                  { tree.list, 9 }, 10 });
    check_tree_back("L back", 2047, 11, (struct wanted){ DESK_DONE, 0, 0, 2047, 0 }, 11);
    check_tree_back("L back", 2046, 11, (struct wanted){ DESK_PRODUCTION, 2046, 0, 2046, 0 }, 11);
    check_tree_back("L back", 2046, 10, (struct wanted){ DESK_ROOM, 9, DESK_ROOM_STACK, 9, 0 }, 10);
}

/* Checks the sets and the table of example L, where everything vanishes through nonterminals. */
static void check_sets_of_l(void)
{
    uint64_t first[11], follow[11];
    make_tree(11);
    for (size_t n = 0; n < 11; n++) {
        first[n] = EMPTY;
        follow[n] = END;
    }
    struct grammar grammar = tree.grammar;
    grammar.first = first;
    grammar.follow = follow;
    check_grammar(&grammar);
    check_lookahead("L 0", grammar.book, 0, (struct wanted)DONE, END, 2);
    check_lookahead("L 10", grammar.book, 10, (struct wanted)DONE, END, 0);
}

/* Checks trees that need 65,535 productions, the most there can be, and twice as many. */
static void check_large_trees(void)
{
    for (uint8_t levels = 17; levels >= 16; levels--) {
        make_tree(levels);
        check("large tree", "productions", tree.listed == (levels == 16 ? 65535 : 131071));
        for (size_t i = 0; i < COUNT(large_rooms); i++)
            check_tree_run(levels, large_rooms[i]);
    }
    check_tree_back("large tree back", 65535, 16, (struct wanted){ DESK_DONE, 0, 0, 65535, 0 }, 16);
    check_tree_back("large tree back", 65536, 16, (struct wanted){ DESK_LIMIT, 65535, 0, 0, 0 }, 0);
    check_tree_back("large tree back", 65536, 0, (struct wanted){ DESK_LIMIT, 65535, 0, 0, 0 }, 0);
}

void check_trees(void)
{
    check_example_l();
    check_sets_of_l();
    check_large_trees();
}
