#include "trees.h"

#include "differential/pick.h"

#include <string.h>

enum form { ONE, CAT, ALT, PLUS, OPT };
enum { MOST_NODES = 20000, MOST_RANGES = 4 };

struct range {
    uint8_t low;
    uint8_t high;
};

struct tree {
    enum form form;
    size_t ranges;
    struct range range[MOST_RANGES];
    const struct tree *left;
    const struct tree *right;
};

static struct tree nodes[MOST_NODES];
static size_t used;
static uint8_t letters[6];
static size_t letter_count;

void begin_trees(void)
{
    static const uint8_t odd[] = { ' ', '-', '[', ']', '(', ')', '|', '*', '+', '?', '\\', 0, 10, 127, 128, 255 };
    used = 0;
    letter_count = pick(1, sizeof letters);
    for (size_t i = 0; i < letter_count; i++)
        letters[i] = chance(75) ? (uint8_t)('a' + i) : odd[pick(0, sizeof odd - 1)];
}

uint8_t any_tree_byte(void)
{
    return chance(95) ? letters[pick(0, letter_count - 1)] : (uint8_t)pick(0, 255);
}

static struct tree *new_node(enum form form)
{
    struct tree *node = &nodes[used++];
    memset(node, 0, sizeof *node);
    node->form = form;
    return node;
}

static const struct tree *make_class(void)
{
    struct tree *node = new_node(ONE);
    node->ranges = chance(70) ? 1 : pick(1, MOST_RANGES);
    for (size_t i = 0; i < node->ranges; i++) {
        uint8_t one = any_tree_byte(), other = chance(80) ? one : any_tree_byte();
        node->range[i] = (struct range){ one < other ? one : other, one < other ? other : one };
    }
    return node;
}

static const struct tree *make_node(enum form form, const struct tree *left, const struct tree *right)
{
    struct tree *node = new_node(form);
    node->left = left;
    node->right = right;
    return node;
}

/* A tree of about so many bytes and classes. */
static const struct tree *make_part(size_t size)
{
    if (chance(20) && used + 2 < MOST_NODES) {
        const struct tree *node = make_node(chance(60) ? PLUS : OPT, make_part(size), NULL);
        return chance(30) ? make_node(OPT, node, NULL) : node;
    }
    if (size < 2 || used + 2 * size + 4 > MOST_NODES)
        return make_class();
    size_t half = pick(1, size - 1);
    return make_node(chance(65) ? CAT : ALT, make_part(half), make_part(size - half));
}

const struct tree *make_tree(size_t size)
{
    const struct tree *tree = make_part(size);
    while (tree->form == OPT && chance(90))
        tree = tree->left;
    return chance(50) ? make_node(CAT, make_class(), tree) : tree;
}

/* Text that is being written; what finds no room is dropped. */
struct writer {
    uint8_t *text;
    size_t length;
    size_t most;
};

static void put(struct writer *w, uint8_t byte)
{
    if (w->length < w->most)
        w->text[w->length++] = byte;
}

static void put_letter(struct writer *w, uint8_t byte, bool in_class)
{
    bool special = (byte != 0 && strchr("[]()|*+?\\", byte)) || (in_class && byte == '-');
    if (special || chance(3))
        put(w, '\\');
    put(w, byte);
}

static void put_class(struct writer *w, const struct tree *tree)
{
    if (tree->ranges == 1 && tree->range[0].low == tree->range[0].high && chance(90)) {
        put_letter(w, tree->range[0].low, false);
        return;
    }
    put(w, '[');
    for (size_t i = 0; i < tree->ranges; i++) {
        put_letter(w, tree->range[i].low, true);
        if (tree->range[i].low != tree->range[i].high || chance(10)) {
            put(w, '-');
            put_letter(w, tree->range[i].high, true);
        }
    }
    put(w, ']');
}

/* How tightly a form binds: an item binds a repetition, a sequence less and an alternation least. */
enum binding { ALTERNATION, SEQUENCE, REPETITION, LONE };

static enum binding binding_of(const struct tree *tree)
{
    return tree->form == ONE ? LONE : tree->form == CAT ? SEQUENCE : tree->form == ALT ? ALTERNATION : REPETITION;
}

static void put_tree(struct writer *w, const struct tree *tree, enum binding wanted)
{
    bool grouped = binding_of(tree) < wanted || chance(2);
    if (grouped)
        put(w, '(');
    if (tree->form == ONE)
        put_class(w, tree);
    else if (tree->form == CAT) {
        put_tree(w, tree->left, SEQUENCE);
        put_tree(w, tree->right, SEQUENCE);
    } else if (tree->form == ALT) {
        put_tree(w, tree->left, ALTERNATION);
        put(w, '|');
        put_tree(w, tree->right, ALTERNATION);
    } else if (tree->form == OPT && tree->left->form == PLUS && chance(80)) {
        put_tree(w, tree->left->left, LONE);
        put(w, '*');
    } else {
        put_tree(w, tree->left, LONE);
        put(w, tree->form == PLUS ? '+' : '?');
    }
    if (grouped)
        put(w, ')');
}

size_t write_tree(const struct tree *tree, uint8_t *text, size_t most)
{
    struct writer w = { text, 0, most };
    put_tree(&w, tree, ALTERNATION);
    return w.length;
}

static void sample(struct writer *w, const struct tree *tree)
{
    switch (tree->form) {
    case ONE: {
        struct range range = tree->range[pick(0, tree->ranges - 1)];
        put(w, (uint8_t)pick(range.low, range.high));
        return;
    }
    case CAT:
        sample(w, tree->left);
        sample(w, tree->right);
        return;
    case ALT:
        sample(w, chance(50) ? tree->left : tree->right);
        return;
    case PLUS:
        sample(w, tree->left);
        while (chance(30))
            sample(w, tree->left);
        return;
    case OPT:
        if (chance(60))
            sample(w, tree->left);
    }
}

size_t sample_tree(const struct tree *tree, uint8_t *string, size_t most)
{
    struct writer w = { string, 0, most };
    sample(&w, tree);
    return w.length;
}

static bool in_class(const struct tree *tree, uint8_t byte)
{
    for (size_t i = 0; i < tree->ranges; i++)
        if (tree->range[i].low <= byte && byte <= tree->range[i].high)
            return true;
    return false;
}

/* The places where a match can end that starts at one of the places given, by the sentence for each form. */
static uint32_t match_ends(const struct tree *tree, const uint8_t *string, size_t length, uint32_t starts)
{
    uint32_t ends = 0, once;
    switch (tree->form) {
    case ONE:
        for (size_t i = 0; i < length; i++)
            if ((starts >> i & 1) && in_class(tree, string[i]))
                ends |= UINT32_C(1) << (i + 1);
        return ends;
    case CAT:
        return match_ends(tree->right, string, length, match_ends(tree->left, string, length, starts));
    case ALT:
        return match_ends(tree->left, string, length, starts) | match_ends(tree->right, string, length, starts);
    case PLUS:
        while ((once = match_ends(tree->left, string, length, starts | ends)) & ~ends)
            ends |= once;
        return ends;
    case OPT:
        return starts | match_ends(tree->left, string, length, starts);
    }
    return 0;
}

uint32_t beginnings(const struct tree *tree, const uint8_t *string, size_t length)
{
    return match_ends(tree, string, length, 1);
}
