// Laying out without making the unfolded formula, which may have millions of nodes: the formula is walked as it stands. When its
// parts have chosen their boards, each slot is laid by one walk, its cuts are remembered and laid after it: a slot's stretch is
// filled before the next begins. Past the limit of nodes the walk counts on.

#include "layout.h"
#include "choices.h"

struct part {
    uint16_t at; // the place of its node
    uint16_t form;
};

enum { HELD = AGAIN + 1 }; // the form of a slot of the closed network, with its number as the place

struct cut {
    struct part part;
    uint8_t board;
    uint32_t holder; // the place of its place holder in the layout
};

struct laying {
    struct source *source;
    struct layout *layout;
    size_t found; // slots, laid or to be laid
    struct cut cuts[MOST_SLOTS];
    size_t waiting; // cuts to be laid, the next one last
};

static inline size_t put(struct layout *l, size_t nodes, unsigned code)
{
    if (nodes < MOST)
        l->node[nodes] = (uint8_t)code;
    return nodes + 1;
}

// Lays a next of the part at a place, as it stands.
static inline size_t put_next(struct layout *l, size_t nodes, const struct source *s, size_t at)
{
    size_t count = s->size[at];
    if (nodes + 1 + count <= MOST) {
        l->node[nodes] = NEXT;
        copy_bytes(l->node + nodes + 1, s->node + at, count);
    }
    return nodes + 1 + count;
}

// Lays one slot, whose top stays whatever its choice; 0 where there are too many slots. A cut leaves room for a place holder, which
// gets its number when its slot is laid. The walk keeps the parts that wait for those before them: one at most for each node.
static int lay_slot(struct laying *w, struct part part, unsigned board)
{
    const struct source *s = w->source;
    struct layout *l = w->layout;
    struct part waiting[MOST], *top = waiting;
    unsigned choice = board;
    size_t nodes = l->nodes;
    for (;;) {
        uint16_t i = part.at, left = i + 1;
        unsigned code = s->node[i];
        int is_held = code >= PLACE_HOLDER;
        if (is_held || (choice != board && choice != STAYS)) {
            if (w->found == MOST_SLOTS)
                return 0;
            w->found++;
            if (is_held)
                part = (struct part){(uint16_t)(code - PLACE_HOLDER), HELD};
            w->cuts[w->waiting++] = (struct cut){part, (uint8_t)choice, (uint32_t)nodes++};
        } else if (part.form == AGAIN) {
            nodes = put_next(l, nodes, s, i);
        } else if (part.form == BOTH) {
            nodes = put(l, nodes, AND);
            *top++ = (struct part){i, AGAIN};
            part = (struct part){left, WHOLE};
            choice = choice_of(s, left, WHOLE);
            continue;
        } else if (code >= PROPOSITION || code <= TRUE) {
            nodes = put(l, nodes, code);
        } else if (code == NEXT) {
            nodes = put_next(l, nodes, s, left);
        } else {
            uint16_t first = left;
            if (code == AND || code == OR) {
                *top++ = (struct part){(uint16_t)(left + s->size[left]), WHOLE};
            } else if (code == UNTIL) {
                *top++ = (struct part){i, BOTH};
                first = (uint16_t)(left + s->size[left]);
            } else if (code != NOT) {
                *top++ = (struct part){i, AGAIN};
            }
            nodes = put(l, nodes, code == EVENTUALLY || code == UNTIL ? OR : code == ALWAYS ? AND : code);
            part = (struct part){first, WHOLE};
            choice = choice_of(s, first, WHOLE);
            continue;
        }
        if (top == waiting) {
            l->nodes = nodes;
            return 1;
        }
        part = *--top;
        choice = choice_of(s, part.at, part.form);
    }
}

// A slot's cuts are laid in the order they were met, each with all below it before the next.
static void reverse(struct cut *cuts, size_t count)
{
    for (size_t i = 0; i < count / 2; i++) {
        struct cut other = cuts[i];
        cuts[i] = cuts[count - 1 - i];
        cuts[count - 1 - i] = other;
    }
}

// Lays the formula that stands first as slot 0, and all that is cut from it.
static uint32_t lay(struct source *s, unsigned board, struct layout *l)
{
    struct laying w;
    w.source = s;
    w.layout = l;
    w.found = 1;
    w.waiting = 0;
    l->slots = l->nodes = 0;
    struct part part = {0, WHOLE};
    for (;;) {
        size_t start = l->nodes, before = w.waiting;
        if (!lay_slot(&w, part, board))
            return SLOTS;
        reverse(w.cuts + before, w.waiting - before);
        l->slot[l->slots++] = (struct slot){(uint8_t)board, 0, (uint16_t)start, (uint16_t)(l->nodes - start)};
        if (w.waiting == 0)
            return l->nodes > MOST ? NODES : 0;
        struct cut next = w.cuts[--w.waiting];
        if (next.holder < MOST)
            l->node[next.holder] = (uint8_t)(PLACE_HOLDER + l->slots);
        part = next.part;
        board = next.board;
        if (part.form == HELD) { // it keeps its board
            struct slot held = slot_at(s->held + SLOT * part.at);
            choose_boards(s, held.start, held.length);
            part = (struct part){held.start, WHOLE};
            board = held.board;
        }
    }
}

uint32_t lay_rule(const uint8_t *formula, size_t count, const uint64_t *masks, size_t boards, struct layout *layout)
{
    struct source s;
    s.node = formula;
    s.held = NULL;
    find_boards(&s, masks, boards);
    choose_boards(&s, 0, count);
    unsigned choice = choice_of(&s, 0, WHOLE);
    return lay(&s, choice == STAYS ? 0 : choice, layout);
}

uint32_t lay_again(const struct network *network, struct layout *layout)
{
    struct source s;
    s.node = network->node;
    s.held = network->slot;
    find_boards(&s, network->masks, network->boards);
    struct slot root = slot_at(s.held);
    choose_boards(&s, 0, root.length);
    return lay(&s, root.board, layout);
}
