// Slots counted where their nodes have no room: the walk of layout.c once more, which lays nothing. A slot is told by its first part;
// two are compared by walking both at once, through the formula as it stands, where their sizes and prints are equal.

#include "laying.h"

enum { NOWHERE = 255 }; // no place holder

struct body {
    uint64_t print; // of its nodes; of what stands below next the size and three bytes do
    struct part first;
    uint32_t size;
    uint8_t board;
};

struct waiting_slot {
    struct body body; // up to where it waits
    uint8_t held;
};

struct pair {
    struct part a, b;
};

struct counting {
    struct source *source;
    uint8_t place[MOST_SLOTS];
    uint8_t cut[3][MOST]; // the places of the parts that are cut, by form
    size_t count;
    struct body body[MOST_SLOTS];
    struct part waiting[MOST_WAITING];
    struct waiting_slot open[MOST_OPEN];
    struct pair pairs[MOST];
};

// The node on top of a part.
static inline unsigned top_of(const struct counting *c, struct part part)
{
    unsigned code = c->source->node[part.at];
    if (part.form == AGAIN)
        return NEXT;
    if (part.form == BOTH || code == ALWAYS)
        return AND;
    if (code == UNTIL || code == EVENTUALLY)
        return OR;
    return code >= PLACE_HOLDER ? PLACE_HOLDER + (unsigned)c->place[code - PLACE_HOLDER] : code;
}

// The place of what a part stands for in a slot of this board, where it is cut or is a place holder.
static inline unsigned stands_for(const struct counting *c, struct part part, unsigned board)
{
    unsigned choice = choice_of(c->source, part.at, part.form), code = c->source->node[part.at];
    if (choice != board && choice != STAYS)
        return c->cut[part.form][part.at];
    return part.form == WHOLE && code >= PLACE_HOLDER ? c->place[code - PLACE_HOLDER] : NOWHERE;
}

static int is_same_text(const struct source *s, size_t a, size_t b)
{
    return a == b || (s->size[a] == s->size[b] && __builtin_memcmp(s->node + a, s->node + b, s->size[a]) == 0);
}

static inline int is_temporal(unsigned code)
{
    return code >= UNTIL && code <= ALWAYS;
}

// The left operand of a part whose top has operands.
static inline struct part left_of(const struct source *s, struct part part)
{
    uint16_t left = part.at + 1;
    if (part.form == WHOLE && s->node[part.at] == UNTIL)
        left += s->size[left];
    return (struct part){left, WHOLE};
}

static inline struct part right_of(const struct source *s, struct part part)
{
    unsigned code = s->node[part.at];
    uint16_t left = part.at + 1;
    if (part.form == WHOLE && code <= OR)
        return (struct part){(uint16_t)(left + s->size[left]), WHOLE};
    return (struct part){part.at, part.form == WHOLE && code == UNTIL ? BOTH : AGAIN};
}

// Whether two slots of one board have equal nodes. Two temporal operators unfold to equal nodes exactly where they are equal as they
// stand: their copies are among those nodes.
static int are_equal(struct counting *c, struct part a, struct part b, unsigned board)
{
    const struct source *s = c->source;
    struct pair *top = c->pairs;
    for (;;) {
        unsigned code = top_of(c, a);
        if (code != top_of(c, b))
            return 0;
        int whole = a.form == WHOLE && b.form == WHOLE;
        if (whole && is_temporal(s->node[a.at]) && is_temporal(s->node[b.at])) {
            if (!is_same_text(s, a.at, b.at))
                return 0;
        } else if (code == NEXT) {
            if (!is_same_text(s, a.at + (a.form == WHOLE), b.at + (b.form == WHOLE)))
                return 0;
        } else if (code >= NOT && code <= OR) {
            struct pair left = {left_of(s, a), left_of(s, b)};
            unsigned place = stands_for(c, left.a, board);
            if (place != stands_for(c, left.b, board))
                return 0;
            if (code != NOT) {
                struct pair right = {right_of(s, a), right_of(s, b)};
                unsigned other = stands_for(c, right.a, board);
                if (other != stands_for(c, right.b, board))
                    return 0;
                if (other == NOWHERE)
                    *top++ = right;
            }
            if (place == NOWHERE) {
                a = left.a;
                b = left.b;
                continue;
            }
        }
        if (top == c->pairs)
            return 1;
        top--;
        a = top->a;
        b = top->b;
    }
}

static inline void note(struct body *body, uint64_t what, uint32_t nodes)
{
    body->print = (body->print + what) * UINT64_C(0x9e3779b97f4a7c15);
    body->size += nodes;
}

static inline void note_next(struct body *body, const struct source *s, size_t at)
{
    size_t count = s->size[at];
    const uint8_t *text = s->node + at;
    note(body, NEXT | (uint64_t)text[0] << 8 | (uint64_t)text[count / 2] << 16 | (uint64_t)text[count - 1] << 24 | (uint64_t)count << 32,
         (uint32_t)(1 + count));
}

// The place of a slot among those that differ, or MOST_SLOTS where there are too many.
static unsigned place_of(struct counting *c, struct body body)
{
    for (unsigned i = 0; i < c->count; i++) {
        const struct body *known = &c->body[i];
        if (known->print == body.print && known->board == body.board && known->size == body.size &&
            are_equal(c, known->first, body.first, body.board))
            return i;
    }
    if (c->count == MOST_SLOTS - 1)
        return MOST_SLOTS;
    c->body[c->count] = body;
    return (unsigned)c->count++;
}

uint32_t count_slots(struct source *s, unsigned board)
{
    struct counting c;
    struct part *top = c.waiting, part = {0, WHOLE};
    struct waiting_slot *open = c.open, *last = c.open + MOST_OPEN;
    struct body now = {0, part, 0, (uint8_t)board};
    unsigned choice = board;
    c.source = s;
    c.count = 0;
    for (size_t i = 0; i < MOST_SLOTS; i++)
        c.place[i] = UNKNOWN;
    for (;;) {
        unsigned code = s->node[part.at];
        if (choice != now.board && choice != STAYS) {
            if (open == last)
                return SLOTS;
            *open++ = (struct waiting_slot){now, CUT};
            *top++ = (struct part){0, DONE};
            now = (struct body){0, part, 0, (uint8_t)choice};
        }
        if (part.form == AGAIN) {
            note_next(&now, s, part.at);
        } else if (part.form == WHOLE && code >= PLACE_HOLDER && c.place[code - PLACE_HOLDER] == UNKNOWN) {
            unsigned number = code - PLACE_HOLDER;
            struct slot held = slot_at(s->held + SLOT * number);
            choose_held(s, number, held);
            if (open == last)
                return SLOTS;
            *open++ = (struct waiting_slot){now, (uint8_t)number};
            *top++ = (struct part){0, DONE};
            part = (struct part){held.start, WHOLE};
            choice = held.board;
            now = (struct body){0, part, 0, held.board};
            continue;
        } else if (part.form == WHOLE && (code >= PROPOSITION || code <= TRUE)) {
            note(&now, top_of(&c, part), 1);
        } else if (part.form == WHOLE && code == NEXT) {
            note_next(&now, s, part.at + 1u);
        } else {
            note(&now, top_of(&c, part), 1);
            if (part.form != WHOLE || code != NOT)
                *top++ = right_of(s, part);
            part = left_of(s, part);
            choice = choice_of(s, part.at, WHOLE);
            continue;
        }
        for (;;) {
            if (top == c.waiting)
                return NODES;
            part = *--top;
            if (part.form != DONE)
                break;
            struct part first = now.first;
            open--;
            unsigned code_first = s->node[first.at], place;
            if (first.form == WHOLE && code_first >= PLACE_HOLDER)
                place = c.place[code_first - PLACE_HOLDER]; // it only passes on
            else
                place = place_of(&c, now);
            if (place == MOST_SLOTS)
                return SLOTS;
            if (open->held == CUT)
                c.cut[first.form][first.at] = (uint8_t)place;
            else
                c.place[open->held] = (uint8_t)place;
            now = open->body;
            note(&now, PLACE_HOLDER + place, 1);
        }
        choice = choice_of(s, part.at, part.form);
    }
}
