// One pass from the back adds up the scores of each part as it would be unfolded, copies under next included, and lets it choose.
// Scores are kept for the boards that occur alone, since most parts have few.

#include "choices.h"

struct operand {
    uint64_t score[MOST_BOARDS + 1]; // as it stands in the low half, unfolded in the high half; the last one is 0
    unsigned boards;                 // a bit for each board that scores
    uint8_t count;                   // of those boards
    uint8_t plain, unfolded;         // its choices
};

enum { UNFOLDED = 32 }; // the bit where the unfolded score begins

static inline uint32_t plain_score(uint64_t score)
{
    return (uint32_t)score;
}

static inline uint32_t unfolded_score(uint64_t score)
{
    return (uint32_t)(score >> UNFOLDED);
}

// Of two boards the one with the higher score, the lower one on a tie.
static inline unsigned better(unsigned a, uint32_t score_a, unsigned b, uint32_t score_b)
{
    return (score_a > score_b) | ((score_a == score_b) & (a < b)) ? a : b;
}

static inline void score_leaf(struct operand *leaf, unsigned board)
{
    leaf->score[STAYS] = 0;
    leaf->score[board] = board != STAYS ? (UINT64_C(1) << UNFOLDED) + 1 : 0;
    leaf->boards = (1u << board) % (1u << STAYS);
    leaf->count = board != STAYS;
    leaf->plain = leaf->unfolded = (uint8_t)board;
}

// An and or an or: the operand with fewer boards is added to the other. A score only grows, so the choice is the former one or a
// board that was added to.
static inline void score_joint(struct operand *to, const struct operand *from)
{
    unsigned plain = to->plain, unfolded = to->unfolded, had = to->boards, count = to->count;
    for (unsigned boards = from->boards; boards != 0; boards &= boards - 1) {
        unsigned board = (unsigned)__builtin_ctz(boards), there = had >> board & 1;
        uint64_t score = from->score[board] + (there ? to->score[board] : 0);
        count += !there;
        to->score[board] = score;
        plain = better(board, plain_score(score), plain, plain_score(to->score[plain]));
        unfolded = better(board, unfolded_score(score), unfolded, unfolded_score(to->score[unfolded]));
    }
    to->boards = had | from->boards;
    to->count = (uint8_t)count;
    to->plain = (uint8_t)plain;
    to->unfolded = (uint8_t)unfolded;
}

// An until of f and g: or(g, and(f, next)), with f and g in the next as they stand. It takes g's place; its choices.
static inline uint32_t score_until(const struct operand *f, struct operand *g)
{
    unsigned again = STAYS, both = STAYS, whole = STAYS, all = f->boards | g->boards, count = 0;
    uint32_t most_again = 0, most_both = 0, most_whole = 0;
    for (unsigned boards = all; boards != 0; boards &= boards - 1) {
        unsigned board = (unsigned)__builtin_ctz(boards);
        uint64_t left = f->boards >> board & 1 ? f->score[board] : 0, right = g->boards >> board & 1 ? g->score[board] : 0;
        uint32_t in_again = plain_score(left) + plain_score(right);
        uint32_t in_both = unfolded_score(left) + in_again, in_whole = unfolded_score(right) + in_both;
        g->score[board] = (uint64_t)in_whole << UNFOLDED | in_again;
        count++;
        again = in_again > most_again ? board : again;
        most_again = in_again > most_again ? in_again : most_again;
        both = in_both > most_both ? board : both;
        most_both = in_both > most_both ? in_both : most_both;
        whole = in_whole > most_whole ? board : whole;
        most_whole = in_whole > most_whole ? in_whole : most_whole;
    }
    g->boards = all;
    g->count = (uint8_t)count;
    g->plain = (uint8_t)again;
    g->unfolded = (uint8_t)whole;
    return whole | both << 8 * BOTH | again << 8 * AGAIN;
}

// A next, whose operand is not unfolded: its choice.
static inline uint32_t score_next(struct operand *f)
{
    for (unsigned boards = f->boards; boards != 0; boards &= boards - 1) {
        unsigned board = (unsigned)__builtin_ctz(boards);
        uint64_t score = plain_score(f->score[board]);
        f->score[board] = score << UNFOLDED | score;
    }
    return f->unfolded = f->plain;
}

// An eventually or always of f, which stands in it unfolded and, under next, as it is: its choices.
static inline uint32_t score_again(struct operand *f)
{
    unsigned whole = STAYS;
    uint32_t most = 0;
    for (unsigned boards = f->boards; boards != 0; boards &= boards - 1) {
        unsigned board = (unsigned)__builtin_ctz(boards);
        uint64_t score = f->score[board];
        score += score << UNFOLDED;
        f->score[board] = score;
        whole = unfolded_score(score) > most ? board : whole;
        most = unfolded_score(score) > most ? unfolded_score(score) : most;
    }
    f->unfolded = (uint8_t)whole;
    return whole | (uint32_t)f->plain << 8 * AGAIN;
}

// The operands of a node are the last ones done, the first on top; at most every second node waits for another. The stack holds
// pointers, so that of two operands either can be the one that is kept.
void choose_boards(struct source *s, size_t start, size_t count)
{
    struct operand room[MOST / 2 + 1], *stack[MOST / 2 + 1], **top = stack, **unused = stack;
    for (size_t i = start + count; i-- > start;) {
        unsigned code = s->node[i];
        uint32_t choices;
        size_t size = 1;
        if (code >= PROPOSITION || code <= TRUE) {
            choices = code / 64 == 1 ? s->board_of[code % 64] : STAYS;
            if (top == unused)
                *unused++ = &room[top - stack];
            score_leaf(*top++, choices);
        } else if (code == AND || code == OR || code == UNTIL) {
            size_t left = s->size[i + 1];
            size += left + s->size[i + 1 + left];
            top--;
            struct operand *f = top[0], *g = top[-1];
            if (code == UNTIL) {
                choices = score_until(f, g);
            } else if (f->count > g->count) {
                score_joint(f, g);
                top[0] = g;
                top[-1] = f;
                choices = f->unfolded;
            } else {
                score_joint(g, f);
                choices = g->unfolded;
            }
        } else {
            size += s->size[i + 1];
            choices = code == NOT ? top[-1]->unfolded : code == NEXT ? score_next(top[-1]) : score_again(top[-1]);
        }
        s->size[i] = (uint16_t)size;
        s->choices[i] = choices;
    }
}

void find_boards(struct source *s, const uint64_t *masks, size_t boards)
{
    for (size_t i = 0; i < boards; i++)
        for (uint64_t mask = masks[i]; mask != 0; mask &= mask - 1)
            s->board_of[__builtin_ctzll(mask)] = (uint8_t)i;
}
