#include "operands.h"

enum { NO_CODE = 2 * MOST };

#define OPERATORS [FALSE] = -1, [TRUE] = -1, [NOT] = 0, [AND] = 1, [OR] = 1, [NEXT] = 0, [UNTIL] = 1, [EVENTUALLY] = 0, [ALWAYS] = 0
#define OVER(p) \
    [p] = {OPERATORS, [CODES ... PROPOSITION - 1] = NO_CODE, [PROPOSITION ... PROPOSITION + (p) - 1] = -1, \
           [PROPOSITION + (p) ... 255] = NO_CODE}
#define OVER_FOUR(p) OVER(p), OVER(p + 1), OVER(p + 2), OVER(p + 3)
#define OVER_SIXTEEN(p) OVER_FOUR(p), OVER_FOUR(p + 4), OVER_FOUR(p + 8), OVER_FOUR(p + 12)

const int16_t owes[MOST_PROPOSITIONS + 1][256] = {OVER_SIXTEEN(1), OVER_SIXTEEN(17), OVER_SIXTEEN(33), OVER_SIXTEEN(49)};
