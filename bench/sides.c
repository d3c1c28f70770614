// The calls of both sides, and the tick that is made of them.

#include "sides.h"
#include "../include/vydrulka.h"
#include "plain.h"

const struct side library = {vydrulka_read, vydrulka_write, vydrulka_central, vydrulka_load, vydrulka_sample,
                             vydrulka_step, vydrulka_close, vydrulka_ask, vydrulka_capture,
                             vydrulka_parse, vydrulka_print, vydrulka_report, vydrulka_add,
                             vydrulka_mend, vydrulka_stretch};
const struct side plain = {plain_read, plain_write, plain_central, plain_load, plain_sample,
                           plain_step, plain_close, plain_ask, plain_capture,
                           plain_parse, plain_print, plain_report, plain_add,
                           plain_mend, plain_stretch};

uint32_t tick(const struct side *side, const struct input *in, uint64_t event, uint8_t *state, uint8_t *second)
{
    uint32_t number = 0;
    for (size_t i = 0; i < in->masks_count && number == 0; i++)
        number = side->sample(state, STATE_BYTES, i, event & in->masks[i]);
    for (size_t i = state[2]; i-- > 0 && number == 0;) // the state says how many slots it has
        number = side->step(state, STATE_BYTES, i);
    return number == 0 ? side->close(state, STATE_BYTES, second, STATE_BYTES) : number;
}
