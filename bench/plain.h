// The plain C version of the calls, by hand and for speed: the library's C interface under other names, as a yardstick for its
// speed. Bytes in place, nothing allocated.
// Each answers 0 or the refusal's number; what the pointers lead to is written only where the answer is 0, parse's line and byte
// only where it is 16, and report's place only where it is 19.

#ifndef PLAIN_H
#define PLAIN_H

#include <stddef.h>
#include <stdint.h>

uint32_t plain_read(const uint8_t *file, size_t file_len, uint64_t *masks, size_t masks_len, uint8_t *formula, size_t formula_len,
                    uint64_t *boards, uint64_t *propositions, uint64_t *nodes);

uint32_t plain_write(const uint64_t *masks, size_t masks_len, uint64_t propositions, const uint8_t *formula, size_t formula_len,
                     uint8_t *file, size_t file_len, uint64_t *length);

uint32_t plain_central(const uint8_t *formula, size_t formula_len, uint64_t event, uint8_t *output, size_t output_len,
                       uint32_t *verdict, uint64_t *length);

uint32_t plain_load(const uint8_t *file, size_t file_len, uint8_t *state, size_t state_len);

uint32_t plain_sample(uint8_t *state, size_t state_len, uint64_t board, uint64_t bits);

uint32_t plain_step(uint8_t *state, size_t state_len, uint64_t slot);

uint32_t plain_close(const uint8_t *state, size_t state_len, uint8_t *second, size_t second_len);

uint32_t plain_ask(const uint8_t *state, size_t state_len, uint32_t *verdict, uint32_t *ticks, uint64_t *slots, uint64_t *nodes);

uint32_t plain_capture(uint8_t *state, size_t state_len, uint8_t *second, size_t second_len, const uint64_t *events,
                       size_t events_len, uint64_t *closed, uint32_t *verdict, uint32_t *stop);

uint32_t plain_parse(const uint8_t *text, size_t text_len, uint8_t *formula, size_t formula_len, uint64_t *nodes, uint64_t *line,
                     uint64_t *byte);

uint32_t plain_print(const uint8_t *formula, size_t formula_len, uint8_t *text, size_t text_len, uint64_t *length);

uint32_t plain_report(const uint8_t *runs, size_t runs_len, uint8_t *report, size_t report_len, uint64_t *place);

uint32_t plain_add(uint8_t *total, size_t total_len, const uint8_t *night, size_t night_len);

uint32_t plain_mend(const uint8_t *recording, size_t recording_len, uint8_t *mended, size_t mended_len, uint8_t *marks,
                    size_t marks_len, uint64_t *kept, uint64_t *first);

uint32_t plain_stretch(const uint8_t *recording, size_t recording_len, uint64_t *events, size_t events_len, uint64_t *first);

#endif
