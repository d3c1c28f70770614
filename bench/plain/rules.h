// A rule file's parts, for read and load.

#ifndef RULES_H
#define RULES_H

#include "parts.h"

struct rule {
    uint64_t boards, propositions, nodes;
    uint64_t masks[MOST_BOARDS]; // as many as there are boards
    const uint8_t *formula;      // inside the file
};

// 0, or the refusal from 1 to 6.
uint32_t rule_of(const uint8_t *file, size_t file_len, struct rule *rule);

#endif
