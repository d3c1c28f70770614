// Nights counted through the library: each file named is a night's runs, 12 bytes a run. They are reported and added up, and for each
// rule that ran a line is printed: the rule, its runs, those that were false, and the ticks of these, or that there are none.

#include "../include/vydrulka.h"

#include <inttypes.h>
#include <stdio.h>
#include <stdlib.h>

// One byte more than the longest list, so that a longer one is refused by its length.
static uint8_t runs[VYDRULKA_RUN_LENGTH * VYDRULKA_RUNS_MOST + 1];

// Ends the program where a call was refused, with the name of the night.
static void must_accept(const char *name, uint32_t answer)
{
    if (answer == VYDRULKA_ACCEPTED)
        return;
    fprintf(stderr, "%s refused %" PRIu32 ": %s\n", name, answer, vydrulka_refusal_words(answer));
    exit(EXIT_FAILURE);
}

// Reads a night to the front of the runs: how many bytes it has.
static size_t read_night(const char *name)
{
    FILE *file = fopen(name, "rb");
    if (file == NULL) {
        perror(name);
        exit(EXIT_FAILURE);
    }
    size_t length = fread(runs, 1, sizeof runs, file);
    fclose(file);
    return length;
}

// Counts a night, and adds it to the total.
static void add_night(const char *name, uint8_t *total)
{
    uint8_t report[VYDRULKA_REPORT_LENGTH];
    uint64_t place;
    uint32_t answer = vydrulka_report(runs, read_night(name), report, sizeof report, &place);
    if (answer == VYDRULKA_REFUSED_RUN)
        fprintf(stderr, "run %" PRIu64 ": ", place);
    must_accept(name, answer);
    must_accept(name, vydrulka_add(total, VYDRULKA_REPORT_LENGTH, report, sizeof report));
}

int main(int count, char **names)
{
    static uint8_t total[VYDRULKA_REPORT_LENGTH]; // zeros: the report of no runs
    for (int i = 1; i < count; i++)
        add_night(names[i], total);
    for (unsigned rule = 0; rule < VYDRULKA_RULES_MOST; rule++) {
        struct vydrulka_row row = vydrulka_report_row(total, rule);
        if (row.runs == 0)
            continue;
        printf("rule %u: %" PRIu32 " runs, %" PRIu32 " false", rule, row.runs, row.false_runs);
        if (row.false_runs == 0)
            printf("\n");
        else
            printf(", from tick %" PRIu32 " to %" PRIu32 ", %" PRIu64 " ticks in all\n", row.earliest, row.latest, row.sum);
    }
    return 0;
}
