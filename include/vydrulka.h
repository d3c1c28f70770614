// The library's C interface. `tools/library` proves and builds it for x86-64 programs; link with -Ltarget/staticlib -lvydrulka.
// docs/RULES.md says what rules, states and ticks are. tests/header holds this file to the sources.
//
// A call stands any bytes and numbers. It makes its checks in the order that its comment gives and answers the number of the
// first that fails; then it has written nothing. Else it answers 0 and has stored its values behind the pointers to single
// numbers. Only 16 and 19 tell more than their number: vydrulka_parse has then stored the line and the byte, and vydrulka_report
// the place. What a call answers and writes follows from what it is given, and from nothing else. A capture that comes to an event
// which is refused is accepted itself: it answers 0, stores where and why it stopped, and leaves what was closed before.
//
// Memory: a call allocates nothing and keeps nothing. It has no memory of its own but the stack. Load, close and capture take more
// of it the deeper a formula is nested, the others the same small amount. On the deepest inputs that are known a thread with 1 MiB
// of stack can make every call but close and capture, and one with 4 MiB these two as well. That is measured and not proved: see
// the figures below.
//
// Threads: calls share nothing. Any thread may make any call at any time, as long as no other call writes what it is given.
//
// States: a state is plain bytes without pointers, the same on every machine. It may be copied, saved, moved to another address
// or machine, and used again there. Each call checks the state that it is given.
//
// The caller sees to it that no pointer is null, that a buffer has as many elements as the length behind it says, and that
// nothing which a call may write overlaps anything else that it is given. A buffer of bytes may begin at any address; masks,
// events and single numbers are aligned as C aligns their type.

#ifndef VYDRULKA_H
#define VYDRULKA_H

#include <stddef.h>
#include <stdint.h>

// The version of this interface; CHANGES.md lists what changed. A call that is changed or taken away makes a new major version.
#define VYDRULKA_VERSION_MAJOR 1
#define VYDRULKA_VERSION_MINOR 7

#ifdef __cplusplus
extern "C" {
#endif

// Limits and lengths.
enum {
    VYDRULKA_BOARDS_MOST = 16,       // boards of a rule
    VYDRULKA_PROPOSITIONS_MOST = 64, // propositions of a rule
    VYDRULKA_RULE_NODES_MOST = 1024, // nodes of a rule's formula
    VYDRULKA_FILE_MOST = 1168,       // bytes of a rule file
    VYDRULKA_TEXT_LENGTH = 8192,     // bytes of a buffer for a rule's text, always; a text that is read may be longer
    VYDRULKA_SLOTS_MOST = 64,        // slots of a network
    VYDRULKA_NODES_MOST = 4096,      // nodes of a network, and of a formula that central takes or unfolds
    VYDRULKA_STATE_LENGTH = 4768,    // bytes of a state, always
    VYDRULKA_RUNS_MOST = 65536,      // runs of a list, and of two reports together
    VYDRULKA_RULES_MOST = 256,       // rules that a list of runs may tell of: their numbers are below this
    VYDRULKA_RUN_LENGTH = 12,        // bytes of a run
    VYDRULKA_ROW_LENGTH = 32,        // bytes of a report's row
    VYDRULKA_REPORT_LENGTH = 8192,   // bytes of a report, always: a row for each rule number
    VYDRULKA_RECORDS_AT = 16,        // bytes of a recording in front of its records
    VYDRULKA_RECORD_LENGTH = 12,     // bytes of a record
};

// Stack: a thread of so many bytes can make the call. Measured and rounded up, not proved: behind each stands what the deepest
// known input took (tests/stack; kit rattle-kit-5b). The caller's own frames come on top.
enum {
    VYDRULKA_STACK_READ = 32768,      // 344
    VYDRULKA_STACK_WRITE = 32768,     // 104
    VYDRULKA_STACK_PARSE = 32768,     // 9,368, whatever the text
    VYDRULKA_STACK_PRINT = 32768,     // 2,136, whatever the formula
    VYDRULKA_STACK_CENTRAL = 32768,   // 20,856, whatever the formula
    VYDRULKA_STACK_LOAD = 1048576,    // 1,014,528, a rule of 1,023 nots
    VYDRULKA_STACK_SAMPLE = 32768,    // 520
    VYDRULKA_STACK_STEP = 32768,      // 8,520, whatever the slot
    VYDRULKA_STACK_CLOSE = 4194304,   // 3,953,536, a slot of 4,095 nots
    VYDRULKA_STACK_ASK = 32768,       // 536
    VYDRULKA_STACK_CAPTURE = 4194304, // 3,952,656, a slot of 4,094 nots
    VYDRULKA_STACK_REPORT = 32768,    // 7,240, whatever the runs
    VYDRULKA_STACK_ADD = 32768,       // 152
    VYDRULKA_STACK_MEND = 32768,      // 160
    VYDRULKA_STACK_STRETCH = 32768,   // 112
};

// A formula has one byte a node: the node's, then its operands, the left one before the right one.
enum vydrulka_node {
    VYDRULKA_NODE_FALSE = 0,
    VYDRULKA_NODE_TRUE = 1,
    VYDRULKA_NODE_NOT = 2,
    VYDRULKA_NODE_AND = 3,
    VYDRULKA_NODE_OR = 4,
    VYDRULKA_NODE_NEXT = 5,
    VYDRULKA_NODE_UNTIL = 6,
    VYDRULKA_NODE_EVENTUALLY = 7,
    VYDRULKA_NODE_ALWAYS = 8,
    VYDRULKA_NODE_PROP = 64,  // and i more: proposition i, which is bit i of a mask, a sample or an event
    VYDRULKA_NODE_HOLD = 128, // and k more: the place holder of slot k, in a state only
    VYDRULKA_NODE_END = 192,  // from here on no byte is a node
};

// What a call answers: that it was accepted, or why it was refused.
enum vydrulka_refusal {
    VYDRULKA_ACCEPTED = 0,
    VYDRULKA_REFUSED_LENGTH = 1,    // a buffer is not as long as asked for, or a rule file or a recording not as long as its own
                                    // total says
    VYDRULKA_REFUSED_VERSION = 2,   // the rule file's version is not 1
    VYDRULKA_REFUSED_RANGE = 3,     // boards, propositions or nodes of a rule are none or more than the limit; or two reports have
                                    // more runs together than the limit
    VYDRULKA_REFUSED_OFFSET = 4,    // an offset or the total is not the one that the rule file's counts give; or the numbers of a
                                    // report do not agree, so that no list of runs has it, or those of a recording's header
    VYDRULKA_REFUSED_MASKS = 5,     // a proposition is in no mask or in two, or a mask has a bit that is no proposition
    VYDRULKA_REFUSED_FORMULA = 6,   // not one whole formula, or it has a place holder, or a proposition that the rule does not count
    VYDRULKA_REFUSED_SLOTS = 7,     // the layout would have more slots than the limit
    VYDRULKA_REFUSED_NODES = 8,     // the layout, or central's unfolded formula, would have more nodes than the limit
    VYDRULKA_REFUSED_STATE = 9,     // the state fails its check, also by its length
    VYDRULKA_REFUSED_FINISHED = 10, // the watch is finished
    VYDRULKA_REFUSED_NOWHERE = 11,  // there is no board, or no slot, of this number
    VYDRULKA_REFUSED_OUTSIDE = 12,  // the sample has a bit outside its board's mask
    VYDRULKA_REFUSED_ALREADY = 13,  // the board has sampled, or the slot is stepped, in this tick already
    VYDRULKA_REFUSED_UNREADY = 14,  // what must come before in this tick has not come
    VYDRULKA_REFUSED_TICKS = 15,    // the ticks stand at 4,294,967,295
    VYDRULKA_REFUSED_TEXT = 16,     // not a rule as people type it; the line and the byte of the place are stored
    VYDRULKA_REFUSED_RUN = 19,      // a run's rule number or verdict is out of range; the run's place in the list is stored
    VYDRULKA_REFUSED_CLASH = 20,    // two records one behind the other have one counter and different events
};

// The mark of a record.
enum vydrulka_mark {
    VYDRULKA_MARK_KEPT = 0,
    VYDRULKA_MARK_DROPPED = 1,
    VYDRULKA_MARK_BROKEN = 2, // kept after a break
};

enum vydrulka_verdict {
    VYDRULKA_VERDICT_FALSE = 0,
    VYDRULKA_VERDICT_TRUE = 1,
    VYDRULKA_VERDICT_PENDING = 2,
};

// Reads a rule file: its masks to the front of `masks`, of length VYDRULKA_BOARDS_MOST, its formula to the front of `formula`,
// of length VYDRULKA_RULE_NODES_MOST, and zeros behind both. Gives the rule's counts.
// Stack: VYDRULKA_STACK_READ.
// Refusals in order: 1, 2, 3, 4, 5, 6.
uint32_t vydrulka_read(const uint8_t *file, size_t file_len, uint64_t *masks, size_t masks_len, uint8_t *formula,
                       size_t formula_len, uint64_t *boards, uint64_t *propositions, uint64_t *nodes);

// Writes the rule file of a rule with these masks, one for each board, so many propositions and this formula to the front of
// `file`, of length VYDRULKA_FILE_MOST, and zeros behind it. Gives the length of what was written.
// Stack: VYDRULKA_STACK_WRITE.
// Refusals in order: 1, 3, 5, 6.
uint32_t vydrulka_write(const uint64_t *masks, size_t masks_len, uint64_t propositions, const uint8_t *formula,
                        size_t formula_len, uint8_t *file, size_t file_len, uint64_t *written);

// Reads a rule as people type it, of any length: true, false, p0 to p63, ! X F G in front of their operand, U & | between their
// operands, and brackets. Prefix signs bind tightest, then U, then &, then |, and these group to the right. Blanks (space, tab, line
// feed, carriage return) may stand between signs. The formula goes to the front of `formula`, of length VYDRULKA_RULE_NODES_MOST, and
// zeros behind it. Gives the number of nodes. Where it answers 16, and only there, it gives the place where the text can go on no
// more: the line, counted from 1 by line feeds, and the byte of the text, counted from 0; its end where something is missing there.
// 3 is a text of more nodes than a rule may have.
// Stack: VYDRULKA_STACK_PARSE.
// Refusals in order: 1, 16, 3.
uint32_t vydrulka_parse(const uint8_t *text, size_t text_len, uint8_t *formula, size_t formula_len, uint64_t *nodes,
                        uint64_t *line, uint64_t *byte);

// Prints a formula of 1 to VYDRULKA_RULE_NODES_MOST nodes as people type it, with the fewest brackets and no blanks, to the front of
// `text`, of length VYDRULKA_TEXT_LENGTH, and zeros behind it. Gives the length of what was printed, at most four bytes a node and
// one. Parsing these bytes gives the formula back.
// Stack: VYDRULKA_STACK_PRINT.
// Refusals in order: 1, 3, 6.
uint32_t vydrulka_print(const uint8_t *formula, size_t formula_len, uint8_t *text, size_t text_len, uint64_t *length);

// Progresses a formula of 1 to VYDRULKA_NODES_MOST nodes over an event, in one place: the outcome to the front of `output`, of
// length VYDRULKA_NODES_MOST, and zeros behind it. Gives the outcome's verdict and nodes. The formula's constants are folded
// first, and 8 goes by the folded formula.
// Stack: VYDRULKA_STACK_CENTRAL.
// Refusals in order: 1, 6, 8.
uint32_t vydrulka_central(const uint8_t *formula, size_t formula_len, uint64_t event, uint8_t *output, size_t output_len,
                          uint32_t *verdict, uint64_t *nodes);

// Begins a watch: lays out the rule of a file, at 0 ticks, into `state`, of length VYDRULKA_STATE_LENGTH, and writes that whole.
// The rule's constants are folded first, and 7 and 8 go by the folded rule; where nothing but a constant is left the watch is
// finished at once.
// Stack: VYDRULKA_STACK_LOAD.
// Refusals in order: 1, 2, 3, 4, 5, 6, 7, 8.
uint32_t vydrulka_load(const uint8_t *file, size_t file_len, uint8_t *state, size_t state_len);

// Gives a board its sample of this tick: writes the sample and that the board has sampled, and no other byte of the state.
// Stack: VYDRULKA_STACK_SAMPLE.
// Refusals in order: 9, 10, 11, 12, 13.
uint32_t vydrulka_sample(uint8_t *state, size_t state_len, uint64_t board, uint64_t bits);

// Steps a slot whose board has sampled and whose held slots are stepped: writes the slot's stretch, length and mark, and no
// other byte of the state. A held slot has a higher number than its holder, so step from the highest number down.
// Stack: VYDRULKA_STACK_STEP.
// Refusals in order: 9, 10, 11, 13, 14.
uint32_t vydrulka_step(uint8_t *state, size_t state_len, uint64_t slot);

// Closes a tick in which all boards have sampled and all slots are stepped: lays out the network again, one tick on, into
// `second`, of length VYDRULKA_STATE_LENGTH, and writes that whole. The state stays as it was.
// Stack: VYDRULKA_STACK_CLOSE.
// Refusals in order: 1, 9, 10, 14, 15, 7, 8.
uint32_t vydrulka_close(const uint8_t *state, size_t state_len, uint8_t *second, size_t second_len);

// Gives a watch's verdict, which is pending until a load or a close has left it finished, and its ticks, slots and nodes.
// Stack: VYDRULKA_STACK_ASK.
// Refusals in order: 9.
uint32_t vydrulka_ask(const uint8_t *state, size_t state_len, uint32_t *verdict, uint32_t *ticks, uint64_t *slots,
                      uint64_t *nodes);

// Goes through a run of events, one tick for each, as the other calls do it: each board samples its part of the event, the lowest
// first, each slot is stepped, the highest first, and the tick is closed. It stops at the end of the events, of which there may be
// any number, also none; at a verdict, and looks at none behind it; or at an event that is refused. The call is accepted
// whichever it is. It gives the number of events that were closed, the verdict of the state that is left, and 0 or the refusal at
// which it stopped, one of 12 (a bit in no board's mask), 13 (a board had sampled when the call was made, so the first event
// alone), 9 (a step has left a state that fails its check, which no watch from a load on comes to), 15, 7, 8. The state becomes the
// last that was closed, and stays as it was, every byte, where none was. `second`, of length VYDRULKA_STATE_LENGTH, is room to work
// in: it is all zero in the end. `events` is aligned as C aligns uint64_t.
// Stack: VYDRULKA_STACK_CAPTURE.
// Refusals in order: 1, 9, 10.
uint32_t vydrulka_capture(uint8_t *state, size_t state_len, uint8_t *second, size_t second_len, const uint64_t *events,
                          size_t events_len, uint64_t *closed, uint32_t *verdict, uint32_t *stop);

// Counts a list of runs, rule by rule, into `report`, of length VYDRULKA_REPORT_LENGTH, and writes that whole. A run is one watch
// as triage counts it, VYDRULKA_RUN_LENGTH bytes of `runs`: at offset 0 the number of its rule, below VYDRULKA_RULES_MOST; at 4
// its last verdict; at 8 its last tick; each in 4 bytes, the lowest first. There may be up to VYDRULKA_RUNS_MOST of them, also
// none; more, or bytes that are left over, are 1. The row of rule r is the VYDRULKA_ROW_LENGTH bytes of the report from r times
// VYDRULKA_ROW_LENGTH on: at offset 0 its runs, at 4 those that were false, at 8 those that were true, at 12 those that were
// pending; then, of the runs that were false, at 16 the earliest tick, at 20 the latest and at 24 the sum of the ticks. The sum
// has 8 bytes, the others have 4, the lowest first. A rule without a false says so by its count of false runs, 0: the three
// numbers of ticks are then 0, and no ticks. A rule that did not run has a row of zeros. Where it answers 19, and only there, it
// gives the place of the first run that has a rule number or a verdict out of range: its number in the list, counted from 0.
// Stack: VYDRULKA_STACK_REPORT.
// Refusals in order: 1, 19.
uint32_t vydrulka_report(const uint8_t *runs, size_t runs_len, uint8_t *report, size_t report_len, uint64_t *place);

// Adds the report `night` to the report `total`, both of length VYDRULKA_REPORT_LENGTH: the total becomes the report of both
// lists of runs together, and is written whole. Zeros are the report of no runs, for a total to begin with. 3 is more than
// VYDRULKA_RUNS_MOST runs in the rows of both, added up. 4 is a row of either that no list of runs has: its runs are not the
// false, true and pending ones added up, or so many false runs cannot have its three numbers of ticks.
// Stack: VYDRULKA_STACK_ADD.
// Refusals in order: 1, 3, 4.
uint32_t vydrulka_add(uint8_t *total, size_t total_len, const uint8_t *night, size_t night_len);

// Mends a recording, the recorder's file of a capture: VYDRULKA_RECORDS_AT bytes of header, four numbers of 4 bytes with the
// lowest first (how many records there are, VYDRULKA_RECORDS_AT, the length of the file, 0), and behind them the records, each of
// VYDRULKA_RECORD_LENGTH bytes: a counter of 4 and an event of 8. A record whose counter and event both equal those of the record
// before it is dropped. Where the step from one counter to the next, which goes from 4,294,967,295 to 0, is neither 0 nor 1 there
// is a break, and a new stretch begins. Into `mended`, which is as long as the recording, go the records that are kept, behind a
// header for as many, and zeros behind them; into `marks`, which has a byte for each record that the recording's header counts, the
// mark of each record. Gives how many records were kept, and how many of them the first stretch has. The mended recording is the
// first VYDRULKA_RECORDS_AT + kept * VYDRULKA_RECORD_LENGTH bytes; mended again it is the same. A recording that has the same
// counter twice running with different events is 20, wherever that is.
// Stack: VYDRULKA_STACK_MEND.
// Refusals in order: 1, 4, 20.
uint32_t vydrulka_mend(const uint8_t *recording, size_t recording_len, uint8_t *mended, size_t mended_len, uint8_t *marks,
                       size_t marks_len, uint64_t *kept, uint64_t *first);

// Takes the events of a recording's first stretch, one a tick, to the front of `events`, which has room for one event for each record
// that the recording's header counts, and zeros behind them. Gives how many these are: so many events, and no more, may be handed to
// vydrulka_capture, because nothing is known of the ticks that a break has lost. The recording may be mended or not, the events are
// the same. `events` is aligned as C aligns uint64_t.
// Stack: VYDRULKA_STACK_STRETCH.
// Refusals in order: 1, 4, 20.
uint32_t vydrulka_stretch(const uint8_t *recording, size_t recording_len, uint64_t *events, size_t events_len, uint64_t *first);

// A report's row as numbers. Without a false run there are no ticks: earliest, latest and sum are then 0.
struct vydrulka_row {
    uint32_t runs, false_runs, true_runs, pending_runs;
    uint32_t earliest, latest; // ticks of the false runs
    uint64_t sum;              // of those ticks
};

// The number in so many bytes, the lowest first.
static inline uint64_t vydrulka_number_at(const uint8_t *bytes, unsigned count)
{
    uint64_t number = 0;
    while (count-- > 0)
        number = number << 8 | bytes[count];
    return number;
}

// The row of a rule, whose number is below VYDRULKA_RULES_MOST, in a report of VYDRULKA_REPORT_LENGTH bytes.
static inline struct vydrulka_row vydrulka_report_row(const uint8_t *report, unsigned rule)
{
    const uint8_t *bytes = report + (size_t)VYDRULKA_ROW_LENGTH * rule;
    struct vydrulka_row row;
    row.runs = (uint32_t)vydrulka_number_at(bytes, 4);
    row.false_runs = (uint32_t)vydrulka_number_at(bytes + 4, 4);
    row.true_runs = (uint32_t)vydrulka_number_at(bytes + 8, 4);
    row.pending_runs = (uint32_t)vydrulka_number_at(bytes + 12, 4);
    row.earliest = (uint32_t)vydrulka_number_at(bytes + 16, 4);
    row.latest = (uint32_t)vydrulka_number_at(bytes + 20, 4);
    row.sum = vydrulka_number_at(bytes + 24, 8);
    return row;
}

// A short phrase for an answer and a word for a verdict, for messages. Any number is allowed.
static inline const char *vydrulka_refusal_words(uint32_t answer)
{
    switch (answer) {
    case VYDRULKA_ACCEPTED: return "accepted";
    case VYDRULKA_REFUSED_LENGTH: return "wrong length";
    case VYDRULKA_REFUSED_VERSION: return "unknown version";
    case VYDRULKA_REFUSED_RANGE: return "count out of range";
    case VYDRULKA_REFUSED_OFFSET: return "wrong offset, or numbers that do not agree";
    case VYDRULKA_REFUSED_MASKS: return "masks do not fit";
    case VYDRULKA_REFUSED_FORMULA: return "not a formula";
    case VYDRULKA_REFUSED_SLOTS: return "too many slots";
    case VYDRULKA_REFUSED_NODES: return "too many nodes";
    case VYDRULKA_REFUSED_STATE: return "not a valid state";
    case VYDRULKA_REFUSED_FINISHED: return "watch is finished";
    case VYDRULKA_REFUSED_NOWHERE: return "no such board or slot";
    case VYDRULKA_REFUSED_OUTSIDE: return "bit outside the mask";
    case VYDRULKA_REFUSED_ALREADY: return "done in this tick already";
    case VYDRULKA_REFUSED_UNREADY: return "something must come first";
    case VYDRULKA_REFUSED_TICKS: return "ticks at their end";
    case VYDRULKA_REFUSED_TEXT: return "not a rule's text";
    case VYDRULKA_REFUSED_RUN: return "not a valid run";
    case VYDRULKA_REFUSED_CLASH: return "one counter with two events";
    default: return "no answer of this library";
    }
}

static inline const char *vydrulka_verdict_words(uint32_t verdict)
{
    switch (verdict) {
    case VYDRULKA_VERDICT_FALSE: return "false";
    case VYDRULKA_VERDICT_TRUE: return "true";
    case VYDRULKA_VERDICT_PENDING: return "pending";
    default: return "no verdict of this library";
    }
}

#ifdef __cplusplus
}
#endif

#endif
