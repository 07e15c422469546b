/*
 * Bulanevior: a proved checker for the logic of a lighting desk.
 *
 * A show's logic is a list of 32-bit words: variables with ranges, start rows, predicates, actions and forbidden combinations.
 * The calls read such a list, step its actions, weigh lemmas about it, and judge whether any list of actions can bring the show
 * into a forbidden state or run a variable off its range. A desk that has the bytes of a show file calls bnv_show and needs no other.
 *
 * Link libbulanevior.a, which `./install` puts in place, or target/staticlib/libexports.a, which `./build library` writes: they are the
 * same, for x86-64 Linux. It needs memcpy and memset and nothing else. docs/EMBEDDING.md has the lines; bulanevior_text.h has sentences for
 * every answer.
 *
 * What the caller owes, at every call:
 *  - A list is a pointer and a length: two arguments. The length counts elements. A list of length zero is empty whatever its
 *    pointer, a null pointer too: nothing is read or written through it.
 *  - A pointer with a length above zero points to that many elements, aligned to 4 bytes (bytes to any), that may be read and, where
 *    the list is not const, written. Until the call returns nobody else writes them, nor reads those of a list that is not const.
 *  - The lists of one call do not overlap.
 *  - 64 KiB of stack beside the lent lists. No call recurses, so its stack does not grow with its input; the bound is measured
 *    (tests/calls.c) and not proved.
 *
 * What the caller gets, whatever stands in the lists and whatever the numbers are:
 *  - The call returns, with the answer that its definition gives: crates/exports/src/lib.rt has the contracts, which the prover has
 *    checked and which ask for nothing more than the above, crates/exports/specs/Numbers.antt the definitions.
 *  - Const lists are only read. Other lists are written as said below and no further: words of a graph list past the first
 *    BNV_GRAPH_WORDS, of a path list past the first BNV_PATH_WORDS and of a words list past the show's words never change.
 *  - Nothing is allocated, no state is kept between calls, and no file, clock or other device is touched. Calls with lists of their
 *    own may run at the same time.
 *
 * Lengths, counts, indices and places are 64-bit numbers, and `row` of BnvStep one of 32 bits, counted from 0. A field that an answer
 * does not use is 0.
 *
 * No answer is 0, in `answer` or in `verdict`: a record of zeros permits nothing. Begin with `BnvJudge j = {0};`, so that one which no
 * call has filled is such a record. Ask for the answer that permits (`== BNV_SAFE`), never for the absence of another; a number that
 * is named nowhere below permits nothing either. It means that this header and the library are of different versions: bnv_version() tells,
 * and CHANGELOG.md says which numbers moved.
 *
 * ABI: the C convention of x86-64 Linux. Since 0.2.0 no function has changed its arguments, no record its size or the place of a field, and no
 * number that is an answer its meaning; from one minor version to the next the room of a lent list and what stands in it may.
 * docs/EMBEDDING.md has the sizes.
 */
#ifndef BULANEVIOR_H
#define BULANEVIOR_H

#include <stddef.h>
#include <stdint.h>

#ifdef __cplusplus
extern "C" {
static_assert(sizeof(size_t) == 8, "64-bit numbers only");
#else
_Static_assert(sizeof(size_t) == 8, "64-bit numbers only");
#endif

/*
 * ---- Version: of this header, as text and as a number, major times 1,000,000, minor times 1,000, and patch; and the library's number.
 *
 * bnv_version() == BNV_VERSION_NUMBER: header and library belong together. A library before 0.8.0 does not link with a caller of it.
 */

#define BNV_VERSION "0.8.1"
#define BNV_VERSION_NUMBER 8001u

uint32_t bnv_version(void);

/*
 * ---- Words: the kind in bits 31 to 28, the payload in bits 27 to 0. A macro here or below takes each argument once, and is a constant
 * expression where its arguments are.
 */

#define BNV_KIND(word) ((uint32_t)(word) >> 28)
#define BNV_PAYLOAD(word) ((uint32_t)(word) & 0x0FFFFFFFu)
#define BNV_WORD(kind, payload) ((uint32_t)(kind) << 28 | BNV_PAYLOAD(payload))

#define BNV_DISTANCE 0u /* a node's distance from node 0: the fewest actions that lead to it; zeroed words have this kind too */
#define BNV_VAR 1u    /* a variable's range */
#define BNV_ROW 2u    /* a row's constant */
#define BNV_TERM 3u   /* a variable's coefficient in a row */
#define BNV_INIT 4u   /* how many start rows follow */
#define BNV_PRED 5u   /* how many predicates follow */
#define BNV_ACTION 6u /* guard rows and assignments of an action */
#define BNV_SET 7u    /* an assignment's variable */
#define BNV_SETS 8u   /* known-false and known-true predicates */
#define BNV_LEMMA 9u  /* a lemma's source, goal and index */
#define BNV_MULT 10u  /* a lemma's multiplier */
#define BNV_ORIGIN 11u /* where a node was first found */
#define BNV_EDGE 12u  /* a node's successor */
#define BNV_STEP 13u  /* an action of a path */
#define BNV_FINDING 14u /* a finding */
#define BNV_END 15u   /* the end of the logic */

/* ---- Limits of a logic and its lemmas. A range's ends, a row's constant and a coefficient, which is never 0, are signed. */

#define BNV_MOST_VARIABLES 8u
#define BNV_MOST_START_ROWS 8u
#define BNV_MOST_PREDICATES 14u
#define BNV_MOST_GUARD_ROWS 8u
#define BNV_MOST_ASSIGNMENTS 8u
#define BNV_MOST_FORBIDDEN 8u
#define BNV_MOST_LEMMAS 512u
#define BNV_MOST_MULTIPLIER 65535u
#define BNV_LOWEST (-8192)
#define BNV_HIGHEST 8191
#define BNV_LEAST_CONSTANT (-1000000)
#define BNV_MOST_CONSTANT 1000000
#define BNV_LEAST_COEFFICIENT (-1000)
#define BNV_MOST_COEFFICIENT 1000

/* ---- A graph: the most nodes and actions, and how many words of a node's record, SETS, ORIGIN and DISTANCE, come before its EDGE words. */

#define BNV_MOST_NODES 512u
#define BNV_MOST_ACTIONS 16u
#define BNV_HEADER_WORDS 3u

/* ---- Lent lists of bnv_judge, bnv_show and bnv_findings: the words that they need at least, and the only ones that are ever written. */

#define BNV_GRAPH_WORDS (BNV_MOST_NODES * (BNV_HEADER_WORDS + BNV_MOST_ACTIONS)) /* 9,728 */
#define BNV_PATH_WORDS 512u

/* ---- A lemma: the source that is the start and no action, and the goals. */

#define BNV_START 255u
#define BNV_GOAL_NEVER 0u /* the source cannot happen */
#define BNV_GOAL_HOLDS 1u /* the predicate holds afterwards */
#define BNV_GOAL_FAILS 2u /* the predicate fails afterwards */
#define BNV_GOAL_LOW 3u   /* the variable is not below its low end afterwards */
#define BNV_GOAL_HIGH 4u  /* the variable is not above its high end afterwards */

/*
 * ---- Words made. What does not fit its field is cut to it, without a word: keep to the limits above, and have the list checked.
 *
 * In a SETS word predicate p is bit p of `hold` or of `fail`.
 */

#define BNV_MAKE_VAR(low, high) BNV_WORD(BNV_VAR, ((uint32_t)(low) & 16383u) << 14 | ((uint32_t)(high) & 16383u))
#define BNV_MAKE_ROW(constant) BNV_WORD(BNV_ROW, constant)
#define BNV_MAKE_TERM(variable, coefficient) BNV_WORD(BNV_TERM, ((uint32_t)(variable) & 15u) << 24 | ((uint32_t)(coefficient) & 65535u))
#define BNV_MAKE_INIT(rows) BNV_WORD(BNV_INIT, rows)
#define BNV_MAKE_PRED(predicates) BNV_WORD(BNV_PRED, predicates)
#define BNV_MAKE_ACTION(guard_rows, assignments) BNV_WORD(BNV_ACTION, ((uint32_t)(guard_rows) & 15u) << 4 | ((uint32_t)(assignments) & 15u))
#define BNV_MAKE_SET(variable) BNV_WORD(BNV_SET, variable)
#define BNV_MAKE_SETS(hold, fail) BNV_WORD(BNV_SETS, ((uint32_t)(fail) & 16383u) << 14 | ((uint32_t)(hold) & 16383u))
#define BNV_MAKE_LEMMA(source, goal, index) \
    BNV_WORD(BNV_LEMMA, ((uint32_t)(source) & 255u) << 20 | ((uint32_t)(goal) & 15u) << 16 | ((uint32_t)(index) & 255u))
#define BNV_MAKE_MULT(multiplier) BNV_WORD(BNV_MULT, multiplier)
#define BNV_MAKE_END() BNV_WORD(BNV_END, 0)

/*
 * ---- Words taken apart. A word of one field has it in BNV_PAYLOAD: INIT and PRED how many follow, SET the variable, MULT the multiplier,
 * DISTANCE the distance, EDGE the successor, STEP the action.
 */

#define BNV_VAR_LOW(word) ((int32_t)(((uint32_t)(word) >> 14 & 16383u) ^ 8192u) - 8192)
#define BNV_VAR_HIGH(word) ((int32_t)(((uint32_t)(word) & 16383u) ^ 8192u) - 8192)
#define BNV_ROW_CONSTANT(word) ((int32_t)(BNV_PAYLOAD(word) ^ 134217728u) - 134217728)
#define BNV_TERM_VARIABLE(word) ((uint32_t)(word) >> 24 & 15u)
#define BNV_TERM_COEFFICIENT(word) ((int32_t)(((uint32_t)(word) & 65535u) ^ 32768u) - 32768)
#define BNV_ACTION_GUARD_ROWS(word) ((uint32_t)(word) >> 4 & 15u)
#define BNV_ACTION_ASSIGNMENTS(word) ((uint32_t)(word) & 15u)
#define BNV_SETS_HOLD(word) ((uint32_t)(word) & 16383u)
#define BNV_SETS_FAIL(word) ((uint32_t)(word) >> 14 & 16383u)
#define BNV_LEMMA_SOURCE(word) ((uint32_t)(word) >> 20 & 255u)
#define BNV_LEMMA_GOAL(word) ((uint32_t)(word) >> 16 & 15u)
#define BNV_LEMMA_INDEX(word) ((uint32_t)(word) & 255u)

/*
 * ---- A node's record in a graph list: the index of its first word, for a program of so many actions. Its ORIGIN word names the parent and
 * the action, or none, as that of node 0; an EDGE word a successor, or none.
 */

#define BNV_RECORD(actions, node) ((size_t)(node) * (BNV_HEADER_WORDS + (size_t)(actions)))
#define BNV_ORIGIN_NONE(word) (BNV_PAYLOAD(word) == 8191u)
#define BNV_ORIGIN_PARENT(word) ((uint32_t)(word) >> 4 & 511u)
#define BNV_ORIGIN_ACTION(word) ((uint32_t)(word) & 15u)
#define BNV_EDGE_NONE(word) (BNV_PAYLOAD(word) == 268435455u)

/*
 * ---- A finding, a word of kind BNV_FINDING in the list of bnv_findings: its node, whether it is a run-off, the action that may run
 * off (0 for a forbidden combination), the combination or the variable, and whether it is the high end.
 */

#define BNV_FINDING_NODE(word) ((uint32_t)(word) >> 19 & 511u)
#define BNV_FINDING_RUN_OFF(word) ((uint32_t)(word) >> 18 & 1u)
#define BNV_FINDING_ACTION(word) ((uint32_t)(word) >> 14 & 15u)
#define BNV_FINDING_PLACE(word) ((uint32_t)(word) >> 11 & 7u)
#define BNV_FINDING_HIGH(word) ((uint32_t)(word) & 1u)

/*
 * ---- Refusals: the number in `refusal`; what `value` holds stands behind it. 0 in `refusal` is no refusal.
 *
 * A refusal leaves every lent list as it was, with three exceptions: BNV_REFUSED_NODES zeroes the first BNV_GRAPH_WORDS words of the
 * graph list, BNV_REFUSED_FINDINGS comes with the graph in the graph list, and of bnv_show every refusal leaves the show's words at the
 * front of the words list.
 */

#define BNV_REFUSED_SHORT 1u  /* a lent list is too short: 0 the graph list, also the one of bnv_successor; 1 the path list */
#define BNV_REFUSED_WORD 2u   /* a program word missing, of the wrong kind, after END, or with an unnamed bit: its index, the list's
                                 length if missing; bnv_successor: the word at that index is no EDGE */
#define BNV_REFUSED_LIMIT 3u  /* one variable, action or combination too many, or a count too high: the word's index;
                                 bnv_successor: over BNV_MOST_NODES nodes or BNV_MOST_ACTIONS actions: 0 */
#define BNV_REFUSED_VALUE 4u  /* a program word with a value that is not allowed: its index */
#define BNV_REFUSED_LEMMA 5u  /* a lemma word missing or against the rules: its index, the list's length if missing */
#define BNV_REFUSED_LEMMAS 6u /* a 513th lemma: its index */
#define BNV_REFUSED_NODES 7u  /* a 513th node is needed: BNV_MOST_NODES */
#define BNV_REFUSED_ABSENT 8u /* no such action, lemma or node: its number */
#define BNV_REFUSED_LENGTH 9u /* the state list's length is not the number of variables: that length */
#define BNV_REFUSED_STATE 10u /* a state value off its range: the lowest such variable */
#define BNV_REFUSED_SUM 11u   /* a lemma's sum leaves signed 64 bits: the lowest such lemma */
#define BNV_REFUSED_FINDINGS 12u /* the findings list is too short: how many words it needs */

/* ---- Check: is the list a program, and how many variables, start rows, predicates, actions and forbidden combinations has it? */

#define BNV_GOOD 1u
#define BNV_CHECK_REFUSED 2u

typedef struct {
    uint32_t answer;
    uint32_t refusal; /* BNV_CHECK_REFUSED: 2 to 4 */
    size_t value;     /* the refusal's */
    size_t variables; /* the five counts, 0 with a refusal */
    size_t start_rows;
    size_t predicates;
    size_t actions;
    size_t forbidden;
} BnvCheck;

BnvCheck bnv_check(const uint32_t *words, size_t words_length);

/*
 * ---- Action part: the words of action k are words[start] up to words[start + length - 1].
 *
 * Length 0, with start 0, where the list is no program or has no action k; an action has at least one word.
 */

typedef struct {
    size_t start;
    size_t length;
} BnvPart;

BnvPart bnv_action_part(const uint32_t *words, size_t words_length, size_t k);

/*
 * ---- Step: action k, tried on a state, one signed 32-bit value for each variable.
 *
 * Only BNV_MOVED writes the state: the new values. Refusals in the order 2 to 4, 8, 9, 10.
 *
 * BNV_NOT_ENABLED says how near it was: the first of the action's guard rows that fails, and the row's exact value at the state, which
 * is below 0; the rows before it hold. A row worth -5 lacks 5.
 */

#define BNV_NOT_ENABLED 1u
#define BNV_RUNS_OFF 2u
#define BNV_STEP_REFUSED 3u
#define BNV_MOVED 4u

typedef struct {
    uint32_t answer;
    uint32_t row;      /* BNV_NOT_ENABLED: the first guard row that fails */
    size_t variable;   /* BNV_RUNS_OFF: the lowest variable whose new value is off its range */
    uint32_t refusal;  /* BNV_STEP_REFUSED */
    int32_t row_value; /* BNV_NOT_ENABLED: the row's value, below 0 */
    size_t value;
} BnvStep;

BnvStep bnv_step(const uint32_t *words, size_t words_length, size_t k, int32_t *state, size_t state_length);

/*
 * ---- The rack's step: what a rack, which holds each variable in sixteen bits, does with action k.
 *
 * Guards are worked out exactly, and BNV_NOT_ENABLED says what bnv_step says. The new values are worked out in sixteen bits: coefficients
 * and constants are cut to them, products and sums wrap, and the result is read as two's complement. BNV_MOVED writes these values, also
 * where bnv_step answers BNV_RUNS_OFF; they may be off their ranges, and then the next call refuses them. The answer is never
 * BNV_RUNS_OFF. Refusals are those of bnv_step, in its order, and leave the state.
 *
 * Where bnv_step does not answer BNV_RUNS_OFF, bnv_rack_step answers and writes the same. So after BNV_SAFE the rack's values are the
 * exact ones, from every start state and along every list of actions.
 */

BnvStep bnv_rack_step(const uint32_t *words, size_t words_length, size_t k, int32_t *state, size_t state_length);

/*
 * ---- Ask: is lemma k of the list accepted? An accepted lemma is true of all whole numbers in the ranges.
 *
 * Refusals in the order 2 to 4, 5 and 6, 8, 11.
 */

#define BNV_NOT_ACCEPTED 1u
#define BNV_ASK_REFUSED 2u
#define BNV_ACCEPTED 3u

typedef struct {
    uint32_t answer;
    uint32_t refusal; /* BNV_ASK_REFUSED */
    size_t value;
} BnvAsk;

BnvAsk bnv_ask(const uint32_t *words, size_t words_length, const uint32_t *lemmas, size_t lemmas_length, size_t k);

/*
 * ---- Judge: the abstract state graph of a program and its lemmas, and one verdict.
 *
 * BNV_SAFE: no list of actions, however long, tried from any start state, meets a forbidden state or runs a variable off its range.
 * That is proved whatever the lemmas are; nobody has to vouch for them. The other two verdicts are findings in the graph; no state
 * may be able to walk their path.
 *
 * A predicate whose row has no coefficient on any variable that an action sets keeps its literal across that action without a lemma.
 *
 * A verdict fills the first BNV_GRAPH_WORDS words of the graph list with one record for each node, SETS, ORIGIN, DISTANCE and an EDGE
 * for each action, and zeroes after them; and the first BNV_PATH_WORDS words of the path list with the STEP words that lead to the finding's
 * node, and zeroes after them. Refusals in the order 1 graph, 1 path, 2 to 4, 5 and 6, 11, 7.
 *
 * The path of a finding can't be beaten: no walk along the EDGE words, from node 0 to any node with a finding, has fewer steps. And whatever
 * a show with a finding can really do, from any start state nothing goes wrong before as many actions have moved it as there are STEP words.
 */

#define BNV_MAY_FORBID 1u
#define BNV_MAY_RUN_OFF 2u
#define BNV_JUDGE_REFUSED 3u
#define BNV_SAFE 4u

typedef struct {
    uint32_t verdict;
    size_t node;      /* a finding's node */
    size_t place;     /* BNV_MAY_FORBID: the combination; BNV_MAY_RUN_OFF: the action */
    size_t variable;  /* BNV_MAY_RUN_OFF */
    uint32_t high;    /* BNV_MAY_RUN_OFF: 1 for the high end of the range, 0 for the low end */
    size_t nodes;     /* of the graph, with every verdict */
    size_t edges;     /* EDGE words that name a successor, with every verdict */
    uint32_t refusal; /* BNV_JUDGE_REFUSED */
    size_t value;
} BnvJudge;

BnvJudge bnv_judge(const uint32_t *words, size_t words_length, const uint32_t *lemmas, size_t lemmas_length,
                   uint32_t *graph, size_t graph_length, uint32_t *path, size_t path_length);

/*
 * ---- Show: the bytes of a show file, judged.
 *
 * The bytes are little-endian words. The first word of kind BNV_END is the logic's last, and the words behind it are the lemmas;
 * without one all are logic. Answers in the order BNV_WORDS_SHORT, BNV_TOO_LONG, BNV_ODD_BYTES, BNV_JUDGED.
 *
 * BNV_JUDGED: `judged` is what bnv_judge answers for that logic and those lemmas, a refusal too, and the graph list and the path list
 * are left as it leaves them. The show's words stand at the front of the words list, and further words are left. So words[0] up to
 * words[logic - 1] is the list for bnv_check, bnv_action_part, bnv_step and bnv_rack_step, and words[logic] up to words[logic + lemmas - 1], with it,
 * for bnv_ask. Every other answer leaves the three lists, and `judged` is all 0, which is no verdict: the show may be loaded exactly
 * where judged.verdict == BNV_SAFE.
 */

#define BNV_SHOW_BYTES 65536u /* the most bytes of a show; to know that there are more, one more is enough */
#define BNV_SHOW_WORDS 16384u /* the words that the words list needs at least, and the only ones that are ever written */

#define BNV_TOO_LONG 1u    /* more than BNV_SHOW_BYTES bytes */
#define BNV_ODD_BYTES 2u   /* a number of bytes that is no multiple of 4: the file was cut */
#define BNV_WORDS_SHORT 3u /* the words list has fewer than BNV_SHOW_WORDS words */
#define BNV_JUDGED 4u

typedef struct {
    uint32_t answer;
    size_t logic;  /* BNV_JUDGED: how many words the logic has */
    size_t lemmas; /* BNV_JUDGED: how many words the lemmas have */
    BnvJudge judged;
} BnvShow;

BnvShow bnv_show(const uint8_t *bytes, size_t bytes_length, uint32_t *words, size_t words_length,
                 uint32_t *graph, size_t graph_length, uint32_t *path, size_t path_length);

/*
 * ---- Findings: all findings of one check, each once, in the order in which Judge looks for them.
 *
 * A finding is a node with a forbidden combination that no literal of it contradicts, or a node, an action that has a successor there,
 * a variable that it sets and an end of its range, where no accepted lemma shows that it is kept to. There are none exactly where
 * bnv_judge says BNV_SAFE, and so BNV_LISTED with count 0 promises what BNV_SAFE does; else the first is bnv_judge's own.
 *
 * BNV_LISTED: the findings' words stand at the front of the findings list, rising as numbers, and every word behind them is zero, to the
 * list's end. The graph list is filled as bnv_judge fills it. Refusals in the order 1 graph, 2 to 4, 5 and 6, 11, 7, 12; each leaves the
 * findings list, which may have any length. With BNV_MOST_FINDINGS words there is no refusal 12.
 */

#define BNV_MOST_FINDINGS (BNV_MOST_NODES * (8u + BNV_MOST_ACTIONS * 16u)) /* 135,168 */

#define BNV_FINDINGS_REFUSED 1u
#define BNV_LISTED 2u

typedef struct {
    uint32_t answer;
    uint32_t refusal; /* BNV_FINDINGS_REFUSED */
    size_t value;
    size_t count; /* BNV_LISTED: how many findings there are */
} BnvFindings;

BnvFindings bnv_findings(const uint32_t *words, size_t words_length, const uint32_t *lemmas, size_t lemmas_length,
                         uint32_t *graph, size_t graph_length, uint32_t *findings, size_t findings_length);

/*
 * ---- Successor: what the graph list of a verdict says of a node and an action.
 *
 * `nodes` is the verdict's, `actions` the program's. Any list and numbers may be given. Refusals in the order 3, 1, 8 for the node,
 * 8 for the action, 2.
 */

#define BNV_NO_NODE 1u
#define BNV_SUCCESSOR_REFUSED 2u
#define BNV_NODE 3u

typedef struct {
    uint32_t answer;
    size_t node;      /* BNV_NODE: the successor's number */
    uint32_t refusal; /* BNV_SUCCESSOR_REFUSED */
    size_t value;
} BnvSuccessor;

BnvSuccessor bnv_successor(const uint32_t *graph, size_t graph_length, size_t nodes, size_t actions, size_t node, size_t action);

#ifdef __cplusplus
}
#endif

#endif
