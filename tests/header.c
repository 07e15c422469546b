/* The header by itself, as C11 and as C++17: each call is named, each record has the size that it has in the library, and
   so has the room of a graph, 512 records of 3 words and 16 edges; the macros make Fade's words, and take House's records apart
   (docs/FORMAT.md has both). */
#include "bulanevior.h"

#ifdef __cplusplus
#define HOLDS(test) static_assert(test, #test)
#else
#define HOLDS(test) _Static_assert(test, #test)
#endif

HOLDS(sizeof(bnv_version()) == 4 && BNV_VERSION_NUMBER == 8001);
HOLDS(sizeof(bnv_check(NULL, 0)) == sizeof(BnvCheck) && sizeof(BnvCheck) == 56);
HOLDS(sizeof(bnv_action_part(NULL, 0, 0)) == sizeof(BnvPart) && sizeof(BnvPart) == 16);
HOLDS(sizeof(bnv_step(NULL, 0, 0, NULL, 0)) == sizeof(BnvStep) && sizeof(BnvStep) == 32);
HOLDS(sizeof(bnv_rack_step(NULL, 0, 0, NULL, 0)) == sizeof(BnvStep));
HOLDS(sizeof(bnv_ask(NULL, 0, NULL, 0, 0)) == sizeof(BnvAsk) && sizeof(BnvAsk) == 16);
HOLDS(sizeof(bnv_judge(NULL, 0, NULL, 0, NULL, 0, NULL, 0)) == sizeof(BnvJudge) && sizeof(BnvJudge) == 72);
HOLDS(sizeof(bnv_show(NULL, 0, NULL, 0, NULL, 0, NULL, 0)) == sizeof(BnvShow) && sizeof(BnvShow) == 96);
HOLDS(sizeof(bnv_findings(NULL, 0, NULL, 0, NULL, 0, NULL, 0)) == sizeof(BnvFindings) && sizeof(BnvFindings) == 24);
HOLDS(sizeof(bnv_successor(NULL, 0, 0, 0, 0, 0)) == sizeof(BnvSuccessor) && sizeof(BnvSuccessor) == 32);
/* The places that BnvStep's fields had in 0.5.0, and the two that stand where there was padding. */
HOLDS(offsetof(BnvStep, variable) == 8 && offsetof(BnvStep, refusal) == 16 && offsetof(BnvStep, value) == 24);
HOLDS(offsetof(BnvStep, row) == 4 && offsetof(BnvStep, row_value) == 20);
HOLDS(offsetof(BnvCheck, refusal) == 4 && offsetof(BnvCheck, value) == 8 && offsetof(BnvShow, judged) == 24);

HOLDS(BNV_GRAPH_WORDS == 9728 && BNV_HEADER_WORDS == 3 && BNV_DISTANCE == 0);

/* Fade: its logic, and its first two lemmas. */
HOLDS(BNV_MAKE_VAR(0, 1000) == 0x100003E8 && BNV_MAKE_INIT(0) == 0x40000000 && BNV_MAKE_PRED(0) == 0x50000000);
HOLDS(BNV_MAKE_ACTION(1, 1) == 0x60000011 && BNV_MAKE_ROW(-5) == 0x2FFFFFFB && BNV_MAKE_TERM(0, 1) == 0x30000001);
HOLDS(BNV_MAKE_SET(0) == 0x70000000 && BNV_MAKE_ROW(995) == 0x200003E3 && BNV_MAKE_TERM(0, -1) == 0x3000FFFF);
HOLDS(BNV_MAKE_ROW(5) == 0x20000005 && BNV_MAKE_END() == 0xF0000000);
HOLDS(BNV_MAKE_LEMMA(0, BNV_GOAL_LOW, 0) == 0x90030000 && BNV_MAKE_LEMMA(0, BNV_GOAL_HIGH, 0) == 0x90040000);
HOLDS(BNV_MAKE_SETS(0, 0) == 0x80000000 && BNV_MAKE_MULT(1) == 0xA0000001);
/* Every field at its ends, and what does not fit. */
HOLDS(BNV_MAKE_VAR(BNV_LOWEST, BNV_HIGHEST) == 0x18001FFF && BNV_MAKE_VAR(-1, -2) == 0x1FFFFFFE && BNV_MAKE_VAR(16384, 0) == 0x10000000);
HOLDS(BNV_MAKE_ROW(BNV_LEAST_CONSTANT) == 0x2FF0BDC0 && BNV_MAKE_ROW(BNV_MOST_CONSTANT) == 0x200F4240 && BNV_MAKE_ROW(1 << 28) == 0x20000000);
HOLDS(BNV_MAKE_TERM(7, BNV_LEAST_COEFFICIENT) == 0x3700FC18 && BNV_MAKE_TERM(15, BNV_MOST_COEFFICIENT) == 0x3F0003E8);
HOLDS(BNV_MAKE_INIT(BNV_MOST_START_ROWS) == 0x40000008 && BNV_MAKE_PRED(BNV_MOST_PREDICATES) == 0x5000000E);
HOLDS(BNV_MAKE_ACTION(BNV_MOST_GUARD_ROWS, BNV_MOST_ASSIGNMENTS) == 0x60000088 && BNV_MAKE_ACTION(15, 1 + 16) == 0x600000F1);
HOLDS(BNV_MAKE_SET(7) == 0x70000007 && BNV_MAKE_SETS(0, 1) == 0x80004000 && BNV_MAKE_SETS(1 | 2, 0) == 0x80000003);
HOLDS(BNV_MAKE_SETS(0x3FFF, 0x2001) == 0x88007FFF && BNV_MAKE_SETS(0x4000, 0x4000) == 0x80000000);
HOLDS(BNV_MAKE_LEMMA(BNV_START, BNV_GOAL_HOLDS, 13) == 0x9FF1000D && BNV_MAKE_LEMMA(15, BNV_GOAL_FAILS, 1) == 0x90F20001);
HOLDS(BNV_MAKE_LEMMA(2, BNV_GOAL_NEVER, 0) == 0x90200000 && BNV_MAKE_MULT(BNV_MOST_MULTIPLIER) == 0xA000FFFF);
HOLDS(BNV_WORD(1 + 2, 0xF0000000u | 5) == 0x30000005 && 2 * BNV_WORD(0, 3) == 6);
HOLDS(BNV_VAR_LOW(0x18001FFF) == -8192 && BNV_VAR_HIGH(0x18001FFF) == 8191 && BNV_VAR_LOW(0x100003E8) == 0 && BNV_VAR_HIGH(0x1FFFFFFE) == -2);
HOLDS(BNV_ROW_CONSTANT(0x2FFFFFFB) == -5 && BNV_ROW_CONSTANT(0x200F4240) == 1000000 && BNV_ROW_CONSTANT(0x28000000) == -134217728);
HOLDS(BNV_TERM_VARIABLE(0x3700FC18) == 7 && BNV_TERM_COEFFICIENT(0x3700FC18) == -1000 && BNV_TERM_COEFFICIENT(0x300003E8) == 1000);
HOLDS(BNV_ACTION_GUARD_ROWS(0x60000083) == 8 && BNV_ACTION_ASSIGNMENTS(0x60000083) == 3);
HOLDS(BNV_LEMMA_SOURCE(0x9FF1000D) == BNV_START && BNV_LEMMA_GOAL(0x9FF1000D) == BNV_GOAL_HOLDS && BNV_LEMMA_INDEX(0x9FF1000D) == 13);
HOLDS(BNV_LEMMA_SOURCE(0x90F20001) == 15 && BNV_LEMMA_GOAL(0x90F20001) == BNV_GOAL_FAILS && 3 * BNV_LEMMA_INDEX(0x90F20001) == 3);
/* House: four actions, three records. What is known at each node, where it was first found, how far it is, and an EDGE word of each kind. */
HOLDS(BNV_RECORD(4, 0) == 0 && BNV_RECORD(4, 2) == 14 && BNV_RECORD(1 + 3, 1 + 1) == 14 && BNV_RECORD(16, 511) + 19 == BNV_GRAPH_WORDS);
HOLDS(BNV_SETS_HOLD(0x8000C000) == 0 && BNV_SETS_FAIL(0x8000C000) == 3 && BNV_SETS_HOLD(0x80004002) == 2 && BNV_SETS_FAIL(0x80004002) == 1);
HOLDS(BNV_SETS_HOLD(0x80008001) == 1 && BNV_SETS_FAIL(0x80008001) == 2 && BNV_SETS_FAIL(0x88000000) == 0x2000);
HOLDS(BNV_ORIGIN_NONE(0xB0001FFF) && !BNV_ORIGIN_NONE(0xB0000000) && !BNV_ORIGIN_NONE(0xB0001FFE));
HOLDS(BNV_ORIGIN_PARENT(0xB0000001) == 0 && BNV_ORIGIN_ACTION(0xB0000001) == 1 && BNV_ORIGIN_PARENT(0xB0001FFE) == 511 && BNV_ORIGIN_ACTION(0xB0001FFE) == 14);
HOLDS(BNV_KIND(0x00000001) == BNV_DISTANCE && BNV_PAYLOAD(0x00000001) == 1);
HOLDS(BNV_EDGE_NONE(0xCFFFFFFF) && !BNV_EDGE_NONE(0xC0000002) && BNV_PAYLOAD(0xC0000002) == 2);
HOLDS(BNV_MOST_VARIABLES == 8 && BNV_MOST_FORBIDDEN == 8 && BNV_MOST_LEMMAS == 512);

/* Something to compile. */
extern const char bnv_header_version[];
const char bnv_header_version[] = BNV_VERSION;
