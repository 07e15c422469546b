/* Each function of the static library, called from C on Fade; the stack that each takes; empty lists with null pointers; every lent word;
   and the header's macros. */
#define _XOPEN_SOURCE 700
#include <stdio.h>
#include <stdlib.h>
#include <string.h>
#include <ucontext.h>

#include "bulanevior.h"

#define CHECK(test) \
    do { \
        if (!(test)) { \
            printf("line %d: %s\n", __LINE__, #test); \
            exit(1); \
        } \
    } while (0)

#define LOGIC 16
#define MOST_STACK 65536

static const uint32_t fade[] = {
    0x100003E8, 0x40000000, 0x50000000, 0x60000011, 0x2FFFFFFB, 0x30000001, 0x70000000, 0x2FFFFFFB,
    0x30000001, 0x60000011, 0x200003E3, 0x3000FFFF, 0x70000000, 0x20000005, 0x30000001, 0xF0000000,
};
static const uint32_t lemmas[] = {
    0x90030000, 0x80000000, 0xA0000001, 0xA0000001, 0x90040000, 0x80000000, 0xA0000001, 0xA0000000,
    0x90130000, 0x80000000, 0xA0000001, 0xA0000000, 0x90140000, 0x80000000, 0xA0000001, 0xA0000001,
};
#define LEMMAS (sizeof lemmas / sizeof *lemmas)

/* Fade's one record: where its EDGE words begin, and its length. */
#define EDGES BNV_HEADER_WORDS
#define RECORD (BNV_HEADER_WORDS + 2)

/* Lent lists with words past those that Judge and Show may write. */
static uint32_t graph[BNV_GRAPH_WORDS + 8];
static uint32_t path[BNV_PATH_WORDS + 8];
static uint32_t words[BNV_SHOW_WORDS + 8];

static void fill(void)
{
    for (size_t i = 0; i < BNV_SHOW_WORDS + 8; i++)
        words[i] = 0xE7000000u + (uint32_t)i;
    for (size_t i = 0; i < BNV_GRAPH_WORDS + 8; i++)
        graph[i] = 0xA5000000u + (uint32_t)i;
    for (size_t i = 0; i < BNV_PATH_WORDS + 8; i++)
        path[i] = 0x5A000000u + (uint32_t)i;
}

/* Are the words from here on those that `fill` wrote? */
static int left(size_t from_graph, size_t from_path)
{
    for (size_t i = from_graph; i < BNV_GRAPH_WORDS + 8; i++)
        if (graph[i] != 0xA5000000u + (uint32_t)i)
            return 0;
    for (size_t i = from_path; i < BNV_PATH_WORDS + 8; i++)
        if (path[i] != 0x5A000000u + (uint32_t)i)
            return 0;
    return 1;
}

static int words_left(size_t from)
{
    for (size_t i = from; i < BNV_SHOW_WORDS + 8; i++)
        if (words[i] != 0xE7000000u + (uint32_t)i)
            return 0;
    return 1;
}

/* Did the call leave a graph of Fade and no path, and nothing past them? */
static int graph_of_fade(void)
{
    static const uint32_t record[RECORD] = {0x80000000, 0xB0001FFF, 0x00000000, 0xC0000000, 0xC0000000};
    if (memcmp(graph, record, sizeof record) != 0)
        return 0;
    for (size_t i = RECORD; i < BNV_GRAPH_WORDS; i++)
        if (graph[i] != 0)
            return 0;
    for (size_t i = 0; i < BNV_PATH_WORDS; i++)
        if (path[i] != 0)
            return 0;
    return left(BNV_GRAPH_WORDS, BNV_PATH_WORDS);
}

/* Kind and payload of words that tell every bit apart; of an argument that is an expression, or signed; in an expression. */
static void kinds(void)
{
    static const struct {
        uint32_t word, kind, payload;
    } all[] = {
        {0, 0, 0},
        {0xFFFFFFFF, 15, 0x0FFFFFFF},
        {0xF0000000, 15, 0},
        {0x0FFFFFFF, 0, 0x0FFFFFFF},
        {0xA5A5A5A5, 10, 0x05A5A5A5},
        {0x5A5A5A5A, 5, 0x0A5A5A5A},
    };
    for (size_t i = 0; i < sizeof all / sizeof *all; i++)
        CHECK(BNV_KIND(all[i].word) == all[i].kind && BNV_PAYLOAD(all[i].word) == all[i].payload);
    for (unsigned bit = 0; bit < 28; bit++)
        CHECK(BNV_KIND(1u << bit) == 0 && BNV_PAYLOAD(1u << bit) == 1u << bit);
    for (unsigned bit = 28; bit < 32; bit++)
        CHECK(BNV_KIND(1u << bit) == 1u << (bit - 28) && BNV_PAYLOAD(1u << bit) == 0);
    CHECK(BNV_KIND(0x10000000u | 0x20000005u) == 3 && BNV_PAYLOAD(0x10000002u | 0x20000005u) == 7);
    CHECK(BNV_KIND(-1) == 15 && BNV_PAYLOAD(-1) == 0x0FFFFFFF);
    CHECK(16 * BNV_KIND(0x30000000u) == 48 && 32 * BNV_PAYLOAD(0x18000001u) == 32);
}

/* The fields of a finding, in words that tell them apart. */
static void finding_fields(void)
{
    static const struct {
        uint32_t word, node, run_off, action, place, high;
    } all[] = {
        {0xE0000000, 0, 0, 0, 0, 0},   {0xE0080800, 1, 0, 0, 1, 0},   {0xEFF83800, 511, 0, 0, 7, 0},
        {0xE0040001, 0, 1, 0, 0, 1},   {0xE0149000, 2, 1, 2, 2, 0},   {0xEFFFF801, 511, 1, 15, 7, 1},
        {0xE0044000, 0, 1, 1, 0, 0},   {0xEFF80000, 511, 0, 0, 0, 0},
    };
    for (size_t i = 0; i < sizeof all / sizeof *all; i++) {
        uint32_t w = all[i].word;
        CHECK(BNV_KIND(w) == BNV_FINDING && BNV_FINDING_NODE(w) == all[i].node && BNV_FINDING_RUN_OFF(w) == all[i].run_off);
        CHECK(BNV_FINDING_ACTION(w) == all[i].action && BNV_FINDING_PLACE(w) == all[i].place && BNV_FINDING_HIGH(w) == all[i].high);
    }
    CHECK(2 * BNV_FINDING_NODE(0xE0080000u | 0x00100000u) == 6 && 2 * BNV_FINDING_HIGH(1) == 2 && BNV_FINDING_ACTION(-1) == 15);
}

static void version(void)
{
    CHECK(bnv_version() == 8001 && bnv_version() == BNV_VERSION_NUMBER);
}

static void check(void)
{
    BnvCheck c = bnv_check(fade, LOGIC);
    CHECK(c.answer == BNV_GOOD && c.refusal == 0 && c.value == 0 && c.variables == 1 && c.start_rows == 0);
    CHECK(c.predicates == 0 && c.actions == 2 && c.forbidden == 0);
    c = bnv_check(fade, LOGIC - 1);
    CHECK(c.answer == BNV_CHECK_REFUSED && c.refusal == BNV_REFUSED_WORD && c.value == LOGIC - 1 && c.variables == 0 && c.actions == 0);
    c = bnv_check(NULL, 0);
    CHECK(c.answer == BNV_CHECK_REFUSED && c.refusal == BNV_REFUSED_WORD && c.value == 0);
}

static void action_part(void)
{
    BnvPart p = bnv_action_part(fade, LOGIC, 0);
    CHECK(p.start == 3 && p.length == 6);
    p = bnv_action_part(fade, LOGIC, 1);
    CHECK(p.start == 9 && p.length == 6);
    p = bnv_action_part(fade, LOGIC, 2);
    CHECK(p.start == 0 && p.length == 0);
    p = bnv_action_part(NULL, 0, 0);
    CHECK(p.start == 0 && p.length == 0);
}

static void step(void)
{
    static const uint32_t below[] = {0x100003E8, 0x40000000, 0x50000000, 0x60000001, 0x70000000, 0x2FFFFFFB, 0x30000001, 0xF0000000};
    int32_t state[] = {400, 77};
    BnvStep s = bnv_step(fade, LOGIC, 0, state, 1);
    CHECK(s.answer == BNV_MOVED && s.refusal == 0 && s.row == 0 && s.row_value == 0 && state[0] == 395 && state[1] == 77);
    state[0] = 4;
    s = bnv_step(fade, LOGIC, 0, state, 1);
    CHECK(s.answer == BNV_NOT_ENABLED && s.row == 0 && s.row_value == -1 && s.variable == 0 && s.refusal == 0 && s.value == 0 && state[0] == 4);
    s = bnv_step(below, 8, 0, state, 1);
    CHECK(s.answer == BNV_RUNS_OFF && s.variable == 0 && s.row == 0 && s.row_value == 0 && state[0] == 4);
    s = bnv_step(fade, LOGIC, 7, state, 1);
    CHECK(s.answer == BNV_STEP_REFUSED && s.refusal == BNV_REFUSED_ABSENT && s.value == 7 && s.row == 0 && s.row_value == 0);
    s = bnv_step(fade, LOGIC, 0, state, 2);
    CHECK(s.answer == BNV_STEP_REFUSED && s.refusal == BNV_REFUSED_LENGTH && s.value == 2);
    s = bnv_step(fade, LOGIC, 0, NULL, 0);
    CHECK(s.answer == BNV_STEP_REFUSED && s.refusal == BNV_REFUSED_LENGTH && s.value == 0);
    state[0] = -1;
    s = bnv_step(fade, LOGIC, 0, state, 1);
    CHECK(s.answer == BNV_STEP_REFUSED && s.refusal == BNV_REFUSED_STATE && s.value == 0 && state[0] == -1);
}

/* How near it was, of both steps: three guard rows at 5, where x - 5 holds, x - 10 lacks 5 and x - 14 lacks 9; and the least value that a row can have. */
static void near(void)
{
    static const uint32_t rows[] = {0x100003E8, 0x40000000, 0x50000000, 0x60000030, 0x2FFFFFFB, 0x30000001, 0x2FFFFFF6, 0x30000001, 0x2FFFFFF2, 0x30000001, 0xF0000000};
    static const uint32_t least[] = {0x18001FFF, 0x18001FFF, 0x18001FFF, 0x18001FFF, 0x18001FFF, 0x18001FFF, 0x18001FFF, 0x18001FFF, 0x40000000, 0x50000000, 0x60000010,
                                     0x2FF0BDC0, 0x300003E8, 0x310003E8, 0x320003E8, 0x330003E8, 0x340003E8, 0x350003E8, 0x360003E8, 0x370003E8, 0xF0000000};
    int32_t state[] = {5}, low[] = {-8192, -8192, -8192, -8192, -8192, -8192, -8192, -8192};
    BnvStep s[] = {bnv_step(rows, 11, 0, state, 1), bnv_rack_step(rows, 11, 0, state, 1)};
    BnvStep t[] = {bnv_step(least, 21, 0, low, 8), bnv_rack_step(least, 21, 0, low, 8)};
    for (int i = 0; i < 2; i++) {
        CHECK(s[i].answer == BNV_NOT_ENABLED && s[i].row == 1 && s[i].row_value == -5 && state[0] == 5);
        CHECK(t[i].answer == BNV_NOT_ENABLED && t[i].row == 0 && t[i].row_value == -66536000 && low[0] == -8192 && low[7] == -8192);
    }
}

/* The incident: a macro takes 10 off a level of 5. And 4 and 5 times 8,191, which is 73,719 and in sixteen bits 8,183. */
static void rack_step(void)
{
    static const uint32_t macro[] = {0x100003E8, 0x40000000, 0x50000000, 0x60000001, 0x70000000, 0x2FFFFFF6, 0x30000001, 0xF0000000};
    static const uint32_t sum[] = {0x10001FFF, 0x10001FFF, 0x40000000, 0x50000000, 0x60000001, 0x70000000, 0x20000000, 0x30000004, 0x31000005, 0xF0000000};
    int32_t state[] = {5, 77}, both[] = {8191, 8191};
    BnvStep s = bnv_step(macro, 8, 0, state, 1);
    CHECK(s.answer == BNV_RUNS_OFF && s.variable == 0 && state[0] == 5);
    s = bnv_rack_step(macro, 8, 0, state, 1);
    CHECK(s.answer == BNV_MOVED && s.variable == 0 && s.refusal == 0 && s.value == 0 && state[0] == -5 && state[1] == 77);
    s = bnv_rack_step(macro, 8, 0, state, 1);
    CHECK(s.answer == BNV_STEP_REFUSED && s.refusal == BNV_REFUSED_STATE && s.value == 0 && state[0] == -5);
    s = bnv_rack_step(sum, 10, 0, both, 2);
    CHECK(s.answer == BNV_MOVED && both[0] == 8183 && both[1] == 8191);
    state[0] = 400;
    s = bnv_rack_step(fade, LOGIC, 0, state, 1);
    CHECK(s.answer == BNV_MOVED && state[0] == 395);
    state[0] = 4;
    s = bnv_rack_step(fade, LOGIC, 0, state, 1);
    CHECK(s.answer == BNV_NOT_ENABLED && s.row == 0 && s.row_value == -1 && s.refusal == 0 && state[0] == 4);
    s = bnv_rack_step(fade, LOGIC - 1, 0, state, 1);
    CHECK(s.answer == BNV_STEP_REFUSED && s.refusal == BNV_REFUSED_WORD && s.value == LOGIC - 1 && state[0] == 4);
    s = bnv_rack_step(fade, LOGIC, 7, state, 1);
    CHECK(s.answer == BNV_STEP_REFUSED && s.refusal == BNV_REFUSED_ABSENT && s.value == 7);
    s = bnv_rack_step(fade, LOGIC, 0, NULL, 0);
    CHECK(s.answer == BNV_STEP_REFUSED && s.refusal == BNV_REFUSED_LENGTH && s.value == 0);
}

static void ask(void)
{
    static const uint32_t idle[] = {0x90030000, 0x80000000, 0xA0000000, 0xA0000000};
    BnvAsk a = bnv_ask(fade, LOGIC, lemmas, LEMMAS, 3);
    CHECK(a.answer == BNV_ACCEPTED && a.refusal == 0 && a.value == 0);
    a = bnv_ask(fade, LOGIC, idle, 4, 0);
    CHECK(a.answer == BNV_NOT_ACCEPTED && a.refusal == 0 && a.value == 0);
    a = bnv_ask(fade, LOGIC, lemmas, LEMMAS, 4);
    CHECK(a.answer == BNV_ASK_REFUSED && a.refusal == BNV_REFUSED_ABSENT && a.value == 4);
    a = bnv_ask(fade, LOGIC, lemmas, LEMMAS - 1, 0);
    CHECK(a.answer == BNV_ASK_REFUSED && a.refusal == BNV_REFUSED_LEMMA && a.value == LEMMAS - 1);
}

static void judge(void)
{
    fill();
    BnvJudge j = bnv_judge(fade, LOGIC, lemmas, LEMMAS, graph, BNV_GRAPH_WORDS + 8, path, BNV_PATH_WORDS + 8);
    CHECK(j.verdict == BNV_SAFE && j.node == 0 && j.place == 0 && j.variable == 0 && j.high == 0);
    CHECK(j.nodes == 1 && j.edges == 2 && j.refusal == 0 && j.value == 0);
    CHECK(graph_of_fade());
    BnvSuccessor s = bnv_successor(graph, RECORD, 1, 2, 0, 1);
    CHECK(s.answer == BNV_NODE && s.node == 0 && s.refusal == 0);
    s = bnv_successor(graph, RECORD - 1, 1, 2, 0, 1);
    CHECK(s.answer == BNV_SUCCESSOR_REFUSED && s.refusal == BNV_REFUSED_SHORT && s.value == 0);
    s = bnv_successor(graph, RECORD, 1, 2, 5, 1);
    CHECK(s.answer == BNV_SUCCESSOR_REFUSED && s.refusal == BNV_REFUSED_ABSENT && s.value == 5);
    graph[EDGES] = 0xCFFFFFFF;
    s = bnv_successor(graph, RECORD, 1, 2, 0, 0);
    CHECK(s.answer == BNV_NO_NODE && s.node == 0);
    j = bnv_judge(fade, LOGIC, lemmas, LEMMAS - 4, graph, BNV_GRAPH_WORDS, path, BNV_PATH_WORDS);
    CHECK(j.verdict == BNV_MAY_RUN_OFF && j.node == 0 && j.place == 1 && j.variable == 0 && j.high == 1);
    CHECK(j.nodes == 1 && j.edges == 2 && j.refusal == 0);
}

static void judge_refused(void)
{
    fill();
    BnvJudge j = bnv_judge(fade, LOGIC, NULL, 0, graph, BNV_GRAPH_WORDS - 1, NULL, 0);
    CHECK(j.verdict == BNV_JUDGE_REFUSED && j.refusal == BNV_REFUSED_SHORT && j.value == 0);
    /* The room of the records before 0.7.0. */
    j = bnv_judge(fade, LOGIC, lemmas, LEMMAS, graph, 9216, path, BNV_PATH_WORDS);
    CHECK(j.verdict == BNV_JUDGE_REFUSED && j.refusal == BNV_REFUSED_SHORT && j.value == 0);
    j = bnv_judge(fade, LOGIC, NULL, 0, graph, BNV_GRAPH_WORDS, NULL, 0);
    CHECK(j.verdict == BNV_JUDGE_REFUSED && j.refusal == BNV_REFUSED_SHORT && j.value == 1);
    j = bnv_judge(NULL, 0, NULL, 0, graph, BNV_GRAPH_WORDS, path, BNV_PATH_WORDS);
    CHECK(j.verdict == BNV_JUDGE_REFUSED && j.refusal == BNV_REFUSED_WORD && j.value == 0 && j.nodes == 0);
    j = bnv_judge(fade, LOGIC, lemmas, 1, graph, BNV_GRAPH_WORDS, path, BNV_PATH_WORDS);
    CHECK(j.verdict == BNV_JUDGE_REFUSED && j.refusal == BNV_REFUSED_LEMMA && j.value == 1);
    CHECK(left(0, 0));
}

/* Bytes of a show, with room for one byte too many, from any alignment. */
static uint8_t bytes[BNV_SHOW_BYTES + 8];

/* Fade's bytes from here on; how many. */
static size_t lay(size_t from)
{
    memset(bytes, 0, sizeof bytes);
    for (size_t i = 0; i < LOGIC + LEMMAS; i++) {
        uint32_t word = i < LOGIC ? fade[i] : lemmas[i - LOGIC];
        for (size_t k = 0; k < 4; k++)
            bytes[from + 4 * i + k] = (uint8_t)(word >> (8 * k));
    }
    return 4 * (LOGIC + LEMMAS);
}

/* Is the path list, lent as a findings list of `length` words, these words, then zeros, then what `fill` wrote? */
static int found(const uint32_t *wanted, size_t count, size_t length)
{
    for (size_t i = 0; i < length; i++)
        if (path[i] != (i < count ? wanted[i] : 0))
            return 0;
    return left(BNV_GRAPH_WORDS, length) && graph[0] == 0x80000000 && graph[EDGES + 1] == 0xC0000000 && graph[RECORD] == 0;
}

static void findings(void)
{
    static const uint32_t both_ends[] = {0xE0040000, 0xE0040001, 0xE0044000, 0xE0044001};
    for (size_t length = 0; length < 9; length++) {
        fill();
        BnvFindings f = bnv_findings(fade, LOGIC, lemmas, LEMMAS, graph, BNV_GRAPH_WORDS + 8, path, length);
        CHECK(f.answer == BNV_LISTED && f.count == 0 && f.refusal == 0 && f.value == 0 && found(NULL, 0, length));
        fill();
        f = bnv_findings(fade, LOGIC, NULL, 0, graph, BNV_GRAPH_WORDS, path, length);
        if (length < 4) {
            CHECK(f.answer == BNV_FINDINGS_REFUSED && f.refusal == BNV_REFUSED_FINDINGS && f.value == 4 && f.count == 0);
            CHECK(found(NULL, 0, 0));
        } else {
            CHECK(f.answer == BNV_LISTED && f.count == 4 && f.refusal == 0 && f.value == 0 && found(both_ends, 4, length));
        }
    }
    CHECK(bnv_findings(fade, LOGIC, lemmas, LEMMAS, graph, BNV_GRAPH_WORDS, NULL, 0).answer == BNV_LISTED);
    CHECK(BNV_MOST_FINDINGS == 135168);
}

static void findings_refused(void)
{
    fill();
    BnvFindings f = bnv_findings(NULL, 0, NULL, 0, graph, BNV_GRAPH_WORDS - 1, NULL, 0);
    CHECK(f.answer == BNV_FINDINGS_REFUSED && f.refusal == BNV_REFUSED_SHORT && f.value == 0 && f.count == 0);
    f = bnv_findings(fade, LOGIC - 1, lemmas, 1, graph, BNV_GRAPH_WORDS, NULL, 0);
    CHECK(f.answer == BNV_FINDINGS_REFUSED && f.refusal == BNV_REFUSED_WORD && f.value == LOGIC - 1);
    f = bnv_findings(fade, LOGIC, lemmas, LEMMAS - 1, graph, BNV_GRAPH_WORDS, path, BNV_PATH_WORDS);
    CHECK(f.answer == BNV_FINDINGS_REFUSED && f.refusal == BNV_REFUSED_LEMMA && f.value == LEMMAS - 1);
    CHECK(left(0, 0));
}

static int no_judge(BnvJudge j)
{
    return j.verdict == 0 && j.node == 0 && j.place == 0 && j.variable == 0 && j.high == 0 && j.nodes == 0 && j.edges == 0 &&
           j.refusal == 0 && j.value == 0;
}

/* Fade from each alignment, and the other calls on the words that it leaves. */
static void show(void)
{
    for (size_t from = 0; from < 4; from++) {
        size_t size = lay(from);
        fill();
        BnvShow s = bnv_show(bytes + from, size, words, BNV_SHOW_WORDS + 8, graph, BNV_GRAPH_WORDS + 8, path, BNV_PATH_WORDS + 8);
        CHECK(s.answer == BNV_JUDGED && s.logic == LOGIC && s.lemmas == LEMMAS);
        CHECK(s.judged.verdict == BNV_SAFE && s.judged.nodes == 1 && s.judged.edges == 2 && s.judged.refusal == 0);
        CHECK(memcmp(words, fade, sizeof fade) == 0 && memcmp(words + LOGIC, lemmas, sizeof lemmas) == 0);
        CHECK(words_left(LOGIC + LEMMAS) && graph_of_fade());
        CHECK(bnv_check(words, s.logic).answer == BNV_GOOD);
        CHECK(bnv_ask(words, s.logic, words + s.logic, s.lemmas, 3).answer == BNV_ACCEPTED);
    }
    /* Without lemmas; without END, where all words are logic; no bytes at all. */
    size_t logic = 4 * LOGIC;
    fill();
    BnvShow s = bnv_show(bytes + 3, logic, words, BNV_SHOW_WORDS, graph, BNV_GRAPH_WORDS, path, BNV_PATH_WORDS);
    CHECK(s.answer == BNV_JUDGED && s.logic == LOGIC && s.lemmas == 0 && s.judged.verdict == BNV_MAY_RUN_OFF && words_left(LOGIC));
    fill();
    s = bnv_show(bytes + 3, logic - 4, words, BNV_SHOW_WORDS, graph, BNV_GRAPH_WORDS, path, BNV_PATH_WORDS);
    CHECK(s.answer == BNV_JUDGED && s.logic == LOGIC - 1 && s.lemmas == 0 && s.judged.verdict == BNV_JUDGE_REFUSED);
    CHECK(s.judged.refusal == BNV_REFUSED_WORD && s.judged.value == LOGIC - 1 && words_left(LOGIC - 1) && left(0, 0));
    fill();
    s = bnv_show(NULL, 0, words, BNV_SHOW_WORDS, graph, BNV_GRAPH_WORDS, path, BNV_PATH_WORDS);
    CHECK(s.answer == BNV_JUDGED && s.logic == 0 && s.lemmas == 0 && s.judged.verdict == BNV_JUDGE_REFUSED);
    CHECK(s.judged.refusal == BNV_REFUSED_WORD && s.judged.value == 0 && words_left(0) && left(0, 0));
}

/* The longest show; the three answers without a verdict, which leave every list; Judge's refusals of its lists. */
static void show_refused(void)
{
    size_t size = lay(0);
    fill();
    BnvShow s = bnv_show(bytes, BNV_SHOW_BYTES, words, BNV_SHOW_WORDS, graph, BNV_GRAPH_WORDS, path, BNV_PATH_WORDS);
    CHECK(s.answer == BNV_JUDGED && s.logic == LOGIC && s.lemmas == BNV_SHOW_WORDS - LOGIC && words_left(BNV_SHOW_WORDS));
    CHECK(s.judged.verdict == BNV_JUDGE_REFUSED && s.judged.refusal == BNV_REFUSED_LEMMA && s.judged.value == LEMMAS && left(0, 0));
    fill();
    for (size_t more = 1; more < 5; more++) {
        s = bnv_show(bytes, BNV_SHOW_BYTES + more, words, BNV_SHOW_WORDS, graph, BNV_GRAPH_WORDS, path, BNV_PATH_WORDS);
        CHECK(s.answer == BNV_TOO_LONG && s.logic == 0 && s.lemmas == 0 && no_judge(s.judged));
    }
    for (size_t less = 1; less < 4; less++) {
        s = bnv_show(bytes, size - less, words, BNV_SHOW_WORDS, graph, BNV_GRAPH_WORDS, path, BNV_PATH_WORDS);
        CHECK(s.answer == BNV_ODD_BYTES && s.logic == 0 && s.lemmas == 0 && no_judge(s.judged));
    }
    /* The words list first, whatever the bytes are; the bytes before the other two lists. */
    s = bnv_show(bytes, BNV_SHOW_BYTES + 1, words, BNV_SHOW_WORDS - 1, graph, BNV_GRAPH_WORDS, path, BNV_PATH_WORDS);
    CHECK(s.answer == BNV_WORDS_SHORT && s.logic == 0 && s.lemmas == 0 && no_judge(s.judged));
    s = bnv_show(bytes, size, NULL, 0, NULL, 0, NULL, 0);
    CHECK(s.answer == BNV_WORDS_SHORT && s.logic == 0 && s.lemmas == 0 && no_judge(s.judged));
    s = bnv_show(bytes, size - 1, words, BNV_SHOW_WORDS, NULL, 0, NULL, 0);
    CHECK(s.answer == BNV_ODD_BYTES && words_left(0) && left(0, 0));
    s = bnv_show(bytes, size, words, BNV_SHOW_WORDS, graph, BNV_GRAPH_WORDS - 1, path, BNV_PATH_WORDS);
    CHECK(s.answer == BNV_JUDGED && s.logic == LOGIC && s.lemmas == LEMMAS && s.judged.verdict == BNV_JUDGE_REFUSED);
    CHECK(s.judged.refusal == BNV_REFUSED_SHORT && s.judged.value == 0 && words_left(LOGIC + LEMMAS) && left(0, 0));
    s = bnv_show(bytes, size, words, BNV_SHOW_WORDS, graph, BNV_GRAPH_WORDS, path, BNV_PATH_WORDS - 1);
    CHECK(s.answer == BNV_JUDGED && s.judged.verdict == BNV_JUDGE_REFUSED && s.judged.refusal == BNV_REFUSED_SHORT && s.judged.value == 1);
    CHECK(left(0, 0));
}

/* Every part, on a stack whose untouched bytes are counted. */
static unsigned char stack[4 * MOST_STACK];
static ucontext_t home, away;

static size_t taken(void (*part)(void))
{
    size_t untouched = 0;
    memset(stack, 0xC3, sizeof stack);
    CHECK(getcontext(&away) == 0);
    away.uc_stack.ss_sp = stack;
    away.uc_stack.ss_size = sizeof stack;
    away.uc_link = &home;
    makecontext(&away, part, 0);
    CHECK(swapcontext(&home, &away) == 0);
    while (untouched < sizeof stack && stack[untouched] == 0xC3)
        untouched++;
    return sizeof stack - untouched;
}

int main(void)
{
    void (*parts[])(void) = {kinds, finding_fields, version, check, action_part, step, near, rack_step, ask, judge, judge_refused, findings_refused, findings, show_refused, show};
    size_t most = 0, last = 0;
    for (size_t i = 0; i < sizeof parts / sizeof *parts; i++) {
        last = taken(parts[i]);
        if (last > most)
            most = last;
    }
    CHECK(most <= MOST_STACK);
    printf("calls: at most %zu bytes of stack, bnv_show %zu\n", most, last);
    return 0;
}
