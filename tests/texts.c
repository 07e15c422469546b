/* Every sentence of bulanevior_text.h, one on each line, in the order of tests/sentences.txt; each whole, and cut to every size. */
#include <stdlib.h>

#include "bulanevior_text.h"

#define CHECK(test) \
    do { \
        if (!(test)) { \
            printf("line %d: %s\n", __LINE__, #test); \
            exit(1); \
        } \
    } while (0)

static char text[BNV_TEXT_PATH_BYTES + 8], part[BNV_TEXT_PATH_BYTES + 8];

/* Is the part, made with this much room, the front of the text, with a zero behind it and nothing further? */
static int cut(size_t whole, size_t room)
{
    size_t fits = room == 0 ? 0 : whole < room ? whole : room - 1;
    if (memcmp(part, text, fits) != 0 || (room > 0 && part[fits] != 0))
        return 0;
    for (size_t i = room == 0 ? 0 : fits + 1; i < sizeof part; i++)
        if (part[i] != 1)
            return 0;
    return 1;
}

#define SAY(most, call, ...) \
    do { \
        int whole = call(text, sizeof text, __VA_ARGS__); \
        CHECK(whole > 0 && (size_t)whole < (most) && (size_t)whole == strlen(text)); \
        for (size_t room = 0; room < (size_t)whole + 3; room++) { \
            memset(part, 1, sizeof part); \
            CHECK(call(part, room, __VA_ARGS__) == whole && cut((size_t)whole, room)); \
        } \
    } while (0)

#define PRINT(call, ...) \
    do { \
        SAY(BNV_TEXT_BYTES, call, __VA_ARGS__); \
        puts(text); \
    } while (0)

static void refusals(void)
{
    for (uint32_t n = 1; n < 13; n++)
        puts(bnv_refusal_text(n));
    for (uint32_t n = 1; n < 13; n++)
        PRINT(bnv_say_refusal, n, 512);
    CHECK(!bnv_refusal_text(0) && !bnv_refusal_text(13) && !bnv_refusal_text(UINT32_MAX));
}

static void small_calls(void)
{
    PRINT(bnv_say_check, (BnvCheck){BNV_GOOD, 0, 0, 31, 32, 33, 34, 35});
    PRINT(bnv_say_check, (BnvCheck){BNV_CHECK_REFUSED, BNV_REFUSED_VALUE, 23, 0, 0, 0, 0, 0});
    PRINT(bnv_say_step, (BnvStep){BNV_MOVED, 0, 0, 0, 0, 0});
    PRINT(bnv_say_step, (BnvStep){BNV_NOT_ENABLED, 32, 0, 0, -33, 0});
    PRINT(bnv_say_step, (BnvStep){BNV_NOT_ENABLED, 0, 0, 0, INT32_MIN, 0});
    PRINT(bnv_say_step, (BnvStep){BNV_RUNS_OFF, 0, 31, 0, 0, 0});
    PRINT(bnv_say_step, (BnvStep){BNV_STEP_REFUSED, 0, 0, BNV_REFUSED_ABSENT, 0, 23});
    PRINT(bnv_say_ask, (BnvAsk){BNV_ACCEPTED, 0, 0});
    PRINT(bnv_say_ask, (BnvAsk){BNV_NOT_ACCEPTED, 0, 0});
    PRINT(bnv_say_ask, (BnvAsk){BNV_ASK_REFUSED, BNV_REFUSED_SUM, 23});
    PRINT(bnv_say_findings, (BnvFindings){BNV_LISTED, 0, 0, 31});
    PRINT(bnv_say_findings, (BnvFindings){BNV_FINDINGS_REFUSED, BNV_REFUSED_FINDINGS, 23, 0});
    PRINT(bnv_say_successor, (BnvSuccessor){BNV_NODE, 31, 0, 0});
    PRINT(bnv_say_successor, (BnvSuccessor){BNV_NO_NODE, 0, 0, 0});
    PRINT(bnv_say_successor, (BnvSuccessor){BNV_SUCCESSOR_REFUSED, 0, BNV_REFUSED_LIMIT, 0});
}

static void verdicts(void)
{
    const BnvJudge safe = {BNV_SAFE, 0, 0, 0, 0, 34, 35, 0, 0}, none = {0, 0, 0, 0, 0, 0, 0, 0, 0};
    PRINT(bnv_say_judge, safe);
    PRINT(bnv_say_judge, (BnvJudge){BNV_MAY_FORBID, 31, 32, 0, 0, 34, 35, 0, 0});
    PRINT(bnv_say_judge, (BnvJudge){BNV_MAY_RUN_OFF, 31, 32, 33, 0, 34, 35, 0, 0});
    PRINT(bnv_say_judge, (BnvJudge){BNV_MAY_RUN_OFF, 31, 32, 33, 1, 34, 35, 0, 0});
    PRINT(bnv_say_judge, (BnvJudge){BNV_JUDGE_REFUSED, 0, 0, 0, 0, 0, 0, BNV_REFUSED_WORD, 23});
    PRINT(bnv_say_show, (BnvShow){BNV_TOO_LONG, 0, 0, none});
    PRINT(bnv_say_show, (BnvShow){BNV_ODD_BYTES, 0, 0, none});
    PRINT(bnv_say_show, (BnvShow){BNV_WORDS_SHORT, 0, 0, none});
    PRINT(bnv_say_show, (BnvShow){BNV_JUDGED, 1, 2, safe});
    PRINT(bnv_say_finding, 0xEFF83800u);
    PRINT(bnv_say_finding, 0xE0149000u);
    PRINT(bnv_say_finding, 0xEFFFF801u);
}

/* Actions 0, 15 and 2, and behind them a word that is no STEP; none; and the longest path. */
static void paths(void)
{
    static const uint32_t three[] = {0xD0000000, 0xD000000F, 0xD0000002, 0, 0xD0000001};
    static uint32_t longest[BNV_PATH_WORDS];
    PRINT(bnv_say_path, three, 5);
    PRINT(bnv_say_path, three + 3, 2);
    for (size_t i = 0; i < BNV_PATH_WORDS; i++)
        longest[i] = 0xD000000F;
    SAY(BNV_TEXT_PATH_BYTES, bnv_say_path, longest, BNV_PATH_WORDS);
    CHECK(strlen(text) == 8 + 3 * BNV_PATH_WORDS);
    SAY(BNV_TEXT_BYTES, bnv_say_path, NULL, 0);
    CHECK(strcmp(text, "actions: none") == 0);
}

/* Numbers that are no answer, of each call; and words that are no finding. */
static void mismatches(void)
{
    static const uint32_t words[] = {0, 0xD0000000, 0xE0000001, 0xE0004000, 0xE0040002, 0xE0040400};
    PRINT(bnv_say_mismatch, 0);
    char zero[BNV_TEXT_BYTES];
    strcpy(zero, text);
    SAY(BNV_TEXT_BYTES, bnv_say_refusal, 0, 7);
    CHECK(strcmp(text, zero) == 0);
#define ZERO(call, record) \
    SAY(BNV_TEXT_BYTES, call, (record){0}); \
    CHECK(strcmp(text, zero) == 0)
    ZERO(bnv_say_check, BnvCheck);
    ZERO(bnv_say_step, BnvStep);
    ZERO(bnv_say_ask, BnvAsk);
    ZERO(bnv_say_judge, BnvJudge);
    ZERO(bnv_say_show, BnvShow);
    ZERO(bnv_say_findings, BnvFindings);
    ZERO(bnv_say_successor, BnvSuccessor);
    SAY(BNV_TEXT_BYTES, bnv_say_step, (BnvStep){BNV_NOT_ENABLED, 0, 0, 0, 0, 0});
    CHECK(strcmp(text, "the library is of another version: 1 is no answer of this one") == 0);
    for (size_t i = 0; i < sizeof words / sizeof *words; i++) {
        SAY(BNV_TEXT_BYTES, bnv_say_finding, words[i]);
        CHECK(strcmp(text, "no finding") == 0);
    }
}

/* The largest numbers that fields hold. */
static void longest(void)
{
    const size_t n = SIZE_MAX;
    for (uint32_t refusal = 0; refusal < 14; refusal++)
        SAY(BNV_TEXT_BYTES, bnv_say_refusal, refusal, n);
    SAY(BNV_TEXT_BYTES, bnv_say_refusal, UINT32_MAX, n);
    SAY(BNV_TEXT_BYTES, bnv_say_check, (BnvCheck){BNV_GOOD, 0, 0, n, n, n, n, n});
    SAY(BNV_TEXT_BYTES, bnv_say_judge, (BnvJudge){BNV_MAY_RUN_OFF, n, n, n, 1, n, n, 0, 0});
    SAY(BNV_TEXT_BYTES, bnv_say_step, (BnvStep){BNV_NOT_ENABLED, UINT32_MAX, n, 0, INT32_MIN, n});
}

int main(void)
{
    refusals();
    small_calls();
    verdicts();
    paths();
    mismatches();
    longest();
    return 0;
}
