/*
 * Sentences for what the calls of bulanevior.h answer, for an operator or a log; in English, without a newline.
 *
 * bnv_say_..(out, size, ..) works as snprintf: it writes the sentence to `out`, cut to `size` bytes with the zero at its end, writes nothing
 * where `size` is 0, and returns how long the whole sentence is. BNV_TEXT_BYTES bytes hold each of them, but for a path. Nothing is
 * allocated; the functions are inline and need snprintf, memcpy and strlen.
 *
 * A sentence permits nothing. Go by the numbers: the show may be loaded exactly where judged.verdict == BNV_SAFE.
 *
 * A number that is no answer, 0 too, is said to be one of another version. The Rust wrapper's Display has the same sentences
 * (tests/sentences.txt).
 */
#ifndef BULANEVIOR_TEXT_H
#define BULANEVIOR_TEXT_H

#include <stdio.h>
#include <string.h>

#include "bulanevior.h"

#define BNV_TEXT_BYTES 256u      /* any sentence */
#define BNV_TEXT_PATH_BYTES 2048u /* the path of any verdict */

/* A refusal without its number and value; NULL for a number that is no refusal. */
static inline const char *bnv_refusal_text(uint32_t refusal)
{
    static const char *const texts[] = {
        "a lent list is too short",
        "a word of the logic is missing, of the wrong kind, after the end, or has a stray bit",
        "a word of the logic is one too many of its kind, or counts too many",
        "a word of the logic has a number that is not allowed",
        "a word of the lemmas is missing or against the rules",
        "there are more than 512 lemmas",
        "the picture of this show needs more than 512 nodes",
        "there is no such action, lemma or node",
        "the state does not have one value for each variable",
        "a value of the state is off its range",
        "the sum of a lemma does not fit 64 bits",
        "the findings list is too short",
    };
    return refusal < BNV_REFUSED_SHORT || refusal > BNV_REFUSED_FINDINGS ? NULL : texts[refusal - 1];
}

/* A number that is no answer: the library is of another version than the header. */
static inline int bnv_say_mismatch(char *out, size_t size, uint32_t number)
{
    return snprintf(out, size, "the library is of another version: %u is no answer of this one", (unsigned)number);
}

/* Two texts around a number, and a refusal's number and value in parentheses. */
static inline int bnv_say_around(char *out, size_t size, const char *before, const char *after, uint32_t refusal, size_t value)
{
    return snprintf(out, size, "refused: %s%zu%s (%u AT %zu)", before, value, after, (unsigned)refusal, value);
}

/* A refusal, with its number and value in parentheses: "refused: word 5 has a number that is not allowed (4 AT 5)". */
static inline int bnv_say_refusal(char *out, size_t size, uint32_t refusal, size_t value)
{
    switch (refusal) {
    case BNV_REFUSED_SHORT:
        return snprintf(out, size, "refused: a lent list is too short, a fault of the caller (%u AT %zu)", (unsigned)refusal, value);
    case BNV_REFUSED_WORD:
        return bnv_say_around(out, size, "word ", " is missing, of the wrong kind, after the end, or has a stray bit", refusal, value);
    case BNV_REFUSED_LIMIT:
        return bnv_say_around(out, size, "word ", " is one too many of its kind, or counts too many", refusal, value);
    case BNV_REFUSED_VALUE:
        return bnv_say_around(out, size, "word ", " has a number that is not allowed", refusal, value);
    case BNV_REFUSED_LEMMA:
        return bnv_say_around(out, size, "word ", " of the lemmas is missing or against the rules", refusal, value);
    case BNV_REFUSED_LEMMAS:
        return bnv_say_around(out, size, "word ", " of the lemmas begins one more than 512 lemmas", refusal, value);
    case BNV_REFUSED_NODES:
        return snprintf(out, size, "refused: the picture of this show needs more than 512 nodes (%u AT %zu)", (unsigned)refusal, value);
    case BNV_REFUSED_ABSENT:
        return bnv_say_around(out, size, "there is no action, lemma or node ", "", refusal, value);
    case BNV_REFUSED_LENGTH:
        return bnv_say_around(out, size, "the state has ", " values, not one for each variable", refusal, value);
    case BNV_REFUSED_STATE:
        return bnv_say_around(out, size, "the value of variable ", " is off its range", refusal, value);
    case BNV_REFUSED_SUM:
        return bnv_say_around(out, size, "the sum of lemma ", " does not fit 64 bits", refusal, value);
    case BNV_REFUSED_FINDINGS:
        return bnv_say_around(out, size, "the findings list is too short, ", " words are needed", refusal, value);
    default:
        return bnv_say_mismatch(out, size, refusal);
    }
}

/* "variables 1, start rows 0, predicates 0, actions 2, forbidden combinations 0". */
static inline int bnv_say_check(char *out, size_t size, BnvCheck c)
{
    switch (c.answer) {
    case BNV_GOOD:
        return snprintf(out, size, "variables %zu, start rows %zu, predicates %zu, actions %zu, forbidden combinations %zu", c.variables,
                        c.start_rows, c.predicates, c.actions, c.forbidden);
    case BNV_CHECK_REFUSED:
        return bnv_say_refusal(out, size, c.refusal, c.value);
    default:
        return bnv_say_mismatch(out, size, c.answer);
    }
}

/* "moves", "is not enabled (guard row 0 lacks 5)", "runs off at variable 0"; of both steps. */
static inline int bnv_say_step(char *out, size_t size, BnvStep s)
{
    switch (s.answer) {
    case BNV_MOVED:
        return snprintf(out, size, "moves");
    case BNV_NOT_ENABLED:
        if (s.row_value >= 0) /* an older library leaves what stood in the padding */
            return bnv_say_mismatch(out, size, s.answer);
        return snprintf(out, size, "is not enabled (guard row %u lacks %lld)", (unsigned)s.row, -(long long)s.row_value);
    case BNV_RUNS_OFF:
        return snprintf(out, size, "runs off at variable %zu", s.variable);
    case BNV_STEP_REFUSED:
        return bnv_say_refusal(out, size, s.refusal, s.value);
    default:
        return bnv_say_mismatch(out, size, s.answer);
    }
}

/* "accepted", "not accepted". */
static inline int bnv_say_ask(char *out, size_t size, BnvAsk a)
{
    switch (a.answer) {
    case BNV_ACCEPTED:
        return snprintf(out, size, "accepted");
    case BNV_NOT_ACCEPTED:
        return snprintf(out, size, "not accepted");
    case BNV_ASK_REFUSED:
        return bnv_say_refusal(out, size, a.refusal, a.value);
    default:
        return bnv_say_mismatch(out, size, a.answer);
    }
}

/* "may meet forbidden combination 0 at node 1". */
static inline int bnv_say_forbidden(char *out, size_t size, size_t combination, size_t node)
{
    return snprintf(out, size, "may meet forbidden combination %zu at node %zu", combination, node);
}

/* "action 0 may take variable 0 below its low end at node 0". */
static inline int bnv_say_run_off(char *out, size_t size, size_t action, size_t variable, uint32_t high, size_t node)
{
    return snprintf(out, size, "action %zu may take variable %zu %s at node %zu", action, variable,
                    high == 1 ? "above its high end" : "below its low end", node);
}

/* A verdict: "safe: nodes 1, edges 2", a finding, or a refusal. */
static inline int bnv_say_judge(char *out, size_t size, BnvJudge j)
{
    switch (j.verdict) {
    case BNV_SAFE:
        return snprintf(out, size, "safe: nodes %zu, edges %zu", j.nodes, j.edges);
    case BNV_MAY_FORBID:
        return bnv_say_forbidden(out, size, j.place, j.node);
    case BNV_MAY_RUN_OFF:
        return bnv_say_run_off(out, size, j.place, j.variable, j.high, j.node);
    case BNV_JUDGE_REFUSED:
        return bnv_say_refusal(out, size, j.refusal, j.value);
    default:
        return bnv_say_mismatch(out, size, j.verdict);
    }
}

/* A verdict, or why there is none: "too long: more than 65,536 bytes", "odd bytes: the file was cut". */
static inline int bnv_say_show(char *out, size_t size, BnvShow s)
{
    switch (s.answer) {
    case BNV_TOO_LONG:
        return snprintf(out, size, "too long: more than 65,536 bytes");
    case BNV_ODD_BYTES:
        return snprintf(out, size, "odd bytes: the file was cut");
    case BNV_WORDS_SHORT:
        return snprintf(out, size, "the lent words list is too short");
    case BNV_JUDGED:
        return bnv_say_judge(out, size, s.judged);
    default:
        return bnv_say_mismatch(out, size, s.answer);
    }
}

/* A finding of the list of bnv_findings, by its word; of another word "no finding". */
static inline int bnv_say_finding(char *out, size_t size, uint32_t word)
{
    uint32_t action = BNV_FINDING_ACTION(word), high = BNV_FINDING_HIGH(word), run_off = BNV_FINDING_RUN_OFF(word);
    if (BNV_KIND(word) != BNV_FINDING || (word & 0x7FEu) != 0 || (!run_off && (action || high)))
        return snprintf(out, size, "no finding");
    if (run_off)
        return bnv_say_run_off(out, size, action, BNV_FINDING_PLACE(word), high, BNV_FINDING_NODE(word));
    return bnv_say_forbidden(out, size, BNV_FINDING_PLACE(word), BNV_FINDING_NODE(word));
}

/* What bnv_findings answers: "findings 4". */
static inline int bnv_say_findings(char *out, size_t size, BnvFindings f)
{
    switch (f.answer) {
    case BNV_LISTED:
        return snprintf(out, size, "findings %zu", f.count);
    case BNV_FINDINGS_REFUSED:
        return bnv_say_refusal(out, size, f.refusal, f.value);
    default:
        return bnv_say_mismatch(out, size, f.answer);
    }
}

/* "node 2", "no node". */
static inline int bnv_say_successor(char *out, size_t size, BnvSuccessor s)
{
    switch (s.answer) {
    case BNV_NODE:
        return snprintf(out, size, "node %zu", s.node);
    case BNV_NO_NODE:
        return snprintf(out, size, "no node");
    case BNV_SUCCESSOR_REFUSED:
        return bnv_say_refusal(out, size, s.refusal, s.value);
    default:
        return bnv_say_mismatch(out, size, s.answer);
    }
}

/* Adds a text behind the first `length` bytes of a sentence, as far as it fits: how long it is then. */
static inline int bnv_say_more(char *out, size_t size, int length, const char *more)
{
    size_t there = (size_t)length, n = strlen(more);
    if (there < size) {
        size_t room = size - there - 1, fits = n < room ? n : room;
        memcpy(out + there, more, fits);
        out[there + fits] = 0;
    }
    return length + (int)n;
}

/* The actions of a path list, the STEP words at its front: "actions: 0 2 1", or "actions: none". */
static inline int bnv_say_path(char *out, size_t size, const uint32_t *path, size_t path_length)
{
    int length = snprintf(out, size, "actions:");
    size_t steps = 0;
    for (; steps < path_length && BNV_KIND(path[steps]) == BNV_STEP; steps++) {
        char action[16];
        snprintf(action, sizeof action, " %u", (unsigned)BNV_PAYLOAD(path[steps]));
        length = bnv_say_more(out, size, length, action);
    }
    return steps > 0 ? length : bnv_say_more(out, size, length, " none");
}

#endif
