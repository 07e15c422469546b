/*
 * Presses actions of a show, exactly and as a rack of sixteen bits does: `rack FILE VALUE.. -- ACTION..`, the values of the variables to begin with.
 *
 *     rack shows/incident.words 5 -- 0
 *
 * The first line says whether the show is safe; then there is a line for each action, up to the first at which the two differ; of one that is not enabled
 * it says how near it was, "guard row 0 lacks 5". The exit status: 0 the rack's values are the exact ones; 1 they are not; 3 the show, an action or the
 * values are refused, or the file is cut or too long; 2 trouble.
 */
#include <errno.h>
#include <stdio.h>
#include <stdlib.h>
#include <string.h>

#include "bulanevior_text.h"

enum { SAME = 0, DIFFER = 1, TROUBLE = 2, REFUSED = 3, MOST = 1000 };

static uint8_t bytes[BNV_SHOW_BYTES + 1];
static uint32_t words[BNV_SHOW_WORDS];
static uint32_t graph[BNV_GRAPH_WORDS];
static uint32_t path[BNV_PATH_WORDS];

static int trouble(const char *what)
{
    fprintf(stderr, "%s\n", what);
    return TROUBLE;
}

static int mismatch(uint32_t number)
{
    char said[BNV_TEXT_BYTES];
    bnv_say_mismatch(said, sizeof said, number);
    return trouble(said);
}

static int refused(uint32_t number, size_t value)
{
    printf("refused: %u AT %zu\n", number, value);
    return REFUSED;
}

/* Whether a show is safe, or why there is nothing to press. */
static int print_show(BnvShow s)
{
    if (s.answer == BNV_TOO_LONG || s.answer == BNV_ODD_BYTES) {
        char said[BNV_TEXT_BYTES];
        bnv_say_show(said, sizeof said, s);
        printf("%s\n", said);
        return REFUSED;
    }
    if (s.answer != BNV_JUDGED)
        return mismatch(s.answer);
    switch (s.judged.verdict) {
    case BNV_SAFE:
        printf("safe\n");
        return SAME;
    case BNV_MAY_FORBID:
    case BNV_MAY_RUN_OFF:
        printf("not safe\n");
        return SAME;
    case BNV_JUDGE_REFUSED:
        return refused(s.judged.refusal, s.judged.value);
    default:
        return mismatch(s.judged.verdict);
    }
}

/* Reads the file and judges it: how many words its logic has, or 0 with the exit status. */
static size_t load(const char *name, int *status)
{
    FILE *file = fopen(name, "rb");
    *status = TROUBLE;
    if (!file) {
        perror(name);
        return 0;
    }
    size_t size = fread(bytes, 1, sizeof bytes, file);
    int failed = ferror(file);
    if (failed)
        perror(name);
    fclose(file);
    if (failed)
        return 0;
    BnvShow s = bnv_show(bytes, size, words, BNV_SHOW_WORDS, graph, BNV_GRAPH_WORDS, path, BNV_PATH_WORDS);
    *status = print_show(s);
    return *status == SAME ? s.logic : 0;
}

/* Whole numbers from `low` to `high`, up to `--` or the end: how many, or -1. */
static int numbers(char **texts, long low, long high, long *out)
{
    int n = 0;
    for (; texts[n] && strcmp(texts[n], "--") != 0; n++) {
        char *end;
        errno = 0;
        out[n] = strtol(texts[n], &end, 10);
        if (end == texts[n] || *end || errno || out[n] < low || out[n] > high)
            return -1;
    }
    return n;
}

/* What a step answers, and the state behind it. */
static void print(const char *who, BnvStep s, const int32_t *state, size_t n)
{
    char said[BNV_TEXT_BYTES];
    bnv_say_step(said, sizeof said, s);
    printf("%s %s,", who, said);
    for (size_t v = 0; v < n; v++)
        printf(" %d", (int)state[v]);
}

/* One action, on both states. */
static int press(size_t logic, size_t k, int32_t *exact, int32_t *rack, size_t n)
{
    BnvStep e = bnv_step(words, logic, k, exact, n);
    BnvStep r = bnv_rack_step(words, logic, k, rack, n);
    if (e.answer == BNV_STEP_REFUSED)
        return refused(e.refusal, e.value);
    if (e.answer != BNV_MOVED && e.answer != BNV_NOT_ENABLED && e.answer != BNV_RUNS_OFF)
        return mismatch(e.answer);
    if (r.answer != BNV_MOVED && r.answer != BNV_NOT_ENABLED)
        return mismatch(r.answer);
    /* An older library leaves what stood in the padding. */
    if ((e.answer == BNV_NOT_ENABLED && e.row_value >= 0) || (r.answer == BNV_NOT_ENABLED && r.row_value >= 0))
        return mismatch(BNV_NOT_ENABLED);
    printf("action %zu: ", k);
    print("exact", e, exact, n);
    print("; rack", r, rack, n);
    printf("\n");
    return e.answer == r.answer && e.row == r.row && e.row_value == r.row_value && memcmp(exact, rack, n * sizeof *rack) == 0 ? SAME : DIFFER;
}

/* The actions, one after the other. */
static int presses(size_t logic, const long *actions, int count, int32_t *exact, int32_t *rack, size_t n)
{
    for (int i = 0; i < count; i++) {
        int status = press(logic, (size_t)actions[i], exact, rack, n);
        if (status == DIFFER)
            printf("the rack's values are not the exact ones\n");
        if (status != SAME)
            return status;
    }
    printf("the rack's values are the exact ones\n");
    return SAME;
}

static int run(int argc, char **argv)
{
    static long values[MOST], actions[MOST];
    static int32_t exact[MOST], rack[MOST];
    if (argc < 3 || argc > MOST)
        return trouble("usage: rack FILE VALUE.. -- ACTION..");
    int n = numbers(argv + 2, INT32_MIN, INT32_MAX, values);
    if (n < 0)
        return trouble("values of 32 bits");
    if (!argv[2 + n])
        return trouble("usage: rack FILE VALUE.. -- ACTION..");
    int count = numbers(argv + 3 + n, 0, UINT32_MAX, actions);
    if (count < 0 || argv[3 + n + count])
        return trouble("an action is a number from 0 on");
    for (int v = 0; v < n; v++)
        exact[v] = rack[v] = (int32_t)values[v];
    int status;
    size_t logic = load(argv[1], &status);
    return status == SAME ? presses(logic, actions, count, exact, rack, (size_t)n) : status;
}

int main(int argc, char **argv)
{
    int status = run(argc, argv);
    if (fflush(stdout) != 0 || ferror(stdout)) {
        perror("standard output");
        return TROUBLE;
    }
    return status;
}
