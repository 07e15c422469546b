/*
 * All findings of a show file: `findings FILE`. Prints one line for each, with the actions that lead there; or that there are none.
 *
 * The exit status: 0 safe; 1 findings; 3 the show is refused, cut or too long; 2 trouble: the file cannot be read, or the answer
 * cannot be printed, and there is no verdict. Only 0 lets a desk load the show. A refusal's number and value are in the header.
 */
#include <stdio.h>

#include "bulanevior_text.h"

enum { SAFE = 0, FINDINGS = 1, TROUBLE = 2, REFUSED = 3 };

static uint8_t bytes[BNV_SHOW_BYTES + 1];
static uint32_t words[BNV_SHOW_WORDS];
static uint32_t graph[BNV_GRAPH_WORDS];
static uint32_t path[BNV_PATH_WORDS];
static uint32_t list[BNV_MOST_FINDINGS];
static uint32_t way[BNV_MOST_NODES];

/* Reads the file, or one byte more than a show may have; how many bytes, or -1 with a message. */
static long load(const char *name)
{
    FILE *file = fopen(name, "rb");
    if (!file) {
        perror(name);
        return -1;
    }
    size_t size = fread(bytes, 1, sizeof bytes, file);
    int failed = ferror(file);
    if (failed)
        perror(name);
    fclose(file);
    return failed ? -1 : (long)size;
}

/* What cannot be where the header and the library are of the same version. */
static int mismatch(const char *what)
{
    fprintf(stderr, "the library is of another version: %s\n", what);
    return TROUBLE;
}

static void say(BnvShow s)
{
    char said[BNV_TEXT_BYTES];
    bnv_say_show(said, sizeof said, s);
    printf("%s\n", said);
}

/* Fills `way` with the actions from node 0 to a node, the last one first, by the ORIGIN words: how many, or -1 if there is no way. */
static int find_way(uint32_t node, size_t actions)
{
    int count = 0;
    while (node != 0) {
        size_t place = BNV_RECORD(actions, node) + 1;
        if (count == BNV_MOST_NODES || place + 1 >= BNV_GRAPH_WORDS || BNV_KIND(graph[place]) != BNV_ORIGIN
            || BNV_KIND(graph[place + 1]) != BNV_DISTANCE)
            return -1;
        way[count++] = BNV_ORIGIN_ACTION(graph[place]);
        node = BNV_ORIGIN_PARENT(graph[place]);
    }
    return count;
}

static void print_finding(uint32_t finding, size_t actions)
{
    char said[BNV_TEXT_BYTES];
    bnv_say_finding(said, sizeof said, finding);
    printf("%s; actions:", said);
    int count = find_way(BNV_FINDING_NODE(finding), actions);
    if (count == 0)
        printf(" none");
    while (count > 0)
        printf(" %u", way[--count]);
    printf("\n");
}

/* The findings of a show that Judge does not refuse. Nothing is printed before all of them have been looked at. */
static int print_findings(BnvShow s)
{
    size_t actions = bnv_check(words, s.logic).actions;
    BnvFindings f = bnv_findings(words, s.logic, words + s.logic, s.lemmas, graph, BNV_GRAPH_WORDS, list, BNV_MOST_FINDINGS);
    if (f.answer != BNV_LISTED || f.count > BNV_MOST_FINDINGS || (f.count == 0) != (s.judged.verdict == BNV_SAFE)
        || BNV_FINDING_NODE(list[0]) != s.judged.node)
        return mismatch("the findings are not those of the verdict");
    for (size_t i = 0; i < f.count; i++)
        if (BNV_KIND(list[i]) != BNV_FINDING || find_way(BNV_FINDING_NODE(list[i]), actions) < 0)
            return mismatch("no actions lead to a finding");
    for (size_t i = 0; i < f.count; i++)
        print_finding(list[i], actions);
    if (f.count > 0)
        return FINDINGS;
    say(s);
    return SAFE;
}

static int print_verdict(BnvShow s)
{
    switch (s.judged.verdict) {
    case BNV_SAFE:
    case BNV_MAY_FORBID:
    case BNV_MAY_RUN_OFF:
        return print_findings(s);
    case BNV_JUDGE_REFUSED:
        if (!bnv_refusal_text(s.judged.refusal))
            return mismatch("no such refusal");
        printf("refused %u AT %zu\n", s.judged.refusal, s.judged.value);
        return REFUSED;
    default:
        return mismatch("no such verdict");
    }
}

static int print(BnvShow s)
{
    switch (s.answer) {
    case BNV_TOO_LONG:
    case BNV_ODD_BYTES:
        say(s);
        return REFUSED;
    case BNV_JUDGED:
        return print_verdict(s);
    default:
        return mismatch("no such answer"); /* BNV_WORDS_SHORT cannot be: the list is long enough */
    }
}

int main(int argc, char **argv)
{
    if (argc != 2) {
        fprintf(stderr, "usage: findings FILE\n");
        return TROUBLE;
    }
    long size = load(argv[1]);
    if (size < 0)
        return TROUBLE;
    int status = print(bnv_show(bytes, (size_t)size, words, BNV_SHOW_WORDS, graph, BNV_GRAPH_WORDS, path, BNV_PATH_WORDS));
    if (fflush(stdout) != 0 || ferror(stdout)) {
        perror("standard output");
        return TROUBLE;
    }
    return status;
}
