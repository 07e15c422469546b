/*
 * Judges a show file: `show FILE`. Prints one line, and after a finding a second one with the actions that lead there.
 *
 * The exit status: 0 safe; 1 a finding; 3 the show is refused, cut or too long; 2 trouble: the file cannot be read, or the answer
 * cannot be printed, and there is no verdict. Only 0 lets a desk load the show.
 */
#include <stdio.h>

#include "bulanevior_text.h"

enum { SAFE = 0, FINDING = 1, TROUBLE = 2, REFUSED = 3 };

static uint8_t bytes[BNV_SHOW_BYTES + 1];
static uint32_t words[BNV_SHOW_WORDS];
static uint32_t graph[BNV_GRAPH_WORDS];
static uint32_t path[BNV_PATH_WORDS];

/* Reads the file, or one byte more than a show may have; how many bytes, or -1 with a message. */
static long load(const char *name)
{
    FILE *file = fopen(name, "rb");
    if (!file) {
        perror(name);
        return -1;
    }
    size_t size = fread(bytes, 1, sizeof bytes, file);
    int failed = ferror(file);
    if (failed)
        perror(name);
    fclose(file);
    return failed ? -1 : (long)size;
}

/* The exit status that an answer stands for. */
static int status_of(BnvShow s)
{
    if (s.answer == BNV_TOO_LONG || s.answer == BNV_ODD_BYTES)
        return REFUSED;
    if (s.answer != BNV_JUDGED)
        return TROUBLE; /* BNV_WORDS_SHORT cannot be: the list is long enough */
    switch (s.judged.verdict) {
    case BNV_SAFE:
        return SAFE;
    case BNV_MAY_FORBID:
    case BNV_MAY_RUN_OFF:
        return FINDING;
    case BNV_JUDGE_REFUSED:
        return bnv_refusal_text(s.judged.refusal) ? REFUSED : TROUBLE;
    default:
        return TROUBLE;
    }
}

/* What is said of a show; after a finding also the actions that lead there: in the graph no list of fewer leads to any. */
static int print(BnvShow s)
{
    char said[BNV_TEXT_BYTES], actions[BNV_TEXT_PATH_BYTES];
    int status = status_of(s);
    bnv_say_show(said, sizeof said, s);
    bnv_say_path(actions, sizeof actions, path, BNV_PATH_WORDS);
    fprintf(status == TROUBLE ? stderr : stdout, "%s\n", said);
    if (status == FINDING)
        printf("%s\n", actions);
    return status;
}

int main(int argc, char **argv)
{
    if (argc != 2) {
        fprintf(stderr, "usage: show FILE\n");
        return TROUBLE;
    }
    long size = load(argv[1]);
    if (size < 0)
        return TROUBLE;
    int status = print(bnv_show(bytes, (size_t)size, words, BNV_SHOW_WORDS, graph, BNV_GRAPH_WORDS, path, BNV_PATH_WORDS));
    if (fflush(stdout) != 0 || ferror(stdout)) {
        perror("standard output");
        return TROUBLE;
    }
    return status;
}
