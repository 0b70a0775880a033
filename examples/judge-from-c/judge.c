/* Judges a text of answers from standard input, as it comes: judge [PIECE]
 *
 * It is fed in pieces of PIECE bytes, or of 4,096. One line tells the verdict, and the exit status is its number. What
 * is no verdict, a bad text or no memory, goes to standard error, as that of `torture check --follow` does. */
#include <robiniagolf/judge.h>

#include <stdio.h>
#include <stdlib.h>

static int tell(struct robiniagolf_verdict verdict)
{
    switch (verdict.answer) {
    case ROBINIAGOLF_YES:
        printf("yes events=%zu\n", verdict.event);
        break;
    case ROBINIAGOLF_NO:
        printf("no event=%zu rule=D%u\n", verdict.event, (unsigned)verdict.rule);
        break;
    case ROBINIAGOLF_BAD_TEXT:
        fprintf(stderr, "line %llu column %zu: bad text\n", (unsigned long long)verdict.line, verdict.column);
        break;
    default:
        fprintf(stderr, "no memory\n");
    }
    return (int)verdict.answer;
}

int main(int count, char **words)
{
    static uint8_t piece[4096];
    size_t most = count > 1 ? strtoul(words[1], NULL, 10) : sizeof piece, length;
    struct robiniagolf_judge judge = ROBINIAGOLF_JUDGE_EMPTY;
    struct robiniagolf_verdict verdict;

    if (most == 0 || most > sizeof piece)
        return 2;
    if (robiniagolf_judge_new(&judge) != ROBINIAGOLF_YES)
        return tell((struct robiniagolf_verdict){ .answer = ROBINIAGOLF_MEMORY });
    while ((length = fread(piece, 1, most, stdin)) > 0)
        if (robiniagolf_judge_feed(&judge, piece, length) != ROBINIAGOLF_YES)
            break;
    verdict = robiniagolf_judge_finish(&judge);
    robiniagolf_judge_free(&judge);
    return tell(verdict);
}
