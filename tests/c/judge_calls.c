/* The calls of robiniagolf/judge.h on handles that are empty, in use, used up and freed; what each has to answer is
 * worked out from the header. Prints a line for each that answers something else, and ends with how many do. */
#include <robiniagolf/judge.h>

#include <malloc.h>
#include <stdio.h>
#include <string.h>

static int failed;

static void agree(const char *what, size_t got, size_t wanted)
{
    if (got != wanted) {
        printf("calls: %s: %zu, and not %zu\n", what, got, wanted);
        failed++;
    }
}

static uint32_t feed(struct robiniagolf_judge *judge, const char *text)
{
    return robiniagolf_judge_feed(judge, (const uint8_t *)text, strlen(text));
}

static void agree_all(const char *what, struct robiniagolf_verdict got, struct robiniagolf_verdict wanted)
{
    agree(what, got.answer, wanted.answer);
    agree(what, got.rule, wanted.rule);
    agree(what, got.event, wanted.event);
    agree(what, got.line, wanted.line);
    agree(what, got.column, wanted.column);
}

static void empty_handles(void)
{
    struct robiniagolf_judge judge = ROBINIAGOLF_JUDGE_EMPTY;
    struct robiniagolf_verdict none = { .answer = ROBINIAGOLF_EMPTY };

    agree("feed of none", feed(&judge, "open r0.1\n"), ROBINIAGOLF_EMPTY);
    agree_all("verdict of none", robiniagolf_judge_verdict(&judge), none);
    agree_all("finish of none", robiniagolf_judge_finish(&judge), none);
    agree("free of none", robiniagolf_judge_free(&judge), ROBINIAGOLF_EMPTY);
    agree("new", robiniagolf_judge_new(&judge), ROBINIAGOLF_YES);
    agree("free", robiniagolf_judge_free(&judge), ROBINIAGOLF_YES);
    agree("feed after free", feed(&judge, "open r0.1\n"), ROBINIAGOLF_EMPTY);
    agree("free after free", robiniagolf_judge_free(&judge), ROBINIAGOLF_EMPTY);
}

/* A second judge is refused, and the first one goes on. */
static void handles_in_use(void)
{
    struct robiniagolf_judge judge = ROBINIAGOLF_JUDGE_EMPTY, other = ROBINIAGOLF_JUDGE_EMPTY;

    robiniagolf_judge_new(&judge);
    robiniagolf_judge_new(&other);
    feed(&judge, "open r0.1\n");
    agree("new in use", robiniagolf_judge_new(&judge), ROBINIAGOLF_IN_USE);
    agree("close in the first", feed(&judge, "close r0.1\n"), ROBINIAGOLF_YES);
    agree("close in the other", feed(&other, "close r0.1\n"), ROBINIAGOLF_NO);
    agree("events in the first", robiniagolf_judge_verdict(&judge).event, 2);
    robiniagolf_judge_free(&judge);
    robiniagolf_judge_free(&other);
}

static void empty_pieces(void)
{
    struct robiniagolf_judge judge = ROBINIAGOLF_JUDGE_EMPTY;

    robiniagolf_judge_new(&judge);
    agree("null", robiniagolf_judge_feed(&judge, NULL, 0), ROBINIAGOLF_YES);
    feed(&judge, "open r0");
    agree("null in a line", robiniagolf_judge_feed(&judge, NULL, 0), ROBINIAGOLF_YES);
    agree("nothing in a line", feed(&judge, ""), ROBINIAGOLF_YES);
    feed(&judge, ".1\n");
    agree("events", robiniagolf_judge_verdict(&judge).event, 1);
    robiniagolf_judge_free(&judge);
}

/* A text that ends inside a line is a bad one, and may go on all the same. */
static void unended_lines(void)
{
    struct robiniagolf_judge judge = ROBINIAGOLF_JUDGE_EMPTY;
    struct robiniagolf_verdict one = { .answer = ROBINIAGOLF_YES, .event = 1 };
    struct robiniagolf_verdict two = { .answer = ROBINIAGOLF_YES, .event = 2 };
    struct robiniagolf_verdict cut = { .answer = ROBINIAGOLF_BAD_TEXT, .line = 2, .column = 8 };

    robiniagolf_judge_new(&judge);
    feed(&judge, "open r0.1\nclose r");
    agree_all("so far", robiniagolf_judge_verdict(&judge), one);
    agree_all("at its end", robiniagolf_judge_finish(&judge), cut);
    agree_all("so far again", robiniagolf_judge_verdict(&judge), one);
    agree("and on", feed(&judge, "0.1\n"), ROBINIAGOLF_YES);
    agree_all("whole", robiniagolf_judge_finish(&judge), two);
    robiniagolf_judge_free(&judge);
}

/* What is no yes stays, whatever follows. */
static void verdicts_that_stay(void)
{
    struct robiniagolf_judge judge = ROBINIAGOLF_JUDGE_EMPTY;
    struct robiniagolf_verdict wrong = { .answer = ROBINIAGOLF_NO, .rule = 3, .event = 2 };
    struct robiniagolf_verdict bad = { .answer = ROBINIAGOLF_BAD_TEXT, .line = 2, .column = 1 };

    robiniagolf_judge_new(&judge);
    agree("wrong", feed(&judge, "open r0.1\nclose r0.2\nrun o"), ROBINIAGOLF_NO);
    agree("wrong again", feed(&judge, "1\nretire o1\n"), ROBINIAGOLF_NO);
    agree("bad after wrong", feed(&judge, "?\n"), ROBINIAGOLF_NO);
    agree_all("wrong so far", robiniagolf_judge_verdict(&judge), wrong);
    agree_all("wrong at its end", robiniagolf_judge_finish(&judge), wrong);
    robiniagolf_judge_free(&judge);

    robiniagolf_judge_new(&judge);
    agree("bad", feed(&judge, "open r0.1\n?\n"), ROBINIAGOLF_BAD_TEXT);
    agree("wrong after bad", feed(&judge, "close r0.2\n"), ROBINIAGOLF_BAD_TEXT);
    agree_all("bad so far", robiniagolf_judge_verdict(&judge), bad);
    agree_all("bad at its end", robiniagolf_judge_finish(&judge), bad);
    robiniagolf_judge_free(&judge);
}

/* One judge after the other takes no more memory than a few. */
static void freed_judges(void)
{
#if defined(__GLIBC__) && (__GLIBC__ > 2 || __GLIBC_MINOR__ >= 33)
    struct robiniagolf_judge judge = ROBINIAGOLF_JUDGE_EMPTY;
    size_t before = 0;
    int i;

    for (i = 0; i < 1000; i++) {
        if (i == 10)
            before = mallinfo2().uordblks;
        robiniagolf_judge_new(&judge);
        feed(&judge, "open r0.1\npush c0 o1\nask a1\nbar b1\nopen");
        robiniagolf_judge_free(&judge);
    }
    agree("memory after 1,000 judges", mallinfo2().uordblks, before);
#endif
}

int main(void)
{
    empty_handles();
    handles_in_use();
    empty_pieces();
    unended_lines();
    verdicts_that_stay();
    freed_judges();
    return failed != 0;
}
