/* Robiniagolf's judge for C99: is what an RCU did a run of the abstract machine?
 *
 * A program writes a line for each event of its RCU, such as "open r0.1" or "retire o7". docs/FORMATS.md has the lines,
 * and docs/JUDGING.md says when to write which. The program gives the text to a judge in pieces of any length, which
 * need not end where a line does. At each moment the judge tells the verdict on what it was fed. Once the verdict is
 * other than ROBINIAGOLF_YES it stays, whatever is fed then. These are the answers of `torture check --follow`.
 *
 * A judge keeps what is open, linked or awaited in the log (objects until their callbacks run), the events of one
 * piece, and less than a line of text. So feed a long text in pieces of some thousand bytes. What is past takes next to
 * nothing where numbers count up. The judge has memory for the most that it kept at one time, and gives it back as it
 * is freed.
 *
 *     struct robiniagolf_judge judge = ROBINIAGOLF_JUDGE_EMPTY;
 *     if (robiniagolf_judge_new(&judge) != ROBINIAGOLF_YES)
 *         return no_memory();
 *     while ((length = read_some(piece)) > 0 && robiniagolf_judge_feed(&judge, piece, length) == ROBINIAGOLF_YES)
 *         continue;
 *     struct robiniagolf_verdict verdict = robiniagolf_judge_finish(&judge);
 *     robiniagolf_judge_free(&judge);
 *
 * What each call answers is proved (crates/robiniagolf/src/exports.rt). Nothing checks what the calls ask of their
 * caller:
 *
 * - A handle is ROBINIAGOLF_JUDGE_EMPTY (all its bytes may be zero), or as the last call with it left it. Nothing else
 *   writes it, and after it was copied only the copy, or only the original, is used.
 * - One call at a time has a handle. Another thread may use it after a lock, a thread's start or join, or a seq_cst
 *   atomic has handed it over. Different handles have nothing to do with each other.
 * - The pointer to the handle is not null. Nothing writes a piece while the call runs; it is not kept.
 * - malloc, realloc and free are of one allocator, which aligns blocks as C asks. No call is made in a signal handler,
 *   nor in the forked child of a program with threads.
 *
 * No call waits, locks, prints, starts a thread, or asks more than this. Each has an answer for an empty handle, a
 * handle in use, a bad text and refused memory. */
#ifndef ROBINIAGOLF_JUDGE_H
#define ROBINIAGOLF_JUDGE_H

#include <stdbool.h>
#include <stddef.h>
#include <stdint.h>

#ifdef __cplusplus
extern "C" {
#endif

/* A judge, or none. Look at it by the calls alone. */
struct robiniagolf_judge {
    bool full;
    void *kept;
};

/* Keeps no judge. */
#define ROBINIAGOLF_JUDGE_EMPTY { false, NULL }

/* What a call answers. The first four are the exit statuses of torture check. */
enum robiniagolf_answer {
    ROBINIAGOLF_YES = 0,      /* the text tells a run; of robiniagolf_judge_new and _free: it is done */
    ROBINIAGOLF_NO = 1,       /* an event breaks its rule */
    ROBINIAGOLF_BAD_TEXT = 2, /* a line is no line of answers, and the events before it are a run */
    ROBINIAGOLF_MEMORY = 3,   /* malloc refused, and the text was not judged to its end */
    ROBINIAGOLF_EMPTY = 4,    /* the handle keeps no judge */
    ROBINIAGOLF_IN_USE = 5    /* the handle keeps a judge already */
};

/* The verdict on a text. What an answer does not name is 0. */
struct robiniagolf_verdict {
    uint32_t answer; /* an enum robiniagolf_answer, up to ROBINIAGOLF_EMPTY */
    uint32_t rule;   /* NO: the rule that is broken, 3 for D3 (sections) to 8 for D8 (asks and barriers) */
    size_t event;    /* YES: how many events there are. NO: the first that breaks its rule, counted from 1 */
    uint64_t line;   /* BAD_TEXT: the line, counted from 1 */
    size_t column;   /* BAD_TEXT: its first byte with which no line goes on, or the place after a line with no end */
};

/* Makes a judge that was fed nothing, and keeps it in the handle. YES where it is made. MEMORY, and IN_USE where the
 * handle keeps one already: the handle is then as it was. */
uint32_t robiniagolf_judge_new(struct robiniagolf_judge *judge);

/* Takes the next piece, of this length. The pointer may be null where the length is 0. Answers what
 * robiniagolf_judge_verdict would: YES, NO, BAD_TEXT or MEMORY. EMPTY where the handle keeps no judge; nothing is
 * changed then. */
uint32_t robiniagolf_judge_feed(struct robiniagolf_judge *judge, const uint8_t *piece, size_t length);

/* The verdict on what was fed so far; the last line may have no end yet. The judge is as it was. */
struct robiniagolf_verdict robiniagolf_judge_verdict(struct robiniagolf_judge *judge);

/* The verdict if the text ends here: a last line with no end is then BAD_TEXT. The judge is as it was, and may be fed
 * more all the same. */
struct robiniagolf_verdict robiniagolf_judge_finish(struct robiniagolf_judge *judge);

/* Frees the judge, and leaves the handle empty: YES. EMPTY where there was none. */
uint32_t robiniagolf_judge_free(struct robiniagolf_judge *judge);

#ifdef __cplusplus
}
#endif

#endif
