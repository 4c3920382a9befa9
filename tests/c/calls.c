/*
 * The C interface as a control program uses it: answers and buffers of granted and of refused calls, with the positions and
 * numbers that document 01 gives. Prints "ok", or what differs.
 */
#include "vikelodu.h"

#include <stdio.h>
#include <stdlib.h>
#include <string.h>

#define WORDS(array) (sizeof(array) / sizeof((array)[0]))

static int different;

static void expect(const char *what, uint64_t got, uint64_t wanted) {
    if (got != wanted) {
        printf("%s: %#llx and not %#llx\n", what, (unsigned long long)got, (unsigned long long)wanted);
        different = 1;
    }
}

static uint64_t refused(uint64_t number, uint64_t ordinal) { return number | ordinal << 16; }

static uint64_t placed(uint64_t turn, uint64_t column, uint64_t height) {
    return turn << 16 | column << 32 | height << 48;
}

/* ------------------------------------------------------------------ buffers */

/* A buffer with a word before it and a word after it that no call may write. */
struct buffer {
    uint16_t *words;
    size_t count;
};

enum { FENCE = 0xBEEF };

/* Where a strip has its gap and its heads. */
enum { GAP = 4, HEADS = 5 };

static struct buffer make(size_t count) {
    uint16_t *all = malloc(2 * (count + 2));
    if (all == NULL) {
        printf("no memory\n");
        exit(1);
    }
    for (size_t i = 0; i < count; i++) {
        all[1 + i] = (uint16_t)(0xA000 + i);
    }
    all[0] = all[count + 1] = FENCE;
    return (struct buffer){all + 1, count};
}

static struct buffer copy(struct buffer of) {
    struct buffer made = make(of.count);
    memcpy(made.words, of.words, 2 * of.count);
    return made;
}

static void expect_fences(const char *what, struct buffer of) {
    expect(what, of.words[-1], FENCE);
    expect(what, of.words[of.count], FENCE);
}

static void expect_same(const char *what, struct buffer got, struct buffer wanted) {
    if (memcmp(got.words, wanted.words, 2 * got.count) != 0) {
        printf("%s: words differ\n", what);
        different = 1;
    }
}

static void drop(struct buffer of) { free(of.words - 1); }

/* -------------------------------------------------------------------- calls */

/* A strip just opened with a gap. */
static struct buffer opened_with_gap(uint16_t width, uint16_t resolution, uint16_t columns, uint16_t gap, size_t records) {
    struct buffer strip = make(VIKELODU_STRIP_WORDS(columns, records));
    expect("open", vikelodu_open(width, resolution, columns, gap, strip.words, strip.count), 0);
    expect("leading words", strip.words[0] == width && strip.words[1] == resolution && strip.words[2] == columns, 1);
    expect("the gap", strip.words[GAP], gap);
    for (size_t i = 0; i < columns; i++) {
        expect("an empty column", strip.words[HEADS + i], 0);
    }
    expect_fences("around an opened strip", strip);
    return strip;
}

static struct buffer opened(uint16_t width, uint16_t resolution, uint16_t columns, size_t records) {
    return opened_with_gap(width, resolution, columns, 0, records);
}

/* What a program wants of a strip for an outline: place or ask with the mask `turns`, or commit in the turn `turns`. */
struct wish {
    enum { PLACING, ASKING, COMMITTING } call;
    uint16_t turns, column, height;
};

static struct wish placing(uint16_t mask) { return (struct wish){PLACING, mask, 0, 0}; }

static struct wish asking(uint16_t mask) { return (struct wish){ASKING, mask, 0, 0}; }

static struct wish committing(uint16_t turn, uint16_t column, uint16_t height) {
    return (struct wish){COMMITTING, turn, column, height};
}

/* A commit has no tries. */
static vikelodu_tried call(struct wish of, struct buffer strip, struct buffer outline, struct buffer work) {
    switch (of.call) {
    case PLACING:
        return vikelodu_place(strip.words, strip.count, outline.words, outline.count, of.turns, work.words, work.count);
    case ASKING:
        return vikelodu_ask(strip.words, strip.count, outline.words, outline.count, of.turns, work.words, work.count);
    default:
        return (vikelodu_tried){vikelodu_commit(strip.words, strip.count, outline.words, outline.count, of.turns, of.column,
                                                of.height, work.words, work.count),
                                0};
    }
}

/* The tries of a call with this answer: some where it is granted or gets 14, none where a question before 13 refuses. With 13
   there may be none, where no height can be tried. */
static void expect_tries(const char *what, struct wish of, vikelodu_tried got) {
    uint16_t number = vikelodu_number(got.answer);
    if (of.call == COMMITTING || number == VIKELODU_NO_POSITION) {
        return;
    }
    int looked = number == VIKELODU_GRANTED || number == VIKELODU_RECORDS;
    expect(what, got.tries > 0, looked);
}

/* The call with a work buffer of so many words: the answer, the work buffer zero, and the strip unchanged where the call is
   refused or an ask. The tries, of place and ask. */
static uint32_t lend(const char *what, struct wish of, struct buffer strip, const uint16_t *outline, size_t outline_words,
                     size_t work_words, uint64_t wanted) {
    struct buffer before = copy(strip);
    struct buffer lent = make(outline_words);
    struct buffer work = make(work_words);
    memcpy(lent.words, outline, 2 * outline_words);
    vikelodu_tried got = call(of, strip, lent, work);
    expect(what, got.answer, wanted);
    expect_tries(what, of, got);
    if (vikelodu_number(wanted) != VIKELODU_GRANTED || of.call == ASKING) {
        expect_same(what, strip, before);
    }
    for (size_t i = 0; i < work.count; i++) {
        expect(what, work.words[i], 0);
    }
    expect("outline", memcmp(lent.words, outline, 2 * outline_words) == 0, 1);
    expect_fences("around the strip", strip);
    expect_fences("around the outline", lent);
    expect_fences("around the work buffer", work);
    drop(before);
    drop(lent);
    drop(work);
    return got.tries;
}

#define PLACE(what, strip, outline, mask, work_words, wanted) \
    lend(what, placing(mask), strip, outline, WORDS(outline), work_words, wanted)
#define ASK(what, strip, outline, mask, work_words, wanted) \
    lend(what, asking(mask), strip, outline, WORDS(outline), work_words, wanted)
#define COMMIT(what, strip, outline, turn, column, height, work_words, wanted) \
    lend(what, committing(turn, column, height), strip, outline, WORDS(outline), work_words, wanted)

/* Place, ask and commit refuse an outline in one turn alike. The commit is off the strip, which is asked after this. */
static void refused_alike(const char *what, struct buffer strip, const uint16_t *outline, size_t outline_words, uint16_t turn,
                          size_t work_words, uint64_t number, uint64_t ordinal) {
    uint16_t mask = (uint16_t)(1 << turn);
    lend(what, placing(mask), strip, outline, outline_words, work_words, refused(number, ordinal));
    lend(what, asking(mask), strip, outline, outline_words, work_words, refused(number, ordinal));
    lend(what, committing(turn, 65535, 65535), strip, outline, outline_words, work_words, refused(number, ordinal));
}

#define REFUSED_ALIKE(what, strip, outline, turn, work_words, number, ordinal) \
    refused_alike(what, strip, outline, WORDS(outline), turn, work_words, number, ordinal)

/* The run of a column that has one; the chains are followed, as the numbers of the records are not promised. */
static void expect_run(struct buffer strip, size_t column, uint16_t low, uint16_t high) {
    size_t columns = strip.words[2], first = strip.words[HEADS + column];
    if (first == 0) {
        printf("column %zu is empty\n", column);
        different = 1;
        return;
    }
    const uint16_t *record = strip.words + HEADS + columns + 4 * (first - 1);
    expect("record's column", record[0], column);
    expect("low", record[1], low);
    expect("high", record[2], high);
    expect("next", record[3], 0);
}

/* Two strips of equal length have the same runs, whichever records hold them. */
static void expect_same_runs(const char *what, struct buffer got, struct buffer wanted) {
    size_t columns = wanted.words[2];
    const uint16_t *got_records = got.words + HEADS + columns, *wanted_records = wanted.words + HEADS + columns;
    for (size_t column = 0; column < columns; column++) {
        size_t left = got.words[HEADS + column], right = wanted.words[HEADS + column];
        while (left != 0 && right != 0) {
            const uint16_t *a = got_records + 4 * (left - 1), *b = wanted_records + 4 * (right - 1);
            expect(what, (uint64_t)a[1] << 16 | a[2], (uint64_t)b[1] << 16 | b[2]);
            left = a[3];
            right = b[3];
        }
        expect(what, left, 0);
        expect(what, right, 0);
    }
}

static const uint16_t square[] = {0, 0, 4, 0, 4, 4, 0, 4};
static const uint16_t t[] = {0, 0, 3, 0, 3, 2};
static const uint16_t u[] = {0, 0, 3, 2, 0, 2};
static const uint16_t six_by_two[] = {0, 0, 6, 0, 6, 2, 0, 2};
static const uint16_t bow_tie[] = {0, 0, 2, 1, 2, 0, 0, 1}; /* passes in turn 0; in turn 1 its edges cross */

/* --------------------------------------------------------------------- open */

static void refused_open(uint16_t width, uint16_t resolution, uint16_t columns, uint16_t gap, size_t words, uint64_t number) {
    struct buffer strip = make(words), before = copy(strip);
    uint64_t answer = vikelodu_open(width, resolution, columns, gap, strip.words, strip.count);
    expect("refused open", answer, refused(number, 0));
    expect_same("strip of a refused open", strip, before);
    expect_fences("around it", strip);
    drop(strip);
    drop(before);
}

static void test_open(void) {
    refused_open(0, 2, 10, 0, 39, VIKELODU_WIDTH);
    refused_open(16001, 2, 10, 0, 39, VIKELODU_WIDTH);
    refused_open(10, 0, 10, 0, 39, VIKELODU_RESOLUTION);
    refused_open(10, 401, 10, 0, 39, VIKELODU_RESOLUTION);
    refused_open(10, 2, 0, 0, 39, VIKELODU_COLUMNS);
    refused_open(10, 2, 4097, 0, 39, VIKELODU_COLUMNS);
    refused_open(10, 2, 10, 401, 39, VIKELODU_GAP);
    refused_open(10, 2, 10, 65535, 39, VIKELODU_GAP);
    refused_open(10, 2, 10, 0, 0, VIKELODU_STRIP_LENGTH);
    refused_open(10, 2, 10, 0, 15, VIKELODU_STRIP_LENGTH);
    refused_open(10, 2, 10, 0, 38, VIKELODU_STRIP_LENGTH);
    refused_open(10, 2, 10, 400, 40, VIKELODU_STRIP_LENGTH);
    refused_open(10, 2, 10, 0, VIKELODU_STRIP_WORDS(10, 16001), VIKELODU_STRIP_LENGTH);
    drop(opened_with_gap(16000, 400, 4096, 400, 16000));
    drop(opened(1, 1, 1, 1));
}

/* ------------------------------------------------------------------ placing */

static void test_three_squares(void) {
    struct buffer strip = opened(10, 2, 10, 4);
    PLACE("first square", strip, square, 1, 6, placed(0, 0, 0));
    expect_run(strip, 0, 0, 4);
    expect_run(strip, 1, 0, 4);
    PLACE("second square", strip, square, 1, 6, placed(0, 0, 4));
    expect_run(strip, 0, 0, 8);
    expect_run(strip, 1, 0, 8);
    PLACE("third square", strip, square, 1, 6, placed(0, 2, 0));
    expect_run(strip, 2, 0, 4);
    expect_run(strip, 3, 0, 4);
    drop(strip);
}

static void test_turns(void) {
    struct buffer strip = opened(4, 2, 10, 6);
    PLACE("6 by 2 on width 4", strip, six_by_two, 3, 9, placed(0, 0, 0));
    drop(strip);
    strip = opened(6, 2, 10, 6);
    ASK("where 6 by 2 would go on width 6", strip, six_by_two, 3, 9, placed(1, 0, 0));
    PLACE("6 by 2 on width 6", strip, six_by_two, 3, 9, placed(1, 0, 0));
    expect_run(strip, 0, 0, 6);
    drop(strip);
    strip = opened(2, 1, 6, 6);
    PLACE("T", strip, t, 1, 9, placed(0, 0, 0));
    ASK("where U would go after T", strip, u, 1, 9, placed(0, 3, 0));
    PLACE("U after T", strip, u, 1, 9, placed(0, 3, 0));
    expect_run(strip, 2, 0, 2);
    expect_run(strip, 5, 1, 2);
    drop(strip);
}

/* Turns are compared by the right edge, column * resolution + w; then by the top, height + h; then the least turn. */
static void test_order_of_turns(void) {
    static const uint16_t box[] = {0, 0, 5, 0, 5, 6, 0, 6};
    static const uint16_t small[] = {0, 0, 2, 0, 2, 2, 0, 2};
    static const uint16_t bar[] = {0, 0, 4, 0, 4, 2, 0, 2};
    struct buffer strip = opened(10, 4, 10, 6);
    /* Turns 0 and 1 both end in column 1, at 5 and at 6 units; turn 1 has the lower top. */
    ASK("where a box would go by its right edge", strip, box, 3, 6, placed(0, 0, 0));
    PLACE("a box by its right edge", strip, box, 3, 6, placed(0, 0, 0));
    expect_run(strip, 0, 0, 6);
    expect_run(strip, 1, 0, 6);
    drop(strip);
    strip = opened(6, 2, 10, 8);
    PLACE("a square", strip, square, 1, 6, placed(0, 0, 0));
    PLACE("a small one on it", strip, small, 1, 3, placed(0, 0, 4));
    /* Turn 0 in column 1 at height 4 and turn 1 in column 2 at height 0 both end at 6 units, with tops at 6 and at 4. */
    ASK("where a bar would go by its top", strip, bar, 3, 6, placed(1, 2, 0));
    PLACE("a bar by its top", strip, bar, 3, 6, placed(1, 2, 0));
    expect_run(strip, 2, 0, 4);
    drop(strip);
    strip = opened(10, 2, 10, 6);
    PLACE("a square in the least turn", strip, square, 12, 6, placed(2, 0, 0));
    drop(strip);
}

/* ----------------------------------------------------------------- refusals */

static void test_ill_formed_strips(void) {
    struct buffer strip = opened(10, 2, 10, 6);
    struct buffer never_opened = make(strip.count);
    struct buffer cut = {strip.words, strip.count - 1};
    REFUSED_ALIKE("a strip never opened", never_opened, square, 0, 6, VIKELODU_ILL_FORMED, 0);
    refused_alike("and no outline", never_opened, square, 0, 0, 6, VIKELODU_ILL_FORMED, 0);
    COMMIT("and turn 4", never_opened, square, 4, 0, 0, 6, refused(VIKELODU_ILL_FORMED, 0));
    uint16_t after = strip.words[cut.count];
    strip.words[cut.count] = FENCE;
    REFUSED_ALIKE("a strip cut off", cut, square, 0, 6, VIKELODU_ILL_FORMED, 0);
    strip.words[cut.count] = after;
    strip.words[HEADS] = 7;
    REFUSED_ALIKE("a head past the last record", strip, square, 0, 6, VIKELODU_ILL_FORMED, 0);
    strip.words[HEADS] = 0;
    strip.words[GAP] = 401;
    REFUSED_ALIKE("a gap of 401", strip, square, 0, 6, VIKELODU_ILL_FORMED, 0);
    strip.words[GAP] = 65535;
    REFUSED_ALIKE("a gap of 65,535", strip, square, 0, 6, VIKELODU_ILL_FORMED, 0);
    strip.words[GAP] = 0;
    PLACE("the strip mended", strip, square, 1, 6, placed(0, 0, 0));
    drop(strip);
    drop(never_opened);
}

static void test_refused_outlines(void) {
    static const uint16_t two_vertices[] = {0, 0, 4, 4};
    static const uint16_t odd[] = {0, 0, 4, 0, 4, 4, 0};
    static const uint16_t far[] = {0, 0, 16001, 0, 0, 4};
    static const uint16_t crossed[] = {0, 0, 1, 2, 1, 0, 0, 2};
    static const uint16_t flat[] = {0, 0, 4, 0, 2, 0};
    uint16_t vertices_65[130] = {0};
    struct buffer strip = opened(10, 1, 10, 12);
    refused_alike("no outline", strip, two_vertices, 0, 0, 90, VIKELODU_VERTICES, 1);
    REFUSED_ALIKE("two vertices", strip, two_vertices, 0, 90, VIKELODU_VERTICES, 1);
    REFUSED_ALIKE("half a vertex", strip, odd, 0, 90, VIKELODU_VERTICES, 1);
    REFUSED_ALIKE("65 vertices", strip, vertices_65, 0, 90, VIKELODU_VERTICES, 1);
    REFUSED_ALIKE("16,001", strip, far, 0, 90, VIKELODU_COORDINATE, 1);
    PLACE("mask 0", strip, square, 0, 90, refused(VIKELODU_TURN, 1));
    PLACE("mask 16", strip, square, 16, 90, refused(VIKELODU_TURN, 1));
    ASK("ask with mask 0", strip, square, 0, 90, refused(VIKELODU_TURN, 1));
    ASK("ask with mask 16", strip, square, 16, 90, refused(VIKELODU_TURN, 1));
    COMMIT("turn 4", strip, square, 4, 0, 0, 90, refused(VIKELODU_TURN, 1));
    COMMIT("turn 65,535", strip, square, 65535, 0, 0, 90, refused(VIKELODU_TURN, 1));
    COMMIT("16,001 and turn 4", strip, far, 4, 0, 0, 90, refused(VIKELODU_COORDINATE, 1));
    COMMIT("edges that cross and turn 4", strip, crossed, 4, 0, 0, 90, refused(VIKELODU_TURN, 1));
    REFUSED_ALIKE("edges that cross", strip, crossed, 0, 90, VIKELODU_CROSSING, 1);
    REFUSED_ALIKE("a bow tie on its side", strip, bow_tie, 1, 90, VIKELODU_CROSSING, 1);
    PLACE("a flat outline", strip, flat, 15, 90, refused(VIKELODU_NO_CELL, 1));
    REFUSED_ALIKE("a flat outline", strip, flat, 3, 90, VIKELODU_NO_CELL, 1);
    REFUSED_ALIKE("a work buffer short by one", strip, square, 0, 11, VIKELODU_BUFFER, 1);
    REFUSED_ALIKE("no work buffer", strip, square, 0, 0, VIKELODU_BUFFER, 1);
    PLACE("the bow tie as it stands", strip, bow_tie, 1, 6, placed(0, 0, 0));
    drop(strip);
}

static void test_no_room(void) {
    struct buffer strip = opened(2, 1, 5, 6);
    PLACE("T", strip, t, 1, 9, placed(0, 0, 0));
    PLACE("no position for U", strip, u, 1, 9, refused(VIKELODU_NO_POSITION, 1));
    ASK("no position for U", strip, u, 1, 9, refused(VIKELODU_NO_POSITION, 1));
    for (uint16_t column = 0; column < 5; column++) {
        COMMIT("nor a free one to commit it at", strip, u, 0, column, 0, 9, refused(VIKELODU_NOT_FREE, 0));
    }
    drop(strip);
    strip = opened(10, 2, 10, 3);
    PLACE("first square", strip, square, 1, 6, placed(0, 0, 0));
    PLACE("second square", strip, square, 1, 6, placed(0, 0, 4));
    PLACE("no records for the third", strip, square, 1, 6, refused(VIKELODU_RECORDS, 1));
    PLACE("nor in another turn", strip, square, 15, 6, refused(VIKELODU_RECORDS, 1));
    ASK("nor for an ask", strip, square, 15, 6, refused(VIKELODU_RECORDS, 1));
    COMMIT("nor for a commit", strip, square, 3, 2, 0, 6, refused(VIKELODU_RECORDS, 1));
    COMMIT("not free, which is asked first", strip, square, 3, 1, 0, 6, refused(VIKELODU_NOT_FREE, 0));
    COMMIT("off the strip, which is asked first", strip, square, 3, 9, 0, 6, refused(VIKELODU_NOT_FREE, 0));
    drop(strip);
}

/* ------------------------------------------------------------------- tries */

/* The tries of an ask and then a place with these arguments, which have the same answer. */
static void tried(const char *what, struct buffer strip, const uint16_t *outline, size_t outline_words, uint16_t mask,
                  size_t work_words, uint64_t wanted, uint32_t tries) {
    expect(what, lend(what, asking(mask), strip, outline, outline_words, work_words, wanted), tries);
    expect(what, lend(what, placing(mask), strip, outline, outline_words, work_words, wanted), tries);
}

#define TRIED(what, strip, outline, mask, work_words, wanted, tries) \
    tried(what, strip, outline, WORDS(outline), mask, work_words, wanted, tries)

static void test_tries(void) {
    /* A height past the top is no try, so the third square has one in each of the columns 0 to 2; so it is where 14 refuses it. */
    for (size_t records = 3; records <= 4; records++) {
        struct buffer strip = opened(10, 2, 10, records);
        TRIED("first square", strip, square, 1, 6, placed(0, 0, 0), 1);
        TRIED("second square", strip, square, 1, 6, placed(0, 0, 4), 2);
        TRIED("third square", strip, square, 1, 6, records == 3 ? refused(VIKELODU_RECORDS, 1) : placed(0, 2, 0), 3);
        /* Before 13 nothing is tried. */
        TRIED("mask 0", strip, square, 0, 6, refused(VIKELODU_TURN, 1), 0);
        TRIED("a work buffer short by a word", strip, square, 1, 5, refused(VIKELODU_BUFFER, 1), 0);
        strip.words[GAP] = 401;
        TRIED("a strip that is none", strip, square, 1, 6, refused(VIKELODU_ILL_FORMED, 0), 0);
        drop(strip);
    }

    /* With a gap of 1 the first two take a column more. With a gap of 3 the first one's cells fill this strip and go past its end. */
    struct buffer strip = opened_with_gap(10, 2, 10, 1, 40);
    TRIED("first square with a gap", strip, square, 1, 9, placed(0, 0, 0), 1);
    TRIED("second square with a gap", strip, square, 1, 9, placed(0, 0, 5), 2);
    TRIED("third square with a gap", strip, square, 1, 9, placed(0, 3, 0), 4);
    drop(strip);
    strip = opened_with_gap(4, 2, 4, 3, 40);
    TRIED("a square that fills the strip", strip, square, 1, 12, placed(0, 0, 0), 1);
    TRIED("no position, after three tries", strip, square, 1, 12, refused(VIKELODU_NO_POSITION, 1), 3);
    drop(strip);

    /* All allowed turns are walked, also the one that loses; in a turn that is too high at height 0 nothing is tried. */
    strip = opened(6, 2, 10, 20);
    TRIED("a bar", strip, six_by_two, 3, 30, placed(1, 0, 0), 2);
    TRIED("a bar beside it", strip, six_by_two, 3, 30, placed(1, 1, 0), 4);
    drop(strip);
    strip = opened(4, 2, 10, 20);
    TRIED("a bar too long for one turn", strip, six_by_two, 3, 30, placed(0, 0, 0), 1);
    drop(strip);
    strip = opened(1, 2, 10, 20);
    TRIED("a bar too long for both", strip, six_by_two, 3, 30, refused(VIKELODU_NO_POSITION, 1), 0);
    drop(strip);

    /* In turn 1 the triangle's columns are 1 to 3 and 0 to 3. Over 0 to 2 and 1 to 2 the first goes to 2 less its own low, which is 1,
       and the second from there to 2. */
    static const uint16_t step[] = {0, 0, 1, 0, 1, 1, 2, 1, 2, 2, 0, 2};
    strip = opened(9, 1, 2, 6);
    TRIED("a step", strip, step, 1, 6, placed(0, 0, 0), 1);
    TRIED("a triangle over it", strip, t, 2, 6, placed(1, 0, 2), 3);
    drop(strip);

    /* The square meets two bars, and goes onto the lower one first. */
    static const uint16_t bar[] = {0, 0, 4, 0, 4, 1, 0, 1};
    strip = opened(9, 2, 2, 6);
    COMMIT("a bar", strip, bar, 0, 0, 0, 6, 0);
    COMMIT("a bar over it", strip, bar, 0, 0, 2, 6, 0);
    TRIED("a square over both", strip, square, 1, 6, placed(0, 0, 3), 3);
    drop(strip);
}

/* ----------------------------------------------------------- ask and commit */

/* Three squares by ask and then commit go where place puts them and leave its runs; an ask may come twice. */
static void test_ask_then_commit(void) {
    static const uint16_t columns[] = {0, 0, 2}, heights[] = {0, 4, 0};
    struct buffer asked = opened(10, 2, 10, 4), strip = copy(asked);
    for (size_t i = 0; i < WORDS(columns); i++) {
        uint64_t spot = placed(0, columns[i], heights[i]);
        ASK("where the square would go", asked, square, 1, 6, spot);
        ASK("where it still would go", asked, square, 1, 6, spot);
        COMMIT("the square there", asked, square, 0, columns[i], heights[i], 6, 0);
        COMMIT("the same again", asked, square, 0, columns[i], heights[i], 6, refused(VIKELODU_NOT_FREE, 0));
        PLACE("the square placed", strip, square, 1, 6, spot);
        expect_same_runs("ask and commit, and place", asked, strip);
    }
    drop(asked);
    drop(strip);
}

/* Ask reads a strip in memory that no program can write. */
static void test_ask_on_constant_words(void) {
    static const uint16_t strip[] = {4, 2, 2, 1, 0, 0, 0, 2, 0, 0, 2, 2, 0, 0, 0};
    uint16_t work[6];
    expect("words", WORDS(strip), VIKELODU_STRIP_WORDS(2, 2));
    vikelodu_tried asked = vikelodu_ask(strip, WORDS(strip), square, WORDS(square), 15, work, WORDS(work));
    expect("ask", asked.answer, placed(0, 0, 0));
    expect("one try in each turn", asked.tries, 4);
}

/* A commit need not be at the best position; places and commits after it go around it. */
static void test_commit_elsewhere(void) {
    struct buffer strip = opened(10, 2, 10, 6);
    COMMIT("a square half-way up", strip, square, 0, 0, 3, 6, 0);
    expect_run(strip, 0, 3, 7);
    expect_run(strip, 1, 3, 7);
    ASK("the next one's spot", strip, square, 1, 6, placed(0, 2, 0));
    PLACE("the next one goes around it", strip, square, 1, 6, placed(0, 2, 0));
    COMMIT("the last column and the top", strip, square, 0, 8, 6, 6, 0);
    expect_run(strip, 8, 6, 10);
    expect_run(strip, 9, 6, 10);
    drop(strip);

    /* In turn 2 the triangle covers 2 to 4 and then 0 to 4: it may reach into the first one's extent, not into its cells. */
    static const uint16_t triangle[] = {0, 0, 4, 0, 0, 4};
    strip = opened(10, 2, 10, 6);
    PLACE("a triangle", strip, triangle, 1, 6, placed(0, 0, 0));
    COMMIT("one over it, too low by one", strip, triangle, 2, 0, 1, 6, refused(VIKELODU_NOT_FREE, 0));
    COMMIT("one over it, in another turn", strip, triangle, 0, 0, 2, 6, refused(VIKELODU_NOT_FREE, 0));
    COMMIT("one over it", strip, triangle, 2, 0, 2, 6, 0);
    expect_run(strip, 0, 0, 6);
    expect_run(strip, 1, 0, 6);
    drop(strip);
}

static void test_commit_not_free(void) {
    /* A square fits up to column 8 and height 6. The positions far off would be on the strip if their sums wrapped around. */
    static const struct {
        const char *what;
        uint16_t column, height;
    } cases[] = {
        {"the cell of a corner taken", 1, 3},
        {"all cells taken", 0, 0},
        {"a column too far", 9, 0},
        {"a unit too high", 4, 7},
        {"column 65,534", 65534, 0},
        {"column 65,535", 65535, 0},
        {"height 65,532", 4, 65532},
        {"height 65,535", 4, 65535},
        {"both", 65535, 65535},
    };
    struct buffer strip = opened(10, 2, 10, 12);
    COMMIT("a square", strip, square, 0, 0, 0, 6, 0);
    for (size_t i = 0; i < WORDS(cases); i++) {
        for (uint16_t turn = 0; turn < 4; turn++) {
            COMMIT(cases[i].what, strip, square, turn, cases[i].column, cases[i].height, 6, refused(VIKELODU_NOT_FREE, 0));
        }
    }
    COMMIT("a column less", strip, square, 0, 8, 0, 6, 0);
    COMMIT("a unit less", strip, square, 0, 4, 6, 6, 0);
    COMMIT("beside the corner", strip, square, 0, 1, 4, 6, 0);
    drop(strip);
}

/* A commit's questions are put to its turn alone; those of ask and place to every allowed one. */
static void test_commit_in_its_turn(void) {
    static const uint16_t two_by_six[] = {0, 0, 2, 0, 2, 6, 0, 6}; /* one run in turn 0, three in turn 1 */
    struct buffer strip = opened(6, 2, 10, 6);
    PLACE("three words for turns 0 and 1", strip, two_by_six, 3, 3, refused(VIKELODU_BUFFER, 1));
    ASK("three words for turns 0 and 1", strip, two_by_six, 3, 3, refused(VIKELODU_BUFFER, 1));
    ASK("nine words for turns 0 and 1", strip, two_by_six, 3, 9, placed(0, 0, 0));
    COMMIT("three words for turn 0", strip, two_by_six, 0, 0, 0, 3, 0);
    COMMIT("eight words for turn 1", strip, two_by_six, 1, 1, 0, 8, refused(VIKELODU_BUFFER, 1));
    COMMIT("nine words for turn 1", strip, two_by_six, 1, 1, 0, 9, 0);
    expect_run(strip, 0, 0, 6);
    expect_run(strip, 3, 0, 2);
    drop(strip);
    strip = opened(10, 1, 10, 6);
    PLACE("a bow tie in turns 0 and 1", strip, bow_tie, 3, 90, refused(VIKELODU_CROSSING, 1));
    ASK("a bow tie in turns 0 and 1", strip, bow_tie, 3, 90, refused(VIKELODU_CROSSING, 1));
    COMMIT("a bow tie in turn 0", strip, bow_tie, 0, 0, 0, 6, 0);
    drop(strip);
}

/* -------------------------------------------------------------------- cover */

static void cover(const char *what, const uint16_t *outline, size_t outline_words, uint16_t turn, uint16_t resolution, uint16_t gap,
                  size_t words, uint64_t number, uint64_t ordinal) {
    struct buffer output = make(words), before = copy(output);
    uint64_t answer = vikelodu_cover(outline, outline_words, turn, resolution, gap, output.words, output.count);
    expect(what, answer, refused(number, ordinal));
    expect_same(what, output, before);
    expect_fences("around the output", output);
    drop(output);
    drop(before);
}

static void test_cover(void) {
    static const uint16_t runs[] = {0, 0, 4, 1, 0, 4};
    static const uint16_t far[] = {0, 0, 16001, 0, 0, 4};
    static const uint16_t crossed[] = {0, 0, 1, 2, 1, 0, 0, 2};
    static const uint16_t flat[] = {0, 0, 4, 0, 2, 0};
    struct buffer output = make(9), before = copy(output);
    uint64_t answer = vikelodu_cover(square, WORDS(square), 0, 2, 0, output.words, output.count);
    expect("cover", vikelodu_number(answer), VIKELODU_GRANTED);
    expect("runs", vikelodu_runs(answer), 2);
    expect("the whole answer", answer, (uint64_t)2 << 32);
    expect("the runs' words", memcmp(output.words, runs, sizeof runs) == 0, 1);
    expect("the words after them", memcmp(output.words + 6, before.words + 6, 6) == 0, 1);
    expect_fences("around the output", output);
    drop(output);
    drop(before);
    cover("resolution 0", square, WORDS(square), 0, 0, 401, 9, VIKELODU_RESOLUTION, 0);
    cover("resolution 401", square, WORDS(square), 0, 401, 0, 9, VIKELODU_RESOLUTION, 0);
    cover("resolution 0 and two vertices", square, 4, 0, 0, 0, 9, VIKELODU_RESOLUTION, 0);
    cover("gap 401", square, WORDS(square), 0, 2, 401, 9, VIKELODU_GAP, 0);
    cover("gap 65,535 and two vertices", square, 4, 0, 2, 65535, 9, VIKELODU_GAP, 0);
    cover("two vertices", square, 4, 0, 2, 400, 9, VIKELODU_VERTICES, 1);
    cover("16,001", far, WORDS(far), 0, 2, 0, 9, VIKELODU_COORDINATE, 1);
    cover("turn 4", square, WORDS(square), 4, 2, 0, 9, VIKELODU_TURN, 1);
    cover("edges that cross", crossed, WORDS(crossed), 0, 2, 0, 9, VIKELODU_CROSSING, 1);
    cover("a flat outline", flat, WORDS(flat), 0, 2, 3, 9, VIKELODU_NO_CELL, 1);
    cover("an output short by one", square, WORDS(square), 0, 2, 0, 5, VIKELODU_BUFFER, 1);
    cover("with gap 3 short by one", square, WORDS(square), 0, 2, 3, 11, VIKELODU_BUFFER, 1);
}

/* ---------------------------------------------------------------------- gap */

/* The gap is taken in units to the right and up: S with gap 3 covers 7 rows of 4 columns of 2 units, with gap 1 5 rows of 3. */
static void test_cover_with_gap(void) {
    static const uint16_t gap_3[] = {0, 0, 7, 1, 0, 7, 2, 0, 7, 3, 0, 7}, gap_1[] = {0, 0, 5, 1, 0, 5, 2, 0, 5};
    uint16_t output[12];
    expect("gap 3", vikelodu_cover(square, WORDS(square), 0, 2, 3, output, WORDS(output)), (uint64_t)4 << 32);
    expect("its runs", memcmp(output, gap_3, sizeof gap_3) == 0, 1);
    expect("gap 1", vikelodu_cover(square, WORDS(square), 0, 2, 1, output, WORDS(output)), (uint64_t)3 << 32);
    expect("its runs", memcmp(output, gap_1, sizeof gap_1) == 0, 1);
}

static void test_gap(void) {
    struct buffer strip = opened_with_gap(10, 2, 10, 1, 40);
    PLACE("a work buffer for the gap, too", strip, square, 1, 8, refused(VIKELODU_BUFFER, 1));
    PLACE("first square", strip, square, 1, 9, placed(0, 0, 0));
    expect_run(strip, 0, 0, 5);
    expect_run(strip, 2, 0, 5);
    ASK("a row apart", strip, square, 1, 9, placed(0, 0, 5));
    COMMIT("not a row apart", strip, square, 0, 0, 4, 9, refused(VIKELODU_NOT_FREE, 0));
    COMMIT("not a column apart", strip, square, 0, 2, 0, 9, refused(VIKELODU_NOT_FREE, 0));
    PLACE("second square", strip, square, 1, 9, placed(0, 0, 5));
    PLACE("third square", strip, square, 1, 9, placed(0, 3, 0));
    expect("the gap stays", strip.words[GAP], 1);
    drop(strip);

    /* Cells past the top and the end are asked for by 12 and not entered. There is no gap to the edges. */
    strip = opened_with_gap(4, 2, 2, 3, 2);
    PLACE("eleven words", strip, square, 1, 11, refused(VIKELODU_BUFFER, 1));
    PLACE("twelve words, two records", strip, square, 1, 12, placed(0, 0, 0));
    expect_run(strip, 0, 0, 4);
    expect_run(strip, 1, 0, 4);
    drop(strip);
    strip = opened_with_gap(4, 2, 10, 400, 40);
    PLACE("the largest gap", strip, square, 1, 606, placed(0, 0, 0));
    PLACE("leaves no room", strip, square, 1, 606, refused(VIKELODU_NO_POSITION, 1));
    drop(strip);
}

/* ------------------------------------------------------------------ retrace */

static uint64_t edges(uint64_t first, uint64_t second) { return first << 16 | second << 32; }

static void retrace(const char *what, const uint16_t *outline, size_t outline_words, uint64_t wanted) {
    struct buffer lent = make(outline_words);
    memcpy(lent.words, outline, 2 * outline_words);
    expect(what, vikelodu_retrace(lent.words, lent.count), wanted);
    expect("outline", memcmp(lent.words, outline, 2 * outline_words) == 0, 1);
    expect_fences("around the outline", lent);
    drop(lent);
}

static void test_retrace(void) {
    static const uint16_t spur[] = {0, 0, 4, 0, 4, 4, 8, 4, 4, 4, 0, 4};
    static const uint16_t upright_spur[] = {0, 0, 4, 0, 4, 4, 4, 8, 4, 4, 0, 4};
    static const uint16_t part[] = {0, 0, 6, 0, 2, 0, 2, 4};
    static const uint16_t bridge[] = {0, 0, 2, 0, 4, 0, 6, 0, 6, 2, 4, 2, 4, 0, 2, 0, 2, 2, 0, 2};
    static const uint16_t last_edge[] = {4, 6, 1, 0, 9, 0, 9, 9, 1, 0};
    static const uint16_t far[] = {0, 0, 16001, 0, 0, 4};
    static const uint16_t limit[] = {0, 0, 16000, 0, 0, 16000};
    uint16_t vertices_65[130] = {0};
    retrace("a square", square, WORDS(square), 0);
    retrace("a triangle at the limit", limit, WORDS(limit), 0);
    retrace("a point of 64 vertices", vertices_65, 128, 0);
    retrace("a spur", spur, WORDS(spur), edges(3, 4));
    retrace("a spur upright", upright_spur, WORDS(upright_spur), edges(3, 4));
    retrace("a part of an edge", part, WORDS(part), edges(1, 2));
    retrace("a bridge", bridge, WORDS(bridge), edges(2, 7));
    retrace("the last edge", last_edge, WORDS(last_edge), edges(1, 5));
    retrace("no outline", square, 0, refused(VIKELODU_VERTICES, 1));
    retrace("two vertices", square, 4, refused(VIKELODU_VERTICES, 1));
    retrace("half a vertex", square, 7, refused(VIKELODU_VERTICES, 1));
    retrace("65 vertices", vertices_65, 130, refused(VIKELODU_VERTICES, 1));
    retrace("16,001", far, WORDS(far), refused(VIKELODU_COORDINATE, 1));
    retrace("16,001 and half a vertex", far, 5, refused(VIKELODU_VERTICES, 1));
}

/* -------------------------------------------------------------------- bytes */

/* Buffers of bytes with an odd last byte, which is no part of them and stays. */
static void test_bytes(void) {
    enum { STRIP_BYTES = 2 * (5 + 10 + 4 * 6) + 1, WORK_BYTES = 13 };
    unsigned char *strip = malloc(STRIP_BYTES), *work = malloc(WORK_BYTES), *outline = malloc(sizeof square + 1);
    if (strip == NULL || work == NULL || outline == NULL) {
        printf("no memory\n");
        exit(1);
    }
    memset(strip, 0xEE, STRIP_BYTES);
    memset(work, 0xEE, WORK_BYTES);
    for (size_t i = 0; i < WORDS(square); i++) {
        outline[2 * i] = (unsigned char)square[i];
        outline[2 * i + 1] = (unsigned char)(square[i] >> 8);
    }
    outline[sizeof square] = 0xEE;
    expect("open on bytes", vikelodu_open(300, 2, 10, 0, (uint16_t *)strip, STRIP_BYTES / 2), 0);
    expect("width, low byte first", strip[0] == (300 & 0xFF) && strip[1] == 300 >> 8, 1);
    vikelodu_tried laid = vikelodu_place((uint16_t *)strip, STRIP_BYTES / 2, (uint16_t *)outline, (sizeof square + 1) / 2, 1,
                                         (uint16_t *)work, WORK_BYTES / 2);
    expect("place on bytes", laid.answer, placed(0, 0, 0));
    expect("tries on bytes", laid.tries, 1);
    for (size_t i = 0; i < WORK_BYTES - 1; i++) {
        expect("work byte", work[i], 0);
    }
    expect("odd last bytes", strip[STRIP_BYTES - 1] == 0xEE && work[WORK_BYTES - 1] == 0xEE, 1);
    free(strip);
    free(work);
    free(outline);
}

/* ------------------------------------------------------------------- sheets */

/* Bytes with a byte before them and a byte after them that no call may write. */
struct bytes {
    uint8_t *at;
    size_t count;
};

enum { FENCE_BYTE = 0xBE };

static struct bytes make_bytes(size_t count) {
    uint8_t *all = malloc(count + 2);
    if (all == NULL) {
        printf("no memory\n");
        exit(1);
    }
    memset(all, 0xA7, count + 2);
    all[0] = all[count + 1] = FENCE_BYTE;
    return (struct bytes){all + 1, count};
}

static struct bytes copy_bytes(const uint8_t *of, size_t count) {
    struct bytes made = make_bytes(count);
    memcpy(made.at, of, count);
    return made;
}

static void expect_fences_of_bytes(const char *what, struct bytes of) {
    expect(what, of.at[-1], FENCE_BYTE);
    expect(what, of.at[of.count], FENCE_BYTE);
}

static void expect_bytes(const char *what, struct bytes got, const uint8_t *wanted) {
    if (memcmp(got.at, wanted, got.count) != 0) {
        printf("%s: bytes differ\n", what);
        different = 1;
    }
}

static void drop_bytes(struct bytes of) { free(of.at - 1); }

/* W 300, R 2, N 10; a triangle and a square as vikelodu_write numbers their records. */
static const uint8_t two_pieces[] = {
    0x4E, 0x4A, 1, 0, 0x2C, 1, 2, 0, 10, 0, 1, 0, 7, 0, 2, 0,       /* front */
    0,    0,    0, 0, 2,    0,                                      /* vertex 1: 0, 0 */
    0x2C, 1,    0, 0, 3,    0,                                      /* vertex 2: 300, 0 */
    0x2C, 1,    2, 0, 0,    0,                                      /* vertex 3: 300, 2 */
    0,    0,    0, 0, 5,    0, 4, 0, 0,  0, 6, 0, 4, 0, 4, 0, 7, 0, /* vertices 4 to 6 */
    0,    0,    4, 0, 0,    0,                                      /* vertex 7: 0, 4 */
    1,    0,    5, 0, 2,    0,                                      /* piece 1, mask 5 */
    4,    0,    1, 0, 0,    0,                                      /* piece 2, mask 1 */
};
static const uint16_t two_pieces_list[] = {2, 3, 5, 0, 0, 300, 0, 300, 2, 4, 1, 0, 0, 4, 0, 4, 4, 0, 4};

/* The granted answer of the sheet above. */
static const uint64_t two_pieces_read = (uint64_t)300 << 16 | (uint64_t)2 << 32 | (uint64_t)10 << 48;

static uint64_t written(uint64_t size) { return size << 32; }

/* vikelodu_read or vikelodu_read_path. */
typedef uint64_t reading(const uint8_t *from, size_t bytes, uint16_t *output, size_t output_words);

/* Read into an output of so many words: the answer, what was read, and every word after it or of a refused call as before. */
static void read_by(reading *call, const char *what, const uint8_t *from, size_t bytes, size_t words, uint64_t wanted,
                    const uint16_t *read, size_t read_words) {
    struct bytes lent = copy_bytes(from, bytes);
    struct buffer output = make(words), after = copy(output);
    expect(what, call(lent.at, lent.count, output.words, output.count), wanted);
    if (read_words > 0) {
        memcpy(after.words, read, 2 * read_words);
    }
    expect_same(what, output, after);
    expect_bytes(what, lent, from);
    expect_fences("around the output", output);
    expect_fences_of_bytes("around the bytes", lent);
    drop(output);
    drop(after);
    drop_bytes(lent);
}

static void read_sheet(const char *what, const uint8_t *sheet, size_t sheet_bytes, size_t words, uint64_t wanted,
                       const uint16_t *list, size_t list_words) {
    read_by(vikelodu_read, what, sheet, sheet_bytes, words, wanted, list, list_words);
}

#define READ_REFUSED(what, sheet, words, number, ordinal) \
    read_sheet(what, sheet, sizeof(sheet), words, refused(number, ordinal), NULL, 0)

/* Write to an output of so many bytes: the answer, the sheet, and every byte after it or of a refused call as before. */
static void write_list(const char *what, uint16_t width, const uint16_t *list, size_t list_words, size_t bytes, uint64_t wanted,
                       const uint8_t *sheet, size_t sheet_bytes) {
    struct buffer lent = make(list_words), before = make(list_words);
    struct bytes output = make_bytes(bytes), after = make_bytes(bytes);
    memcpy(lent.words, list, 2 * list_words);
    memcpy(before.words, list, 2 * list_words);
    expect(what, vikelodu_write(width, 2, 10, lent.words, lent.count, output.at, output.count), wanted);
    if (sheet_bytes > 0) {
        memcpy(after.at, sheet, sheet_bytes);
    }
    expect_bytes(what, output, after.at);
    expect_same(what, lent, before);
    expect_fences_of_bytes("around the output", output);
    expect_fences("around the list", lent);
    drop(lent);
    drop(before);
    drop_bytes(output);
    drop_bytes(after);
}

#define WRITE_REFUSED(what, list, bytes, number, ordinal) \
    write_list(what, 300, list, WORDS(list), bytes, refused(number, ordinal), NULL, 0)

static void test_read(void) {
    static const size_t lists[] = {19, 20, 100, VIKELODU_MOST_LIST_WORDS};
    static const uint8_t empty[] = {0x4E, 0x4A, 1, 0, 0x80, 0x3E, 0x90, 1, 0, 0x10, 0, 0, 0, 0, 0, 0};
    static const uint16_t no_pieces[] = {0};
    uint64_t greatest = (uint64_t)16000 << 16 | (uint64_t)400 << 32 | (uint64_t)4096 << 48;
    for (size_t i = 0; i < WORDS(lists); i++) {
        read_sheet("two pieces", two_pieces, sizeof two_pieces, lists[i], two_pieces_read, two_pieces_list, 19);
    }
    read_sheet("no pieces", empty, sizeof empty, 1, greatest, no_pieces, 1);
    READ_REFUSED("an output short by one", two_pieces, 18, VIKELODU_OUTPUT, 0);
    READ_REFUSED("no output", two_pieces, 0, VIKELODU_OUTPUT, 0);
    read_sheet("no bytes", two_pieces, 0, 19, refused(VIKELODU_NO_SHEET, 0), NULL, 0);
    read_sheet("15 bytes", two_pieces, 15, 19, refused(VIKELODU_NO_SHEET, 0), NULL, 0);
    read_sheet("16 bytes", two_pieces, 16, 19, refused(VIKELODU_SHEET_LENGTH, 0), NULL, 0);
    read_sheet("cut off", two_pieces, sizeof two_pieces - 1, 19, refused(VIKELODU_SHEET_LENGTH, 0), NULL, 0);
}

/* The sheet of two pieces with one byte changed. */
static void changed(const char *what, size_t place, uint8_t byte, uint64_t number, uint64_t ordinal) {
    uint8_t sheet[sizeof two_pieces];
    memcpy(sheet, two_pieces, sizeof sheet);
    sheet[place] = byte;
    READ_REFUSED(what, sheet, 100, number, ordinal);
}

static void test_refused_sheets(void) {
    enum { VERTEX = 16, PIECE = VERTEX + 6 * 7 };
    changed("another first byte", 0, 0x4F, VIKELODU_NO_SHEET, 0);
    changed("another fourth byte", 3, 1, VIKELODU_NO_SHEET, 0);
    changed("another V", 12, 8, VIKELODU_SHEET_LENGTH, 0);
    changed("width 65,324", 5, 0xFF, VIKELODU_WIDTH, 0);
    changed("resolution 0", 6, 0, VIKELODU_RESOLUTION, 0);
    changed("columns 0", 8, 0, VIKELODU_COLUMNS, 0);
    changed("first piece past P", 10, 3, VIKELODU_PIECES, 0);
    changed("a piece after itself", PIECE + 4, 1, VIKELODU_PIECES, 0);
    changed("two vertices", VERTEX + 10, 0, VIKELODU_VERTICES, 1);
    changed("a vertex after itself", VERTEX + 6 * 6 + 4, 7, VIKELODU_VERTICES, 2);
    changed("a vertex past V", VERTEX + 6 * 6 + 4, 8, VIKELODU_VERTICES, 2);
    changed("x above 16,000", VERTEX + 6 * 5 + 1, 0x3F, VIKELODU_COORDINATE, 2);
    changed("mask 0", PIECE + 2, 0, VIKELODU_TURN, 1);
    changed("mask 16", PIECE + 8, 16, VIKELODU_TURN, 2);
    changed("a flat outline", VERTEX + 6 * 2 + 2, 0, VIKELODU_NO_CELL, 1);
}

static void test_write(void) {
    static const uint16_t longer[] = {2, 3, 5, 0, 0, 300, 0, 300, 2, 4, 1, 0, 0, 4, 0, 4, 4, 0, 4, 9, 9};
    uint64_t size = sizeof two_pieces;
    expect("size", size, VIKELODU_SHEET_BYTES(7, 2));
    expect("words", WORDS(two_pieces_list), VIKELODU_LIST_WORDS(7, 2));
    write_list("two pieces", 300, two_pieces_list, 19, size, written(size), two_pieces, size);
    write_list("two pieces", 300, two_pieces_list, 19, size + 1, written(size), two_pieces, size);
    write_list("words after them", 300, longer, 21, size + 90, written(size), two_pieces, size);
    WRITE_REFUSED("an output short by one", two_pieces_list, size - 1, VIKELODU_OUTPUT, 0);
    WRITE_REFUSED("no output", two_pieces_list, 0, VIKELODU_OUTPUT, 0);
    write_list("width 0", 0, two_pieces_list, 19, size, refused(VIKELODU_WIDTH, 0), NULL, 0);
    write_list("no words", 300, two_pieces_list, 0, size, refused(VIKELODU_PIECES, 0), NULL, 0);
    write_list("cut off", 300, two_pieces_list, 18, size, refused(VIKELODU_VERTICES, 2), NULL, 0);
}

static void test_refused_lists(void) {
    static const uint16_t pieces_201[] = {201};
    static const uint16_t two_vertices[] = {1, 2, 1, 0, 0, 4, 4};
    static const uint16_t far[] = {1, 3, 1, 0, 0, 16001, 0, 0, 4};
    static const uint16_t mask_0[] = {1, 3, 0, 0, 0, 4, 0, 0, 4};
    static const uint16_t mask_16[] = {1, 3, 16, 0, 0, 4, 0, 0, 4};
    static const uint16_t crossed[] = {2, 3, 1, 0, 0, 4, 0, 0, 4, 4, 1, 0, 0, 1, 2, 1, 0, 0, 2};
    static const uint16_t flat[] = {1, 3, 1, 0, 0, 4, 0, 2, 0};
    WRITE_REFUSED("201 pieces", pieces_201, 90, VIKELODU_PIECES, 0);
    WRITE_REFUSED("two vertices", two_vertices, 90, VIKELODU_VERTICES, 1);
    WRITE_REFUSED("16,001", far, 90, VIKELODU_COORDINATE, 1);
    WRITE_REFUSED("mask 0", mask_0, 90, VIKELODU_TURN, 1);
    WRITE_REFUSED("mask 16", mask_16, 90, VIKELODU_TURN, 1);
    WRITE_REFUSED("edges that cross", crossed, 90, VIKELODU_CROSSING, 2);
    WRITE_REFUSED("a flat outline", flat, 90, VIKELODU_NO_CELL, 1);
}

/* A list of 200 squares, whose first vertex is said oftener so that each has so many. */
static struct buffer squares(uint16_t vertices) {
    struct buffer list = make(VIKELODU_LIST_WORDS(200 * vertices, 200));
    uint16_t *at = list.words;
    *at++ = 200;
    for (int piece = 0; piece < 200; piece++) {
        *at++ = vertices;
        *at++ = 15;
        memset(at, 0, 2 * sizeof(uint16_t) * vertices);
        at += 2 * (vertices - 4);
        memcpy(at, square, sizeof square);
        at += WORDS(square);
    }
    return list;
}

/* What is written reads back; the sheet of 200 pieces of 64 vertices would be too long. */
static void test_round_trip(void) {
    struct buffer list = squares(53), output = make(list.count);
    struct bytes sheet = make_bytes(VIKELODU_MOST_SHEET_BYTES);
    size_t size = VIKELODU_SHEET_BYTES(200 * 53, 200);
    expect("write", vikelodu_write(300, 2, 10, list.words, list.count, sheet.at, sheet.count), written(size));
    expect("the byte after", sheet.at[size], 0xA7);
    expect("read", vikelodu_read(sheet.at, size, output.words, output.count), two_pieces_read);
    expect_same("the list", output, list);
    expect_fences("around the output", output);
    expect_fences_of_bytes("around the sheet", sheet);
    drop(list);
    drop(output);
    list = squares(64);
    expect("longest list", list.count, VIKELODU_MOST_LIST_WORDS);
    uint64_t answer = vikelodu_write(300, 2, 10, list.words, list.count, sheet.at, sheet.count);
    expect("too long a sheet", answer, refused(VIKELODU_SHEET_LENGTH, 0));
    drop(list);
    drop_bytes(sheet);
}

/* -------------------------------------------------------------------- paths */

/* 0.625, 0 and 1999.875, 2000 and 0.125, 300.5, in millimetres. */
static const uint8_t triangle_path[] = {
    1, 0, 0,    0x20, 0x3F, 0, 0,    0,    0,    /* move */
    2, 0, 0xFC, 0xF9, 0x44, 0, 0,    0xFA, 0x44, /* line */
    2, 0, 0,    0,    0x3E, 0, 0x40, 0x96, 0x43, /* line */
    3,                                           /* close */
};
static const uint16_t triangle_outline[] = {5, 0, 15999, 16000, 1, 2404};

enum { PLACES = 6, STEP = 9 };

static const uint64_t six_words = (uint64_t)6 << 32;

static const uint32_t minus_zero = 0x80000000, not_a_number = 0x7FC00000;

/* The pattern as the coordinate in that place, 0 to 5 in a triangle. */
static void put(uint8_t *path, size_t place, uint32_t pattern) {
    uint8_t *to = path + STEP * (place / 2) + 1 + 4 * (place % 2);
    for (int i = 0; i < 4; i++) {
        to[i] = (uint8_t)(pattern >> 8 * i);
    }
}

static void read_path(const char *what, const uint8_t *path, size_t path_bytes, size_t words, uint64_t wanted,
                      const uint16_t *outline, size_t outline_words) {
    read_by(vikelodu_read_path, what, path, path_bytes, words, wanted, outline, outline_words);
}

static void refused_path(const char *what, const uint8_t *path, size_t path_bytes, size_t words, uint64_t number) {
    read_path(what, path, path_bytes, words, refused(number, 0), NULL, 0);
}

static void test_read_path(void) {
    static const size_t outputs[] = {6, 7, 100, VIKELODU_MOST_OUTLINE_WORDS, 200};
    size_t size = sizeof triangle_path;
    uint8_t zeros[sizeof triangle_path];
    uint16_t outline[PLACES];
    for (size_t i = 0; i < WORDS(outputs); i++) {
        read_path("a triangle", triangle_path, size, outputs[i], six_words, triangle_outline, 6);
    }
    for (size_t words = 0; words < 6; words++) {
        refused_path("a short output", triangle_path, size, words, VIKELODU_OUTPUT);
    }
    for (size_t place = 0; place < PLACES; place++) {
        memcpy(zeros, triangle_path, size);
        memcpy(outline, triangle_outline, sizeof outline);
        put(zeros, place, minus_zero);
        outline[place] = 0;
        read_path("minus zero", zeros, size, 9, six_words, outline, 6);
        put(zeros, place, 0);
        read_path("zero", zeros, size, 9, six_words, outline, 6);
    }
}

/* A path of these steps: m, l, c, or any other for a step that is none, with coordinates that are accepted. */
static void shape(const char *steps, size_t words, uint64_t number) {
    struct bytes path = make_bytes(STEP * strlen(steps));
    size_t end = 0;
    for (const char *step = steps; *step != 0; step++) {
        path.at[end++] = (uint8_t)(*step == 'm' ? 1 : *step == 'l' ? 2 : *step == 'c' ? 3 : *step);
        if (*step != 'c') {
            memset(path.at + end, 0, STEP - 1);
            end += STEP - 1;
        }
    }
    refused_path(steps, path.at, end, words, number);
    drop_bytes(path);
}

static void test_path_shapes(void) {
    static const char *const shapes[] = {
        "",      "c",     "m",        "l",     "mc",   "mlc",   "ml",   "mll",   "lllc",  "llc",   "mmllc",
        "mlmc",  "mlmlc", "mllmc",    "mcllc", "mcll", "mlclc", "mlcl", "cmll",  "cmllc", "mllcc", "mllcm",
        "mllcl", "lmlc",  "mllcmllc", "xllc",  "mxlc", "mlxc",  "mllx", "mllxc", "mmm",   "mmmc",
    };
    static const uint8_t others[] = {0, 4, 5, 0x11, 0x41, 0x81, 0x82, 0x83, 0xFE, 0xFF}, after[] = {0, 1, 2, 3, 0xFF};
    size_t size = sizeof triangle_path;
    uint8_t path[sizeof triangle_path + 1];
    char lines[1 + 65 + 1 + 1] = {'m'};
    for (size_t i = 0; i < WORDS(shapes); i++) {
        shape(shapes[i], 128, VIKELODU_PATH_SHAPE);
        shape(shapes[i], 0, VIKELODU_PATH_SHAPE);
    }
    memset(lines + 1, 'l', 65);
    lines[66] = 'c';
    shape(lines, 200, VIKELODU_PATH_SHAPE);
    memcpy(lines + 65, "c", 2);
    shape(lines, 200, VIKELODU_PATH_SHAPE);
    memcpy(lines + 64, "c", 2);
    shape(lines, 127, VIKELODU_OUTPUT); /* 63 lines are a path, so that 15 is asked */
    shape("mllc", 5, VIKELODU_OUTPUT);
    for (size_t cut = 0; cut < size; cut++) {
        refused_path("a path cut off", triangle_path, cut, 128, VIKELODU_PATH_SHAPE);
    }
    for (size_t i = 0; i < WORDS(others); i++) {
        for (size_t step = 0; step < size; step += STEP) {
            memcpy(path, triangle_path, size);
            path[step] = others[i];
            refused_path("a step that is none", path, size, 128, VIKELODU_PATH_SHAPE);
        }
    }
    memcpy(path, triangle_path, size);
    for (size_t i = 0; i < WORDS(after); i++) {
        path[size] = after[i];
        refused_path("a byte after the close", path, size + 1, 128, VIKELODU_PATH_SHAPE);
    }
}

static void test_path_coordinates(void) {
    static const uint32_t patterns[] = {
        0x7FC00000, 0xFFC00000, 0x7F800001, 0x7FFFFFFF, 0xFFFFFFFF, /* no numbers */
        0x7F800000, 0xFF800000,                                     /* the infinities */
        0x00000001, 0x80000001, 0x0000003E, 0x007FFFFF, 0x00400000, /* too small to have a leading 1 */
        0x00800000, 0x80800000, 0x7F7FFFFF, 0xFF7FFFFF,             /* the least and the greatest */
        0xBE000000, 0xBF800000, 0xC4FA0000,                         /* -0.125, -1, -2000 */
        0x3D800000, 0x3E400000, 0x44F9FE00, 0x44FA0200,             /* a half of 0.125 off */
        0x3DFFFFFF, 0x3E000001, 0x3F7FFFFF, 0x3F800001,             /* neighbours of 0.125 and 1 */
        0x44F9FFFF, 0x44FA0001,                                     /* neighbours of 2000 */
        0x44FA0400, 0x45000000, 0x4B000000, 0x4F800000,             /* 2000.125, 2048, 2^23, 2^32 */
        0x0000FA44, 0x00002041,                                     /* 2000 and 10 with the high byte first */
    };
    size_t size = sizeof triangle_path;
    uint8_t path[sizeof triangle_path + 1] = {0};
    for (size_t i = 0; i < WORDS(patterns); i++) {
        for (size_t place = 0; place < PLACES; place++) {
            memcpy(path, triangle_path, size);
            put(path, place, patterns[i]);
            refused_path("a coordinate not accepted", path, size, 128, VIKELODU_PATH_COORDINATE);
            refused_path("and a short output", path, size, 5, VIKELODU_PATH_COORDINATE);
            refused_path("and no output", path, size, 0, VIKELODU_PATH_COORDINATE);
            refused_path("and a byte after the close", path, size + 1, 128, VIKELODU_PATH_SHAPE);
            refused_path("and no close", path, size - 1, 128, VIKELODU_PATH_SHAPE);
        }
    }
    refused_path("a byte after the close and no output", path, size + 1, 0, VIKELODU_PATH_SHAPE);
}

/* Write to an output of so many bytes: the answer, the path, and every byte after it or of a refused call as before. */
static void write_path(const char *what, const uint16_t *outline, size_t outline_words, size_t bytes, uint64_t wanted,
                       const uint8_t *path, size_t path_bytes) {
    struct buffer lent = make(outline_words), before = make(outline_words);
    struct bytes output = make_bytes(bytes), after = make_bytes(bytes);
    memcpy(lent.words, outline, 2 * outline_words);
    memcpy(before.words, outline, 2 * outline_words);
    expect(what, vikelodu_write_path(lent.words, lent.count, output.at, output.count), wanted);
    if (path_bytes > 0) {
        memcpy(after.at, path, path_bytes);
    }
    expect_bytes(what, output, after.at);
    expect_same(what, lent, before);
    expect_fences_of_bytes("around the output", output);
    expect_fences("around the outline", lent);
    drop(lent);
    drop(before);
    drop_bytes(output);
    drop_bytes(after);
}

static void refused_outline(const char *what, const uint16_t *outline, size_t outline_words, size_t bytes, uint64_t number,
                            uint64_t ordinal) {
    write_path(what, outline, outline_words, bytes, refused(number, ordinal), NULL, 0);
}

static void test_write_path(void) {
    static const uint16_t origin[] = {0, 0, 0, 0, 0, 0};
    static const uint8_t origin_path[] = {1, 0, 0, 0, 0, 0, 0, 0, 0, 2, 0, 0, 0, 0, 0, 0, 0, 0, 2, 0, 0, 0, 0, 0, 0, 0, 0, 3};
    uint16_t outline[131] = {0};
    size_t size = sizeof triangle_path;
    expect("size", size, VIKELODU_PATH_BYTES(3));
    write_path("a triangle", triangle_outline, 6, size, written(size), triangle_path, size);
    write_path("a triangle", triangle_outline, 6, size + 1, written(size), triangle_path, size);
    write_path("a triangle", triangle_outline, 6, VIKELODU_MOST_PATH_BYTES, written(size), triangle_path, size);
    write_path("no minus zero", origin, 6, size + 9, written(size), origin_path, size);
    for (size_t bytes = 0; bytes < size; bytes++) {
        refused_outline("a short output", triangle_outline, 6, bytes, VIKELODU_OUTPUT, 0);
    }
    for (size_t words = 0; words < WORDS(outline); words++) {
        if (words % 2 == 1 || words < 6 || words > 128) {
            memset(outline, 0, sizeof outline);
            refused_outline("vertices", outline, words, 600, VIKELODU_VERTICES, 1);
            refused_outline("vertices and no output", outline, words, 0, VIKELODU_VERTICES, 1);
            outline[0] = 16001;
            refused_outline("vertices and 16,001", outline, words, 600, VIKELODU_VERTICES, 1);
        }
    }
    for (size_t place = 0; place < PLACES; place++) {
        memcpy(outline, triangle_outline, sizeof triangle_outline);
        outline[place] = 16001;
        refused_outline("16,001", outline, 6, 90, VIKELODU_COORDINATE, 1);
        refused_outline("16,001 and a short output", outline, 6, size - 1, VIKELODU_COORDINATE, 1);
        outline[place] = 65535;
        refused_outline("65,535 and no output", outline, 6, 0, VIKELODU_COORDINATE, 1);
    }
}

/* What is written reads back, of 3 to 64 vertices; what was read from a minus zero is written as zero. */
static void test_path_round_trip(void) {
    uint16_t outline[VIKELODU_MOST_OUTLINE_WORDS];
    for (size_t i = 0; i < WORDS(outline); i++) {
        outline[i] = (uint16_t)(i * 7919 % 16001);
    }
    for (size_t vertices = 3; vertices <= 64; vertices++) {
        struct bytes path = make_bytes(VIKELODU_MOST_PATH_BYTES + 3);
        size_t size = VIKELODU_PATH_BYTES(vertices), words = 2 * vertices;
        uint64_t answer = vikelodu_write_path(outline, words, path.at, path.count);
        expect("written", vikelodu_number(answer), VIKELODU_GRANTED);
        expect("size", vikelodu_size(answer), size);
        expect("move and close", path.at[0] == 1 && path.at[size - 1] == 3, 1);
        expect("the byte after", path.at[size], 0xA7);
        expect_fences_of_bytes("around the path", path);
        read_path("what was written", path.at, size, words, (uint64_t)words << 32, outline, words);
        read_path("what was written", path.at, size, words + 2, (uint64_t)words << 32, outline, words);
        refused_path("what was written, an output short by one", path.at, size, words - 1, VIKELODU_OUTPUT);
        refused_path("what was written and a byte", path.at, size + 1, words, VIKELODU_PATH_SHAPE);
        put(path.at, words - 1, not_a_number);
        refused_path("the last coordinate no number", path.at, size, words, VIKELODU_PATH_COORDINATE);
        drop_bytes(path);
    }
    expect("the longest path", VIKELODU_MOST_PATH_BYTES, VIKELODU_PATH_BYTES(64));
    uint8_t path[sizeof triangle_path];
    memcpy(path, triangle_path, sizeof path);
    put(path, 1, minus_zero);
    uint64_t answer = vikelodu_read_path(path, sizeof path, outline, WORDS(outline));
    expect("words", vikelodu_words(answer), 6);
    write_path("a minus zero read", outline, vikelodu_words(answer), sizeof path, written(sizeof path), triangle_path,
               sizeof path);
}

/* ---------------------------------------------------------------------- lay */

/* W 10, R 2, N 10; three squares of 4 by 4 that share their vertex records, mask 1. */
static const uint8_t three_squares[] = {
    0x4E, 0x4A, 1, 0, 10, 0, 2, 0, 10, 0, 1, 0, 4, 0, 3, 0,                         /* front */
    0,    0,    0, 0, 2,  0, 4, 0, 0,  0, 3, 0, 4, 0, 4, 0, 4, 0, 0, 0, 4, 0, 0, 0, /* vertices 1 to 4 */
    1,    0,    1, 0, 2,  0,                                                        /* piece 1 */
    1,    0,    1, 0, 3,  0,                                                        /* piece 2 */
    1,    0,    1, 0, 0,  0,                                                        /* piece 3 */
};

/* W 1, R 400, N 4,096; five bars of 16,000 by 1 that share their vertex records, mask 1. */
static const uint8_t five_bars[] = {
    0x4E, 0x4A, 1, 0, 1, 0, 0x90, 1,    0, 0x10, 1, 0, 4,    0,    5, 0,                         /* front */
    0,    0,    0, 0, 2, 0, 0x80, 0x3E, 0, 0,    3, 0, 0x80, 0x3E, 1, 0, 4, 0, 0, 0, 1, 0, 0, 0, /* vertices 1 to 4 */
    1,    0,    1, 0, 2, 0,                                                                      /* piece 1 */
    1,    0,    1, 0, 3, 0,                                                                      /* piece 2 */
    1,    0,    1, 0, 4, 0,                                                                      /* piece 3 */
    1,    0,    1, 0, 5, 0,                                                                      /* piece 4 */
    1,    0,    1, 0, 0, 0,                                                                      /* piece 5 */
};

/* Pieces placed, and used length. */
static uint64_t laid(uint64_t pieces, uint64_t length) { return pieces << 16 | length << 32; }

/* The buffers of one lay call. */
struct job {
    struct buffer strip, output, work;
};

static void drop_job(struct job of) {
    drop(of.strip);
    drop(of.output);
    drop(of.work);
}

/* Lay with buffers of so many words: the answer, the entries, and every word after them as before, the work buffer zero. */
static struct job lay_with_gap(const char *what, uint16_t gap, const uint8_t *sheet, size_t sheet_bytes, size_t strip_words,
                               size_t output_words, size_t work_words, uint64_t wanted, const uint16_t *entries,
                               size_t entry_words) {
    struct bytes lent = copy_bytes(sheet, sheet_bytes);
    struct job made = {make(strip_words), make(output_words), make(work_words)};
    struct buffer after = copy(made.output);
    expect(what, vikelodu_lay(lent.at, lent.count, gap, made.strip.words, made.strip.count, made.output.words, made.output.count,
                              made.work.words, made.work.count),
           wanted);
    if (entry_words > 0) {
        memcpy(after.words, entries, 2 * entry_words);
    }
    expect_same(what, made.output, after);
    for (size_t i = 0; i < made.work.count; i++) {
        expect(what, made.work.words[i], 0);
    }
    expect_bytes(what, lent, sheet);
    expect_fences("around the strip", made.strip);
    expect_fences("around the output", made.output);
    expect_fences("around the work buffer", made.work);
    expect_fences_of_bytes("around the sheet", lent);
    drop(after);
    drop_bytes(lent);
    return made;
}

static struct job lay(const char *what, const uint8_t *sheet, size_t sheet_bytes, size_t strip_words, size_t output_words,
                      size_t work_words, uint64_t wanted, const uint16_t *entries, size_t entry_words) {
    return lay_with_gap(what, 0, sheet, sheet_bytes, strip_words, output_words, work_words, wanted, entries, entry_words);
}

/* A refused job: strip and output have every word as before. */
static void lay_refused_with_gap(const char *what, uint16_t gap, const uint8_t *sheet, size_t sheet_bytes, size_t strip_words,
                                 size_t output_words, uint64_t number, uint64_t ordinal) {
    uint64_t wanted = refused(number, ordinal);
    struct job made = lay_with_gap(what, gap, sheet, sheet_bytes, strip_words, output_words, 6, wanted, NULL, 0);
    struct buffer before = make(strip_words);
    expect_same(what, made.strip, before);
    drop(before);
    drop_job(made);
}

static void lay_refused(const char *what, const uint8_t *sheet, size_t sheet_bytes, size_t strip_words, size_t output_words,
                        uint64_t number, uint64_t ordinal) {
    lay_refused_with_gap(what, 0, sheet, sheet_bytes, strip_words, output_words, number, ordinal);
}

static void test_lay(void) {
    static const uint16_t all_placed[] = {0, 0, 0, 0, 0, 0, 0, 4, 0, 0, 2, 0};
    static const uint16_t third_refused[] = {0, 0, 0, 0, 0, 0, 0, 4, 14, 0, 0, 0};
    static const uint16_t none_placed[] = {12, 0, 0, 0, 12, 0, 0, 0, 12, 0, 0, 0};
    static const uint8_t no_pieces[] = {0x4E, 0x4A, 1, 0, 10, 0, 2, 0, 7, 0, 0, 0, 0, 0, 0, 0};
    static const size_t outputs[] = {12, 13, VIKELODU_MOST_LAY_WORDS};
    size_t size = sizeof three_squares;
    expect("words", WORDS(all_placed), VIKELODU_LAY_WORDS(3));
    for (size_t i = 0; i < WORDS(outputs); i++) {
        struct job made = lay("three squares", three_squares, size, VIKELODU_STRIP_WORDS(10, 4), outputs[i], 6, laid(3, 8),
                              all_placed, 12);
        expect_run(made.strip, 0, 0, 8);
        expect_run(made.strip, 1, 0, 8);
        expect_run(made.strip, 2, 0, 4);
        expect_run(made.strip, 3, 0, 4);
        expect("column 4", made.strip.words[HEADS + 4], 0);
        PLACE("a fourth square", made.strip, square, 1, 6, placed(0, 2, 4));
        drop_job(made);
    }
    struct job made = lay("a record too few", three_squares, size, VIKELODU_STRIP_WORDS(10, 3), 12, 6, laid(2, 4),
                          third_refused, 12);
    expect_run(made.strip, 0, 0, 8);
    expect_run(made.strip, 1, 0, 8);
    expect("column 2", made.strip.words[HEADS + 2], 0);
    drop_job(made);
    made = lay("no work buffer", three_squares, size, VIKELODU_STRIP_WORDS(10, 4), 12, 0, laid(0, 0), none_placed, 12);
    expect("column 0", made.strip.words[HEADS], 0);
    drop_job(made);
    made = lay("no pieces", no_pieces, sizeof no_pieces, VIKELODU_STRIP_WORDS(7, 1), 0, 0, laid(0, 0), NULL, 0);
    expect("the figures", made.strip.words[0] == 10 && made.strip.words[1] == 2 && made.strip.words[2] == 7, 1);
    drop_job(made);
}

/* The used length is counted in units and has 32 bits: five bars one after another, each over 40 columns. */
static void test_used_length(void) {
    static const uint16_t in_a_row[] = {0, 0, 0, 0, 0, 0, 40, 0, 0, 0, 80, 0, 0, 0, 120, 0, 0, 0, 160, 0};
    static const uint16_t four_of_them[] = {0, 0, 0, 0, 0, 0, 40, 0, 0, 0, 80, 0, 0, 0, 120, 0, 14, 0, 0, 0};
    size_t size = sizeof five_bars;
    struct job made = lay("80,000 units", five_bars, size, VIKELODU_STRIP_WORDS(4096, 200), 20, 120, laid(5, 80000), in_a_row,
                          20);
    expect_run(made.strip, 199, 0, 1);
    expect("column 200", made.strip.words[HEADS + 200], 0);
    drop_job(made);
    drop_job(lay("64,000 units", five_bars, size, VIKELODU_STRIP_WORDS(4096, 199), 20, 120, laid(4, 64000), four_of_them, 20));

    /* A piece that ends within a column counts up to its right edge, not to the column's end. */
    static const uint8_t triangle[] = {
        0x4E, 0x4A, 1, 0, 2, 0, 2, 0, 10, 0, 1, 0, 3, 0, 1, 0,       /* W 2, R 2, N 10 */
        0,    0,    0, 0, 2, 0, 3, 0, 0,  0, 3, 0, 3, 0, 2, 0, 0, 0, /* 0, 0; 3, 0; 3, 2 */
        1,    0,    1, 0, 0, 0,
    };
    static const uint16_t at_0[] = {0, 0, 0, 0};
    drop_job(lay("3 units in 2 columns", triangle, sizeof triangle, VIKELODU_STRIP_WORDS(10, 6), 4, 6, laid(1, 3), at_0, 4));
}

/* The used length is that of the outlines, without the gap. */
static void test_lay_with_gap(void) {
    static const uint16_t apart[] = {0, 0, 0, 0, 0, 0, 0, 5, 0, 0, 3, 0};
    size_t size = sizeof three_squares, words = VIKELODU_STRIP_WORDS(10, 40);
    struct job made = lay_with_gap("squares a unit apart", 1, three_squares, size, words, 12, 9, laid(3, 10), apart, 12);
    expect("the gap", made.strip.words[GAP], 1);
    PLACE("a fourth square", made.strip, square, 1, 9, placed(0, 3, 5));
    drop_job(made);
    lay_refused_with_gap("gap 401", 401, three_squares, size, words, 12, VIKELODU_GAP, 0);
    lay_refused_with_gap("gap 401, which is asked before 4", 401, three_squares, size, words + 1, 0, VIKELODU_GAP, 0);
    lay_refused_with_gap("gap 65,535 after 2", 65535, three_squares, size - 1, words, 12, VIKELODU_SHEET_LENGTH, 0);
}

/* Lay on buffers of bytes with an odd last byte, which is no part of them and stays. */
static void test_lay_on_bytes(void) {
    enum { STRIP = 2 * (5 + 10 + 4 * 4), OUTPUT = 2 * 12, WORK = 2 * 6 };
    struct bytes all[] = {make_bytes(STRIP + 2), make_bytes(OUTPUT + 2), make_bytes(WORK + 2)};
    uint16_t *words[3];
    for (size_t i = 0; i < 3; i++) {
        /* The byte before them is the fence, so the first aligned byte is the second. */
        words[i] = (uint16_t *)(all[i].at + 1);
    }
    uint64_t answer = vikelodu_lay(three_squares, sizeof three_squares, 0, words[0], (STRIP + 1) / 2, words[1], (OUTPUT + 1) / 2,
                                   words[2], (WORK + 1) / 2);
    expect("lay on bytes", answer, laid(3, 8));
    expect("width, low byte first", all[0].at[1] == 10 && all[0].at[2] == 0, 1);
    expect("second height, low byte first", all[1].at[1 + 14] == 4 && all[1].at[1 + 15] == 0, 1);
    for (size_t i = 0; i < WORK; i++) {
        expect("work byte", all[2].at[1 + i], 0);
    }
    for (size_t i = 0; i < 3; i++) {
        expect("byte before", all[i].at[0], 0xA7);
        expect("odd last byte", all[i].at[all[i].count - 1], 0xA7);
        expect_fences_of_bytes("around the bytes", all[i]);
        drop_bytes(all[i]);
    }
}

/* ----------------------------------------------------------- calls on bytes */

/* The bytes of some words, low byte first, and an odd last one. They stand at an odd address: memory from malloc begins at an
   even one, and the fence is its first byte. */
static struct bytes bytes_of(const uint16_t *words, size_t count) {
    struct bytes made = make_bytes(2 * count + 1);
    expect("an odd address", (uintptr_t)made.at % 2, 1);
    for (size_t i = 0; i < count; i++) {
        made.at[2 * i] = (uint8_t)words[i];
        made.at[2 * i + 1] = (uint8_t)(words[i] >> 8);
    }
    return made;
}

/* They hold these words now; the odd byte and the fences stayed. */
static void expect_words(const char *what, struct bytes got, struct buffer wanted) {
    struct bytes now = bytes_of(wanted.words, wanted.count);
    expect(what, got.count, now.count);
    expect_bytes(what, got, now.at);
    expect_fences_of_bytes(what, got);
    drop_bytes(now);
}

static void expect_cleared(const char *what, struct bytes of) {
    for (size_t i = 0; i < of.count - 1; i++) {
        expect(what, of.at[i], 0);
    }
    expect(what, of.at[of.count - 1], 0xA7);
    expect_fences_of_bytes(what, of);
}

static vikelodu_tried call_on_bytes(struct wish of, struct bytes strip, struct bytes outline, struct bytes work) {
    switch (of.call) {
    case PLACING:
        return vikelodu_place_bytes(strip.at, strip.count, outline.at, outline.count, of.turns, work.at, work.count);
    case ASKING:
        return vikelodu_ask_bytes(strip.at, strip.count, outline.at, outline.count, of.turns, work.at, work.count);
    default:
        return (vikelodu_tried){vikelodu_commit_bytes(strip.at, strip.count, outline.at, outline.count, of.turns, of.column,
                                                      of.height, work.at, work.count),
                                0};
    }
}

/* A strip as words and as bytes. */
struct both {
    struct buffer words;
    struct bytes bytes;
};

/* The call on words and on bytes of the same strip: the same answer and tries, and the same words after it. */
static void lend_both(const char *what, struct wish of, struct both strip, const uint16_t *outline, size_t outline_words,
                      size_t work_words, uint64_t wanted) {
    struct bytes lent = bytes_of(outline, outline_words), before = bytes_of(outline, outline_words);
    struct bytes work = make_bytes(2 * work_words + 1);
    uint32_t tries = lend(what, of, strip.words, outline, outline_words, work_words, wanted);
    vikelodu_tried got = call_on_bytes(of, strip.bytes, lent, work);
    expect(what, got.answer, wanted);
    expect(what, got.tries, tries);
    expect_words(what, strip.bytes, strip.words);
    expect_bytes(what, lent, before.at);
    expect_fences_of_bytes("around the outline", lent);
    expect_cleared("work bytes", work);
    drop_bytes(lent);
    drop_bytes(before);
    drop_bytes(work);
}

#define BOTH(what, wish, strip, outline, work_words, wanted) \
    lend_both(what, wish, strip, outline, WORDS(outline), work_words, wanted)

static void test_calls_on_bytes(void) {
    static const uint16_t far[] = {0, 0, 16001, 0, 0, 4};
    struct buffer words = opened(10, 2, 10, 4), other = make(words.count);
    struct both strip = {words, bytes_of(other.words, other.count)};
    expect("open on bytes, columns 0", vikelodu_open_bytes(10, 2, 0, 401, strip.bytes.at, strip.bytes.count),
           refused(VIKELODU_COLUMNS, 0));
    expect("open on bytes, gap 401", vikelodu_open_bytes(10, 2, 10, 401, strip.bytes.at, strip.bytes.count - 2),
           refused(VIKELODU_GAP, 0));
    expect("open on bytes, a word less", vikelodu_open_bytes(10, 2, 10, 400, strip.bytes.at, strip.bytes.count - 2),
           refused(VIKELODU_STRIP_LENGTH, 0));
    expect_words("strip of a refused open on bytes", strip.bytes, other);
    expect("open on bytes", vikelodu_open_bytes(10, 2, 10, 0, strip.bytes.at, strip.bytes.count), 0);
    expect_words("an opened strip", strip.bytes, words);
    BOTH("first square", placing(1), strip, square, 6, placed(0, 0, 0));
    BOTH("second square's spot", asking(15), strip, square, 6, placed(0, 0, 4));
    BOTH("second square", committing(0, 0, 4), strip, square, 6, 0);
    BOTH("second square again", committing(0, 0, 4), strip, square, 6, refused(VIKELODU_NOT_FREE, 0));
    BOTH("off the strip", committing(3, 65535, 65535), strip, square, 6, refused(VIKELODU_NOT_FREE, 0));
    BOTH("turn 4", committing(4, 2, 0), strip, square, 6, refused(VIKELODU_TURN, 1));
    BOTH("turn 65,535", committing(65535, 2, 0), strip, square, 6, refused(VIKELODU_TURN, 1));
    BOTH("mask 16", placing(16), strip, square, 6, refused(VIKELODU_TURN, 1));
    BOTH("mask 16", asking(16), strip, square, 6, refused(VIKELODU_TURN, 1));
    const struct wish each[] = {placing(1), asking(1), committing(0, 65535, 65535)};
    struct both never_opened = {other, bytes_of(other.words, other.count)};
    for (size_t i = 0; i < WORDS(each); i++) {
        lend_both("two vertices", each[i], strip, square, 4, 6, refused(VIKELODU_VERTICES, 1));
        BOTH("16,001", each[i], strip, far, 6, refused(VIKELODU_COORDINATE, 1));
        BOTH("a work buffer short by a word", each[i], strip, square, 5, refused(VIKELODU_BUFFER, 1));
        BOTH("a strip never opened", each[i], never_opened, square, 6, refused(VIKELODU_ILL_FORMED, 0));
    }
    BOTH("third square's spot", asking(1), strip, square, 6, placed(0, 2, 0));
    BOTH("third square", placing(1), strip, square, 6, placed(0, 2, 0));
    BOTH("no records for one apart", committing(0, 8, 6), strip, square, 6, refused(VIKELODU_RECORDS, 1));
    BOTH("fourth square", committing(1, 2, 4), strip, square, 6, 0);
    BOTH("no records for a fifth", asking(1), strip, square, 6, refused(VIKELODU_RECORDS, 1));
    drop(words);
    drop(other);
    drop_bytes(strip.bytes);
    drop_bytes(never_opened.bytes);
}

/* A strip with a gap over 256, so that both of its bytes count. */
static void test_gap_on_bytes(void) {
    struct buffer words = opened_with_gap(10, 2, 10, 300, 10), other = make(words.count);
    struct both strip = {words, bytes_of(other.words, other.count)};
    expect("open on bytes, gap 300", vikelodu_open_bytes(10, 2, 10, 300, strip.bytes.at, strip.bytes.count), 0);
    expect("the gap, low byte first", strip.bytes.at[2 * GAP] == (300 & 0xFF) && strip.bytes.at[2 * GAP + 1] == 300 >> 8, 1);
    expect_words("an opened strip", strip.bytes, words);
    BOTH("a square", placing(1), strip, square, 456, placed(0, 0, 0));
    BOTH("another", placing(15), strip, square, 456, refused(VIKELODU_NO_POSITION, 1));
    drop(words);
    drop(other);
    drop_bytes(strip.bytes);
}

/* Lay on words and on bytes: the same answer and the same words, of a refused job too. */
static void lay_both(const char *what, uint16_t gap, const uint8_t *sheet, size_t sheet_bytes, size_t strip_words,
                     size_t output_words, size_t work_words, uint64_t wanted) {
    struct buffer strip = make(strip_words), output = make(output_words), work = make(work_words);
    struct bytes lent = copy_bytes(sheet, sheet_bytes);
    struct bytes strip_bytes = bytes_of(strip.words, strip.count), output_bytes = bytes_of(output.words, output.count);
    struct bytes work_bytes = bytes_of(work.words, work.count);
    expect(what,
           vikelodu_lay(sheet, sheet_bytes, gap, strip.words, strip.count, output.words, output.count, work.words, work.count),
           wanted);
    expect(what,
           vikelodu_lay_bytes(lent.at, lent.count, gap, strip_bytes.at, strip_bytes.count, output_bytes.at, output_bytes.count,
                              work_bytes.at, work_bytes.count),
           wanted);
    expect_bytes(what, lent, sheet);
    expect_fences_of_bytes("around the sheet", lent);
    expect_words("strip", strip_bytes, strip);
    expect_words("output", output_bytes, output);
    expect_cleared("work bytes", work_bytes);
    drop(strip);
    drop(output);
    drop(work);
    drop_bytes(lent);
    drop_bytes(strip_bytes);
    drop_bytes(output_bytes);
    drop_bytes(work_bytes);
}

static void test_lay_as_bytes(void) {
    size_t size = sizeof three_squares, words = VIKELODU_STRIP_WORDS(10, 4);
    lay_both("three squares", 0, three_squares, size, words, 12, 6, laid(3, 8));
    lay_both("the longest output and more", 0, three_squares, size, words, VIKELODU_MOST_LAY_WORDS + 9, 6, laid(3, 8));
    lay_both("a record too few", 0, three_squares, size, VIKELODU_STRIP_WORDS(10, 3), 12, 6, laid(2, 4));
    lay_both("no work buffer", 0, three_squares, size, words, 12, 0, laid(0, 0));
    lay_both("cut off", 0, three_squares, size - 1, words, 12, 6, refused(VIKELODU_SHEET_LENGTH, 0));
    lay_both("a strip short by one", 0, three_squares, size, words - 1, 12, 6, refused(VIKELODU_STRIP_LENGTH, 0));
    lay_both("an output short by one", 0, three_squares, size, words, 11, 6, refused(VIKELODU_OUTPUT, 0));
    lay_both("a unit apart", 1, three_squares, size, VIKELODU_STRIP_WORDS(10, 40), 12, 9, laid(3, 10));
    lay_both("gap 300", 300, three_squares, size, VIKELODU_STRIP_WORDS(10, 40), 12, 456, laid(1, 4));
    lay_both("80,000 units", 0, five_bars, sizeof five_bars, VIKELODU_STRIP_WORDS(4096, 200), 20, 120, laid(5, 80000));
    lay_both("gap 401", 401, three_squares, size, words - 1, 11, 6, refused(VIKELODU_GAP, 0));
}

/* The sheet of three squares with one byte changed. */
static void lay_changed(const char *what, size_t place, uint8_t byte, uint64_t number, uint64_t ordinal) {
    uint8_t sheet[sizeof three_squares];
    memcpy(sheet, three_squares, sizeof sheet);
    sheet[place] = byte;
    lay_refused(what, sheet, sizeof sheet, VIKELODU_STRIP_WORDS(10, 4), 12, number, ordinal);
}

static void test_refused_jobs(void) {
    enum { VERTEX = 16, PIECE = VERTEX + 6 * 4 };
    size_t size = sizeof three_squares, words = VIKELODU_STRIP_WORDS(10, 4);
    lay_refused("15 bytes", three_squares, 15, words, 12, VIKELODU_NO_SHEET, 0);
    lay_refused("cut off", three_squares, size - 1, words, 12, VIKELODU_SHEET_LENGTH, 0);
    lay_changed("width 0", 4, 0, VIKELODU_WIDTH, 0);
    lay_changed("resolution 0", 6, 0, VIKELODU_RESOLUTION, 0);
    lay_changed("columns 0", 8, 0, VIKELODU_COLUMNS, 0);
    lay_refused("a strip short by one", three_squares, size, words - 1, 12, VIKELODU_STRIP_LENGTH, 0);
    lay_refused("no records", three_squares, size, VIKELODU_STRIP_WORDS(10, 0), 12, VIKELODU_STRIP_LENGTH, 0);
    lay_changed("a piece after itself", PIECE + 4, 1, VIKELODU_PIECES, 0);
    lay_changed("a vertex past V", VERTEX + 6 * 3 + 4, 5, VIKELODU_VERTICES, 1);
    lay_changed("x above 16,000", VERTEX + 6 + 1, 0x3F, VIKELODU_COORDINATE, 1);
    lay_changed("mask 16 of the third", PIECE + 6 * 2 + 2, 16, VIKELODU_TURN, 3);
    lay_changed("two vertices for the second", PIECE + 6, 3, VIKELODU_VERTICES, 2);
    lay_refused("an output short by one", three_squares, size, words, 11, VIKELODU_OUTPUT, 0);
}

/* Width, resolution and columns out of limits, one by one and together, where what is asked after them is wrong too: the length
   of the strip (4), the gap (21), the piece chain or the list's count (6). */
static void test_limits(void) {
    static const struct {
        uint16_t width, resolution, columns, number;
    } cases[] = {
        {0, 2, 10, VIKELODU_WIDTH},
        {16001, 2, 10, VIKELODU_WIDTH},
        {0, 0, 10, VIKELODU_WIDTH},
        {0, 2, 0, VIKELODU_WIDTH},
        {16001, 401, 4097, VIKELODU_WIDTH},
        {10, 0, 10, VIKELODU_RESOLUTION},
        {10, 401, 10, VIKELODU_RESOLUTION},
        {10, 0, 0, VIKELODU_RESOLUTION},
        {10, 401, 4097, VIKELODU_RESOLUTION},
        {10, 2, 0, VIKELODU_COLUMNS},
        {10, 2, 4097, VIKELODU_COLUMNS},
    };
    static const uint16_t pieces_201[] = {201};
    for (size_t i = 0; i < WORDS(cases); i++) {
        uint16_t width = cases[i].width, resolution = cases[i].resolution, columns = cases[i].columns;
        uint64_t number = cases[i].number;
        uint16_t figures[] = {width, resolution, columns, 9}; /* the first piece is past P */
        uint8_t sheet[sizeof three_squares];
        memcpy(sheet, three_squares, sizeof sheet);
        for (size_t j = 0; j < WORDS(figures); j++) {
            sheet[4 + 2 * j] = (uint8_t)figures[j];
            sheet[5 + 2 * j] = (uint8_t)(figures[j] >> 8);
        }
        refused_open(width, resolution, columns, 401, 3, number);
        READ_REFUSED("figures of a sheet", sheet, 100, number, 0);
        lay_refused_with_gap("figures of a job", 401, sheet, sizeof sheet, 3, 12, number, 0);
        struct bytes output = make_bytes(90), before = make_bytes(90);
        uint64_t answer = vikelodu_write(width, resolution, columns, pieces_201, 1, output.at, output.count);
        expect("figures of a list", answer, refused(number, 0));
        expect_bytes("output of a refused write", output, before.at);
        expect_fences_of_bytes("around the output", output);
        drop_bytes(output);
        drop_bytes(before);
    }
}

static void test_accessors(void) {
    uint64_t answer = placed(3, 4095, 15999);
    expect("number", vikelodu_number(answer), VIKELODU_GRANTED);
    expect("turn", vikelodu_turn(answer), 3);
    expect("column", vikelodu_column(answer), 4095);
    expect("height", vikelodu_height(answer), 15999);
    answer = refused(VIKELODU_NO_POSITION, 1);
    expect("number", vikelodu_number(answer), 13);
    expect("ordinal", vikelodu_ordinal(answer), 1);
    expect("runs", vikelodu_runs((uint64_t)495040 << 32), 495040);
    expect("width", vikelodu_width(two_pieces_read), 300);
    expect("resolution", vikelodu_resolution(two_pieces_read), 2);
    expect("columns", vikelodu_columns(two_pieces_read), 10);
    expect("size", vikelodu_size(written(65536)), 65536);
    expect("words", vikelodu_words((uint64_t)128 << 32), 128);
    expect("placed", vikelodu_placed(laid(200, 1638400)), 200);
    expect("used length", vikelodu_used_length(laid(200, 1638400)), 1638400);
    expect("placed", vikelodu_placed(laid(65535, 4294967295)), 65535);
    expect("used length", vikelodu_used_length(laid(65535, 4294967295)), 4294967295);
    expect("first edge", vikelodu_first_edge(edges(63, 64)), 63);
    expect("second edge", vikelodu_second_edge(edges(63, 64)), 64);
}

int main(void) {
    setvbuf(stdout, NULL, _IOLBF, 0); /* what differs is printed, also where a call then ends the program */
    test_accessors();
    test_open();
    test_three_squares();
    test_turns();
    test_order_of_turns();
    test_ill_formed_strips();
    test_refused_outlines();
    test_no_room();
    test_tries();
    test_ask_then_commit();
    test_ask_on_constant_words();
    test_commit_elsewhere();
    test_commit_not_free();
    test_commit_in_its_turn();
    test_cover();
    test_cover_with_gap();
    test_gap();
    test_retrace();
    test_bytes();
    test_read();
    test_refused_sheets();
    test_write();
    test_refused_lists();
    test_round_trip();
    test_read_path();
    test_path_shapes();
    test_path_coordinates();
    test_write_path();
    test_path_round_trip();
    test_lay();
    test_used_length();
    test_lay_with_gap();
    test_lay_on_bytes();
    test_calls_on_bytes();
    test_gap_on_bytes();
    test_lay_as_bytes();
    test_refused_jobs();
    test_limits();
    if (different) {
        return 1;
    }
    printf("ok\n");
    return 0;
}
