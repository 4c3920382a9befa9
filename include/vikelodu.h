/*
 * Vikelodu: outlines laid on a strip of board.
 *
 * A strip is opened once and then takes one piece after another. Each piece goes to the free position whose right edge is least
 * (column * resolution + the extent of the turned outline), then lowest, then in the least turn; a program may also see that position
 * before the piece is laid, and lay the piece there or at another free position. A strip may have a gap, which is kept between its
 * pieces. A job sheet carries the figures of a strip and a cut list of pieces as bytes; a list is read from it and written to it, and a
 * whole job is laid from it in one call. An outline is also read from a path of a drawing program and written as one. Every call says
 * what became of it: granted, or refused with the number of the question that got "no".
 *
 * Answers
 *
 * An answer is one number of 64 bits, made in the same way for every call:
 *
 *   bits 0 to 15   the number: 0 where the call is granted, else that of the question
 *   the others     granted, the call's values: 16 bits each, the last one 32 bits in the high half where it needs them;
 *                  refused, the ordinal in bits 16 to 31; bits 32 to 47 are kept for a second number beside it, and 0 so far
 *
 * The functions at the end of this header take an answer apart. What a call tells in every case, granted or refused, stands beside the
 * answer, in a struct that is returned by value: vikelodu_place and vikelodu_ask have their tries there. So nothing more is lent, and
 * a program that takes the struct for an answer does not compile. All other calls return the answer alone.
 *
 * Words and buffers
 *
 * A word is a uint16_t, and a buffer is a pointer to its first word and its number of words. A job sheet or a path is a buffer of
 * bytes: a pointer to its first byte, which needs no alignment, and its number of bytes.
 * - A buffer belongs to the caller. The library reads and writes nothing outside the buffers of the call and keeps nothing
 *   between calls, so calls on different buffers may run at the same time.
 * - A pointer to words is aligned to 2 bytes. No pointer is NULL, also where the buffer has no words or bytes.
 * - The buffers of one call must not overlap; nothing checks that.
 * - A call keeps its tables on the stack, and nothing checks that there is room: 250 KB in vikelodu_lay, 220 KB in vikelodu_place,
 *   vikelodu_ask and vikelodu_commit, 40 KB in vikelodu_cover, vikelodu_read and vikelodu_write, 10 KB in vikelodu_open, 1 KB in
 *   vikelodu_retrace, vikelodu_read_path and vikelodu_write_path. The calls on bytes say their own.
 * - The calls whose names end in _bytes take buffers of words as bytes, two to a word, low byte first: a pointer to the first byte,
 *   which needs no alignment, and the number of bytes. An odd last byte is no part of such a buffer and stays. (Of a job sheet
 *   or a path, which are bytes in every call, all bytes count.)
 *
 * Lengths
 *
 * One unit is 1/8 mm. The strip is `width` units high and runs to the right in columns of `resolution` units. Cells are a column
 * wide and one unit high. A run is a stretch of cells in one column, from row `low` to row `high` - 1.
 *
 * A strip is opened with a gap g of 0 to 400 units and keeps it. Two points inside different pieces on it then differ by at least g
 * in x or in y. There is no gap to the strip's edges: whether a piece is on the strip is a matter of its outline alone. For the gap a
 * piece's cells reach g units to the right and g units up: each square of one unit by one that holds a point inside the piece counts
 * also where it is moved by up to g units to the right and up to g units up, and the cells are those that such a square lies in. Cells
 * past the strip's end or top do not count. With a gap of 0 the cells are those that hold a point inside.
 *
 * Refusals
 *
 * The questions of a call are asked in rising order, those of a piece (7 to 11) piece by piece, and the first "no" is the answer;
 * but 16 and 17, and after them 21, are asked directly after 3, or where 3 would be, vikelodu_commit asks 18 after 12 and before 14,
 * vikelodu_read_path asks 15 after 19 and 20, and vikelodu_write asks for the sheet's size (2) after its pieces. A refused call
 * changes no word of the strip and no word or byte of the output; the work buffer is zero after every call, granted or refused.
 * What is lent as const is never changed. In vikelodu_lay 12 to 14 refuse one piece and not the job: they are in the output and
 * never in the answer.
 */
#ifndef VIKELODU_H
#define VIKELODU_H

#include <stddef.h>
#include <stdint.h>

/*
 * The edition of this header. A call that takes or returns something else than before has another name in the library, so that a
 * program compiled against an older header does not link; compiled against this one it calls it by the name it had. Edition 4 has the
 * gap as an argument more in the calls that open, cover and lay, edition 5 the tries beside the answer in those that place and ask,
 * edition 7 the used length in the answer of those that lay, in the place of the used columns; there is no edition 6. The calls that
 * commit have kept their names: a strip of the older form, with four leading words, has another length than one of this form with as
 * many columns, for any number of records, and gets 5. Since edition 7 turns are compared by the right edge, where it was the last
 * column: the calls that place and ask may answer another turn than before, and have kept their names, as they take and return the
 * same.
 */
#define VIKELODU_EDITION 7
#define vikelodu_open vikelodu_open_4
#define vikelodu_cover vikelodu_cover_4
#define vikelodu_lay vikelodu_lay_7
#define vikelodu_open_bytes vikelodu_open_bytes_4
#define vikelodu_lay_bytes vikelodu_lay_bytes_7
#define vikelodu_place vikelodu_place_5
#define vikelodu_ask vikelodu_ask_5
#define vikelodu_place_bytes vikelodu_place_bytes_5
#define vikelodu_ask_bytes vikelodu_ask_bytes_5

#ifdef __cplusplus
extern "C" {
#endif

/* The number in a refused answer. */
enum vikelodu_number {
    VIKELODU_GRANTED = 0,
    /* The sheet has fewer than 16 bytes, or does not begin with the bytes 4E 4A 01 00 (hexadecimal). */
    VIKELODU_NO_SHEET = 1,
    /* The sheet's length is not 16 + 6 V + 6 P, or it is above 65,536; in vikelodu_write the list's sheet would be longer than
       that. */
    VIKELODU_SHEET_LENGTH = 2,
    /* The width is not 1 to 16,000 units. Answered by vikelodu_open, vikelodu_read, vikelodu_write and vikelodu_lay. */
    VIKELODU_WIDTH = 3,
    /* The strip has not 5 + columns + 4 * records words for any number of records from 1 to 16,000. Answered by vikelodu_open and
       vikelodu_lay. */
    VIKELODU_STRIP_LENGTH = 4,
    /* The strip is not well formed: it was not opened, or by a library before edition 4; it has another length than it was
       opened with; or its words were changed so that they are no strip any more, the gap to over 400 too. */
    VIKELODU_ILL_FORMED = 5,
    /* The sheet's piece chain leaves 1 to P or does not end within 200 pieces; the list has no count word, or one above 200. */
    VIKELODU_PIECES = 6,
    /* The outline has not 3 to 64 vertices: an even number of words from 6 to 128. On a sheet: the vertex chain leaves 1 to V or
       does not end after 3 to 64. In a list: the vertex count is not 3 to 64, or the list ends before the piece does. */
    VIKELODU_VERTICES = 7,
    /* A coordinate of the outline is above 16,000. */
    VIKELODU_COORDINATE = 8,
    /* The mask is not 1 to 15, or the turn is above 3. */
    VIKELODU_TURN = 9,
    /* In an allowed turn two edges cross between two whole x. Crossing at a whole x, touching and overlapping are allowed. */
    VIKELODU_CROSSING = 10,
    /* The outline has nothing inside, so it covers no cell. */
    VIKELODU_NO_CELL = 11,
    /* The work buffer, or cover's output, has not three words for each run of the allowed turn that has most runs. The runs are
       those that vikelodu_cover gives with this gap: none is left out because it would go past the strip. */
    VIKELODU_BUFFER = 12,
    /* There is no free position in any allowed turn. Never answered by vikelodu_commit. */
    VIKELODU_NO_POSITION = 13,
    /* With the piece at its position the strip would have more runs than records. */
    VIKELODU_RECORDS = 14,
    /* The output has not as many words as the list of vikelodu_read, the pieces of vikelodu_lay or the outline of
       vikelodu_read_path need, or bytes as the sheet of vikelodu_write or the path of vikelodu_write_path. */
    VIKELODU_OUTPUT = 15,
    /* The resolution is not 1 to 400 units. Answered by the calls that answer 3, which ask it directly after, and by
       vikelodu_cover. */
    VIKELODU_RESOLUTION = 16,
    /* The columns are not 1 to 4,096. Answered by the calls that answer 3, which ask it directly after 16. */
    VIKELODU_COLUMNS = 17,
    /* The position is off the strip, or not free. Answered by vikelodu_commit alone, which asks it in the place of 13. */
    VIKELODU_NOT_FREE = 18,
    /* The path is not one move, 2 to 63 lines and one close, with nothing after it. Answered by vikelodu_read_path alone. */
    VIKELODU_PATH_SHAPE = 19,
    /* Eight times a coordinate of the path, in millimetres, is not a whole number from 0 to 16,000. Answered by vikelodu_read_path
       alone, of a path that has the right shape. */
    VIKELODU_PATH_COORDINATE = 20,
    /* The gap is over 400 units. Asked directly after 16 and 17, by vikelodu_open, vikelodu_cover (which does not ask 17) and
       vikelodu_lay. */
    VIKELODU_GAP = 21
};

/* What vikelodu_place, vikelodu_ask and their calls on bytes return: the answer, and how much looking was done for it. */
typedef struct {
    uint64_t answer;
    uint32_t tries;
} vikelodu_tried;

/* The words of a strip: five leading words, one for each column, four for each record. A record holds one run; what the pieces need
   depends on their form and on how their runs join. */
#define VIKELODU_STRIP_WORDS(columns, records) (5 + (size_t)(columns) + 4 * (size_t)(records))

/* The bytes of the sheet that vikelodu_write makes of a list with so many vertices and pieces in all; of the longest sheet. */
#define VIKELODU_SHEET_BYTES(vertices, pieces) (16 + 6 * ((size_t)(vertices) + (size_t)(pieces)))
#define VIKELODU_MOST_SHEET_BYTES 65536

/* The words of a list with so many vertices and pieces in all; of the longest list, which has 200 pieces of 64 vertices. */
#define VIKELODU_LIST_WORDS(vertices, pieces) (1 + 2 * ((size_t)(vertices) + (size_t)(pieces)))
#define VIKELODU_MOST_LIST_WORDS 26001

/* The words of the longest outline, which has 64 vertices; the bytes of the path of an outline with so many vertices; of the longest
   path. */
#define VIKELODU_MOST_OUTLINE_WORDS 128
#define VIKELODU_PATH_BYTES(vertices) (9 * (size_t)(vertices) + 1)
#define VIKELODU_MOST_PATH_BYTES 577

/* The words of vikelodu_lay's output for so many pieces; for the most pieces, which are 200. */
#define VIKELODU_ENTRY_WORDS 4
#define VIKELODU_LAY_WORDS(pieces) (VIKELODU_ENTRY_WORDS * (size_t)(pieces))
#define VIKELODU_MOST_LAY_WORDS 800

/*
 * Makes a strip with nothing on it.
 *
 *   width, resolution   in units, 1 to 16,000 and 1 to 400
 *   columns             1 to 4,096
 *   gap                 in units, 0 to 400; 0 is no gap
 *   strip               VIKELODU_STRIP_WORDS(columns, records) words for some 1 to 16,000 records; what they hold is not looked
 *                       at
 *
 * Refused with 3, 16, 17, 21 or 4, ordinal 0. Granted, the answer is 0. Board 1 m wide in 400 columns of 5 mm, with 3 mm between
 * pieces, which are 24 units:
 *
 *   uint64_t answer = vikelodu_open(8000, 40, 400, 3 * 8, strip, strip_words);
 *
 * The strip is then: width, resolution, columns, the number of the first free record, gap; for each column the number of its first
 * record; and the records from 1 on, each of four words: column, low, high, and the number of the next record, 0 after the last.
 * The records of a column are chained in rising order and do not touch. A free record has `columns` for its column, and low and
 * high 0. A program may read this; which record holds which run is not promised. The runs are those of the pieces' cells, with the
 * gap. vikelodu_place, vikelodu_ask and vikelodu_commit take the gap from the strip.
 */
uint64_t vikelodu_open(uint16_t width, uint16_t resolution, uint16_t columns, uint16_t gap, uint16_t *strip, size_t strip_words);

/*
 * Lays one piece: finds the best free position in the allowed turns and enters the piece's cells there.
 *
 *   strip     as vikelodu_open or the last vikelodu_place or vikelodu_commit left it, with all of its words
 *   outline   3 to 64 vertices as words x, y, x, y and so on, in units, 0 to 16,000, closed from the last vertex to the first;
 *             it is not changed
 *   mask      the allowed turns, 1 to 15: bit t (1, 2, 4, 8) allows turn t
 *   work      at least three words for each run of the allowed turn that has most; what they hold is not looked at, and all
 *             words are 0 after the call
 *
 * Turn t is t quarter turns counter-clockwise, moved so that the least x and the least y are 0.
 *
 * Refused with 5, ordinal 0, or with 7 to 14, ordinal 1. Granted, the answer has the turn, the column and the height: the turned
 * outline lies column * resolution units to the right and height units up. With its greatest x as w and its greatest y as h, the
 * position's right edge is column * resolution + w and its top height + h. The best of the free positions is the one with the least
 * right edge; among equal ones that with the least top, and then that in the least turn. In each turn it is the least column, and
 * there the least height.
 *
 * The tries say how much looking was done, which is the cost of a resolution. Each allowed turn is walked column by column, as far as
 * the outline is on the strip, up to its first free position, also where another turn wins. In each column height 0 is tried first.
 * Where the piece clashes, its first run that does counts, by column and then low, with the lowest run on the strip that it meets; the
 * next height is that run's high less the low of the piece's run. A height at which the outline is past the strip's top, even height 0,
 * is no try and ends its column. The heights tried in all allowed turns are the tries, where the call is granted and where it is
 * refused with 13 or 14; where it is refused with another number they are 0.
 *
 *   vikelodu_tried laid = vikelodu_place(strip, strip_words, outline, outline_words, mask, work, work_words);
 *   if (vikelodu_number(laid.answer) == VIKELODU_GRANTED)
 *       printf("column %d, after %lu tries\n", vikelodu_column(laid.answer), (unsigned long)laid.tries);
 *
 * They are at most the pairs of a turn and a column in which a height was tried, times 1 + p * q, where p is the runs of the allowed
 * turn that has most, as for the work buffer, and q the runs on the strip before the call.
 *
 * Where the size of the work buffer is not known, lend what can be spared; 9,000 words are enough for 3,000 runs. On a strip with no
 * gap a piece has no more than 32 runs in each unit of its width; with a gap it has runs in the columns that the gap reaches, too.
 */
vikelodu_tried vikelodu_place(uint16_t *strip, size_t strip_words, const uint16_t *outline, size_t outline_words, uint16_t mask,
                              uint16_t *work, size_t work_words);

/*
 * Looks where vikelodu_place would lay a piece, at the free position with the least right edge, then lowest, then in the least turn, and
 * lays nothing.
 *
 *   strip                 as in vikelodu_place; no word of it is changed
 *   outline, mask, work   as in vikelodu_place; all words of work are 0 after the call
 *
 * The answer is that of vikelodu_place with the same arguments: refused with 5, ordinal 0, or with 7 to 14, ordinal 1; granted, it
 * has the turn, the column and the height. So are the tries. The spot in millimetres, with the strip's resolution:
 *
 *   uint64_t spot = vikelodu_ask(strip, strip_words, outline, outline_words, mask, work, work_words).answer;
 *   if (vikelodu_number(spot) == VIKELODU_GRANTED)
 *       printf("%.3f mm to the right, %.3f mm up\n", vikelodu_column(spot) * resolution / 8.0, vikelodu_height(spot) / 8.0);
 */
vikelodu_tried vikelodu_ask(const uint16_t *strip, size_t strip_words, const uint16_t *outline, size_t outline_words, uint16_t mask,
                            uint16_t *work, size_t work_words);

/*
 * Lays one piece at a given position, if that is on the strip and free. It need not be the best one.
 *
 *   strip, outline   as in vikelodu_place
 *   turn             0 to 3; this turn alone is allowed
 *   column, height   any; the turned outline lies column * resolution units to the right and height units up
 *   work             at least three words for each run of the outline in this turn; all words are 0 after the call
 *
 * Refused with 5, ordinal 0; with 7 to 12, ordinal 1, asked of the turn alone (9 where the turn is above 3); with 18, ordinal 0; or
 * with 14, ordinal 1. Never with 13. Granted, the answer is 0. Nothing is looked for, so there are no tries.
 *
 *   uint64_t answer = vikelodu_commit(strip, strip_words, outline, outline_words, vikelodu_turn(spot), vikelodu_column(spot),
 *                                     vikelodu_height(spot), work, work_words);
 *   if (vikelodu_number(answer) == VIKELODU_NOT_FREE)
 *       printf("the spot has been taken\n");
 *
 * At the spot that vikelodu_ask has answered, with the same outline and nothing written to the strip between the two calls, it is
 * granted; only a work buffer shorter than that of vikelodu_ask may get 12. The piece then lies where vikelodu_place would have laid
 * it, and the strip has the same runs. Where a piece was laid between them the spot may get 18, or 14 for want of records. On a strip
 * that only these calls have written since it was opened, no point is ever inside two pieces, and two points inside different pieces
 * differ by at least the gap in x or in y.
 */
uint64_t vikelodu_commit(uint16_t *strip, size_t strip_words, const uint16_t *outline, size_t outline_words, uint16_t turn,
                         uint16_t column, uint16_t height, uint16_t *work, size_t work_words);

/*
 * Gives the cells that an outline covers in a turn, as runs.
 *
 *   outline      as in vikelodu_place
 *   turn         0 to 3
 *   resolution   1 to 400
 *   gap          in units, 0 to 400, for which the cells reach further to the right and up; 0 for those that hold a point inside
 *   output       three words for each run: column, low, high, by column and then low; words after the last run stay
 *
 * There is no strip here, so nothing is cut off: columns and rows go up to 16,400.
 *
 * Refused with 16 or 21, ordinal 0, or with 7 to 12, ordinal 1. Granted, the answer has the number of runs.
 */
uint64_t vikelodu_cover(const uint16_t *outline, size_t outline_words, uint16_t turn, uint16_t resolution, uint16_t gap,
                        uint16_t *output, size_t output_words);

/*
 * Reads a job sheet: width, resolution and columns in the answer, and its cut list as words.
 *
 *   sheet    any number of bytes, a sheet as below or not; they are not changed
 *   output   at least the words of the list, as below; what they hold is not looked at, and words after the list stay.
 *            VIKELODU_MOST_LIST_WORDS are always enough
 *
 * A sheet is numbers of 16 bits, low byte first, after the bytes 4E 4A 01 00 (hexadecimal):
 *
 *   from byte 4    width, resolution, columns, the number of the first piece record, V, P
 *   from byte 16   V vertex records: x, y, next
 *   after them     P piece records: the number of the first vertex record, mask, next
 *
 * A record has 6 bytes. Vertex records and piece records are each numbered from 1 and chained by next, 0 after the last. Where
 * the first piece is 0 there are no pieces. Pieces may share vertex records, and records in no chain are not looked at.
 *
 * A list is the number of pieces, 0 to 200, and then for each piece, in the order of the chain: the number of its vertices, its
 * mask, and its outline as words x, y, x, y and so on. Outline and mask are as vikelodu_place takes them.
 *
 * Refused with 1, 2, 3, 16, 17, 6 or 15, ordinal 0, or with 7 to 11 and the ordinal of the piece in the chain, from 1 on.
 * Granted, the answer has the width, the resolution and the columns, each in the limits of vikelodu_open.
 */
uint64_t vikelodu_read(const uint8_t *sheet, size_t sheet_bytes, uint16_t *output, size_t output_words);

/*
 * Writes a cut list as a job sheet. What is written reads back as that list.
 *
 *   width, resolution   in units, 1 to 16,000 and 1 to 400
 *   columns             1 to 4,096
 *   list                a list as in vikelodu_read; words after its last piece are not looked at, and nothing is changed
 *   output              at least the bytes of the sheet; what they hold is not looked at, and bytes after the sheet stay.
 *                       VIKELODU_MOST_SHEET_BYTES are always enough
 *
 * The sheet has VIKELODU_SHEET_BYTES(vertices, pieces) bytes. Its records are numbered 1, 2, 3 in the order of the list, each
 * piece with vertex records of its own. So a list that was read from a sheet with shared records may get 2.
 *
 * Refused with 3, 16, 17 or 6, ordinal 0; with 7 to 11 and the ordinal of the piece in the list, from 1 on; then with 2 or 15,
 * ordinal 0. Granted, the answer has the size of the sheet in bytes.
 */
uint64_t vikelodu_write(uint16_t width, uint16_t resolution, uint16_t columns, const uint16_t *list, size_t list_words,
                        uint8_t *output, size_t output_bytes);

/*
 * Lays a job: opens the strip with the sheet's width, resolution and columns and the gap, and places the pieces of the sheet on it in
 * the order of their chain, going on after a piece that is refused.
 *
 *   sheet    any number of bytes, a sheet as in vikelodu_read or not; they are not changed
 *   gap      as in vikelodu_open; a sheet has no place for one
 *   strip    VIKELODU_STRIP_WORDS(columns, records) words, with the columns that the sheet gives and some 1 to 16,000 records;
 *            what they hold is not looked at
 *   output   at least VIKELODU_LAY_WORDS(pieces) words; what they hold is not looked at, and words after the last piece's stay.
 *            VIKELODU_MOST_LAY_WORDS are always enough
 *   work     as in vikelodu_place, of any number of words, 0 too: a piece for which it is too short is refused with 12
 *
 * Refused with 1, 2, 3, 16, 17, 21, 4 or 6, ordinal 0; with 7 to 11 and the ordinal of the piece in the chain, from 1 on; then with
 * 15, ordinal 0. A refused job lays nothing, also where one piece alone is at fault: the strip is not opened, it and the output
 * keep their words, and all words of the work buffer are 0. The columns of a sheet are in its bytes 8 and 9, and vikelodu_read
 * answers them.
 *
 * Granted, the answer has the number of pieces placed and the used length: the greatest right edge of the placed pieces, as in
 * vikelodu_place, without the gap, and 0 if none is placed. It is in units, at most columns * resolution, and has 32 bits, as it may be
 * over 65,535. The board that the job takes, in millimetres:
 *
 *   if (vikelodu_number(answer) == VIKELODU_GRANTED)
 *       printf("%d pieces on %.3f mm of board\n", vikelodu_placed(answer), vikelodu_used_length(answer) / 8.0);
 *
 * The output has four words for each piece, in the order of the chain:
 *
 *   a piece that is placed    0, its turn, its column, its height, as vikelodu_place answers them
 *   a piece that is refused   12, 13 or 14, and three times 0
 *
 * The strip is well formed and has the runs that vikelodu_open and then vikelodu_place with each of the pieces would have made;
 * vikelodu_place and vikelodu_commit can lay more pieces on it. All words of the work buffer are 0. No tries are told: they are those
 * of vikelodu_place, which a program that wants them calls for each piece.
 */
uint64_t vikelodu_lay(const uint8_t *sheet, size_t sheet_bytes, uint16_t gap, uint16_t *strip, size_t strip_words, uint16_t *output,
                      size_t output_words, uint16_t *work, size_t work_words);

/*
 * Tells whether an outline goes twice along a stretch, as to the tip of a spur and back, or over a bridge.
 *
 *   outline   as in vikelodu_place
 *
 * What is promised of laid pieces is about their insides, and a stretch that is drawn twice need not bound one: it may lie over
 * another piece, and a knife that follows it cuts into that piece. Where an outline draws nothing twice, no point of it, in any
 * turn and wherever it is laid, lies in the interior of another piece that is laid.
 *
 * Refused with 7 or 8, ordinal 1. Granted, the answer has the numbers of the first two edges that share a stretch, or 0 and 0
 * where nothing is drawn twice. Edge 1 goes from the first vertex to the second, and the last edge back to the first vertex.
 *
 *   uint64_t answer = vikelodu_retrace(outline, words);
 *   if (vikelodu_number(answer) == VIKELODU_GRANTED && vikelodu_first_edge(answer) != 0)
 *       printf("edges %d and %d share a stretch\n", vikelodu_first_edge(answer), vikelodu_second_edge(answer));
 */
uint64_t vikelodu_retrace(const uint16_t *outline, size_t outline_words);

/*
 * Reads a path of a drawing program as an outline.
 *
 *   path     any number of bytes, a path as below or not; they are not changed
 *   output   at least the words of the outline; what they hold is not looked at, and words after the outline stay.
 *            VIKELODU_MOST_OUTLINE_WORDS are always enough
 *
 * A path is a list of steps, and nothing after them:
 *
 *   one move         the byte 1, then x and y
 *   2 to 63 lines    the byte 2, then x and y
 *   one close        the byte 3
 *
 * x and y are millimetres, each a float of 32 bits (IEEE 754 binary32) in four bytes, the low byte first. A coordinate is accepted
 * where it is a multiple of 0.125 from 0 to 2,000 mm, exactly: 12.5 is, 12.4 is not, and neither is a NaN or an infinity. Nothing is
 * rounded. Minus zero counts as 0.
 *
 * Refused with 19, then 20, then 15, ordinal 0. Granted, the answer has the number of words: the outline's x, y, x, y and so on in
 * units of 1/8 mm, as vikelodu_place takes them. The move is the first vertex. Whether the outline's edges cross (10) or it has
 * nothing inside (11) is not asked here, but by the calls that take the outline.
 *
 *   uint16_t outline[VIKELODU_MOST_OUTLINE_WORDS];
 *   uint64_t answer = vikelodu_read_path(path, path_bytes, outline, VIKELODU_MOST_OUTLINE_WORDS);
 *   if (vikelodu_number(answer) == VIKELODU_PATH_COORDINATE)
 *       printf("a coordinate is no multiple of 0.125 mm from 0 to 2000 mm\n");
 *   if (vikelodu_number(answer) == VIKELODU_GRANTED)
 *       laid = vikelodu_place(strip, strip_words, outline, vikelodu_words(answer), mask, work, work_words);
 */
uint64_t vikelodu_read_path(const uint8_t *path, size_t path_bytes, uint16_t *output, size_t output_words);

/*
 * Writes an outline as a path of a drawing program: a move to its first vertex, a line to each of the others, and the close. What is
 * written reads back as that outline, and minus zero is never written.
 *
 *   outline   as in vikelodu_place
 *   output    at least VIKELODU_PATH_BYTES(vertices) bytes; what they hold is not looked at, and bytes after the path stay.
 *             VIKELODU_MOST_PATH_BYTES are always enough
 *
 * Refused with 7 or 8, ordinal 1, then with 15, ordinal 0. Granted, the answer has the number of bytes.
 *
 *   uint8_t path[VIKELODU_MOST_PATH_BYTES];
 *   uint64_t answer = vikelodu_write_path(outline, outline_words, path, sizeof path);
 *   if (vikelodu_number(answer) == VIKELODU_GRANTED)
 *       fwrite(path, 1, vikelodu_size(answer), file);
 */
uint64_t vikelodu_write_path(const uint16_t *outline, size_t outline_words, uint8_t *output, size_t output_bytes);

/*
 * vikelodu_open, vikelodu_place, vikelodu_ask, vikelodu_commit and vikelodu_lay on buffers of bytes: the same answers and tries, and
 * the same words left in each buffer, as of the calls on words that have the buffers' words. A buffer may stand at any address, an odd
 * one too. Of a work buffer at most 1,536,000 words are used: 12 is asked of these, and all of its words are 0 after the call. With no
 * gap that many are always enough.
 *
 *   uint8_t strip[2 * VIKELODU_STRIP_WORDS(10, 6)];
 *   uint64_t answer = vikelodu_open_bytes(10, 2, 10, 0, strip, sizeof strip);
 *
 * Strip, outline and output go through copies on the stack; the sheet is read where it lies, and the work buffer is cleared and
 * otherwise not touched. The stack needed is 160 KB in vikelodu_open_bytes; 400 KB in vikelodu_place_bytes, vikelodu_ask_bytes and
 * vikelodu_commit_bytes and 430 KB in vikelodu_lay_bytes where the work buffer has at most 9,000 words, and 3.5 MB where it has
 * more.
 */
uint64_t vikelodu_open_bytes(uint16_t width, uint16_t resolution, uint16_t columns, uint16_t gap, uint8_t *strip,
                             size_t strip_bytes);
vikelodu_tried vikelodu_place_bytes(uint8_t *strip, size_t strip_bytes, const uint8_t *outline, size_t outline_bytes, uint16_t mask,
                                    uint8_t *work, size_t work_bytes);
vikelodu_tried vikelodu_ask_bytes(const uint8_t *strip, size_t strip_bytes, const uint8_t *outline, size_t outline_bytes,
                                  uint16_t mask, uint8_t *work, size_t work_bytes);
uint64_t vikelodu_commit_bytes(uint8_t *strip, size_t strip_bytes, const uint8_t *outline, size_t outline_bytes, uint16_t turn,
                               uint16_t column, uint16_t height, uint8_t *work, size_t work_bytes);
uint64_t vikelodu_lay_bytes(const uint8_t *sheet, size_t sheet_bytes, uint16_t gap, uint8_t *strip, size_t strip_bytes,
                            uint8_t *output, size_t output_bytes, uint8_t *work, size_t work_bytes);

/* What an answer says. The number is 0 where the call is granted. */
static inline uint16_t vikelodu_number(uint64_t answer) { return (uint16_t)answer; }

/* Of a refused call: the ordinal of the piece that is at fault or does not fit, else 0. It is the piece's place in the sheet's
   chain or in the list, and 1 where one outline is lent; 18, 19 and 20, where a position or a path is at fault, have 0. */
static inline uint16_t vikelodu_ordinal(uint64_t answer) { return (uint16_t)(answer >> 16); }

/* Of a granted vikelodu_place or vikelodu_ask. */
static inline uint16_t vikelodu_turn(uint64_t answer) { return (uint16_t)(answer >> 16); }
static inline uint16_t vikelodu_column(uint64_t answer) { return (uint16_t)(answer >> 32); }
static inline uint16_t vikelodu_height(uint64_t answer) { return (uint16_t)(answer >> 48); }

/* Of a granted vikelodu_cover. */
static inline uint32_t vikelodu_runs(uint64_t answer) { return (uint32_t)(answer >> 32); }

/* Of a granted vikelodu_read. */
static inline uint16_t vikelodu_width(uint64_t answer) { return (uint16_t)(answer >> 16); }
static inline uint16_t vikelodu_resolution(uint64_t answer) { return (uint16_t)(answer >> 32); }
static inline uint16_t vikelodu_columns(uint64_t answer) { return (uint16_t)(answer >> 48); }

/* Of a granted vikelodu_write or vikelodu_write_path: the bytes of the sheet or the path. */
static inline uint32_t vikelodu_size(uint64_t answer) { return (uint32_t)(answer >> 32); }

/* Of a granted vikelodu_read_path: the words of the outline. */
static inline uint32_t vikelodu_words(uint64_t answer) { return (uint32_t)(answer >> 32); }

/* Of a granted vikelodu_lay: the pieces placed, and the used length in units of 1/8 mm. */
static inline uint16_t vikelodu_placed(uint64_t answer) { return (uint16_t)(answer >> 16); }
static inline uint32_t vikelodu_used_length(uint64_t answer) { return (uint32_t)(answer >> 32); }

/* Before edition 7 vikelodu_used gave the used columns. A program that took a length for columns would cut wrong, so one that still
   has this name does not compile, and the message says what to write. */
#define vikelodu_used(answer) vikelodu_used_columns_are_gone_use_vikelodu_used_length

/* Of a granted vikelodu_retrace: the first two edges that share a stretch, 0 and 0 where there are none. */
static inline uint16_t vikelodu_first_edge(uint64_t answer) { return (uint16_t)(answer >> 16); }
static inline uint16_t vikelodu_second_edge(uint64_t answer) { return (uint16_t)(answer >> 32); }

#ifdef __cplusplus
}
#endif

#endif
