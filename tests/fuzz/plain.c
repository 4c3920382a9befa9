/* The questions are answered in other ways than the engine answers them: 10 by the signs at the ends of what two edges share, 11
   by counting the edges that lie on one line. */
#include "plain.h"

#include <string.h>

struct edge {
    long long xl, yl, xr, yr;
};

static unsigned number_at(const uint8_t *bytes, size_t place) { return bytes[place] + 256u * bytes[place + 1]; }

static uint64_t refused(uint64_t number, uint64_t ordinal) { return number | ordinal << 16; }

/* ----------------------------------------------------------- questions 10, 11 */

/* The edges from left to right, in turn 0 or 1; shifting by whole units changes no answer. */
static void edges_of(const uint16_t *outline, size_t vertices, int turn, struct edge *edges) {
    for (size_t i = 0; i < vertices; i++) {
        size_t j = (i + 1) % vertices;
        long long ax = outline[2 * i], ay = outline[2 * i + 1], bx = outline[2 * j], by = outline[2 * j + 1];
        struct edge e = turn == 0 ? (struct edge){ax, ay, bx, by} : (struct edge){-ay, ax, -by, bx};
        edges[i] = e.xl <= e.xr ? e : (struct edge){e.xr, e.yr, e.xl, e.yl};
    }
}

/* How much higher e is than f at x, times both widths. */
static long long above(const struct edge *e, const struct edge *f, long long x) {
    long long ew = e->xr - e->xl, fw = f->xr - f->xl;
    return (e->yl * ew + (e->yr - e->yl) * (x - e->xl)) * fw - (f->yl * fw + (f->yr - f->yl) * (x - f->xl)) * ew;
}

/* The difference is linear: it changes sign between two whole x if it has opposite signs at the ends and is 0 at no whole x. */
static int change_order(const struct edge *e, const struct edge *f) {
    long long from = e->xl > f->xl ? e->xl : f->xl, to = e->xr < f->xr ? e->xr : f->xr;
    if (from >= to) {
        return 0;
    }
    long long first = above(e, f, from), last = above(e, f, to);
    if (!((first < 0 && last > 0) || (first > 0 && last < 0))) {
        return 0;
    }
    return first % ((last - first) / (to - from)) != 0;
}

/* A half turn mirrors the columns, so turns 2 and 3 answer as 0 and 1 do. */
static int crosses(const uint16_t *outline, size_t vertices, int turn) {
    struct edge edges[MOST_VERTICES];
    edges_of(outline, vertices, turn, edges);
    for (size_t i = 0; i < vertices; i++) {
        for (size_t j = 0; j < i; j++) {
            if (change_order(&edges[i], &edges[j])) {
                return 1;
            }
        }
    }
    return 0;
}

/* Whether both span the unit column and lie on one line. */
static int same_there(const struct edge *e, const struct edge *f, long long column) {
    return f->xl <= column && column < f->xr && above(e, f, column) == 0 && above(e, f, column + 1) == 0;
}

/* Inside and outside change at a line on which an odd number of edges lie, and at no other. The edges that span a column change
   at the x of a vertex only. */
static int has_inside(const uint16_t *outline, size_t vertices) {
    struct edge edges[MOST_VERTICES];
    edges_of(outline, vertices, 0, edges);
    for (size_t vertex = 0; vertex < vertices; vertex++) {
        long long column = outline[2 * vertex];
        for (size_t i = 0; i < vertices; i++) {
            size_t on_line = 0;
            if (!same_there(&edges[i], &edges[i], column)) {
                continue;
            }
            for (size_t j = 0; j < vertices; j++) {
                on_line += (size_t)same_there(&edges[i], &edges[j], column);
            }
            if (on_line % 2 == 1) {
                return 1;
            }
        }
    }
    return 0;
}

int plain_piece(const uint16_t *outline, size_t vertices, unsigned mask) {
    for (size_t i = 0; i < 2 * vertices; i++) {
        if (outline[i] > 16000) {
            return 8;
        }
    }
    if (mask < 1 || mask > 15) {
        return 9;
    }
    if (((mask & 5) && crosses(outline, vertices, 0)) || ((mask & 10) && crosses(outline, vertices, 1))) {
        return 10;
    }
    return has_inside(outline, vertices) ? 0 : 11;
}

/* ---------------------------------------------------------------------- read */

struct sheet {
    const uint8_t *bytes;
    unsigned v, p;
};

static const uint8_t *vertex(const struct sheet *of, unsigned number) { return of->bytes + 16 + 6 * (number - 1); }

static const uint8_t *piece(const struct sheet *of, unsigned number) { return of->bytes + 16 + 6 * (of->v + number - 1); }

/* Question 6: the pieces of the chain, or -1. */
static int count_pieces(const struct sheet *of) {
    int count = 0;
    for (unsigned at = number_at(of->bytes, 10); at != 0; at = number_at(piece(of, at), 4)) {
        if (at > of->p || count == MOST_PIECES) {
            return -1;
        }
        count++;
    }
    return count;
}

/* The vertices of a chain as words, or 0 where 7 gets "no". */
static size_t gather(const struct sheet *of, unsigned first, uint16_t *words) {
    size_t count = 0;
    for (unsigned at = first; at != 0; at = number_at(vertex(of, at), 4)) {
        if (at > of->v || count == MOST_VERTICES) {
            return 0;
        }
        words[2 * count] = (uint16_t)number_at(vertex(of, at), 0);
        words[2 * count + 1] = (uint16_t)number_at(vertex(of, at), 2);
        count++;
    }
    return count < 3 ? 0 : count;
}

/* Questions 7 to 11, and the list. */
static uint64_t read_pieces(const struct sheet *of, uint16_t *list, size_t *words) {
    size_t end = 1;
    uint64_t ordinal = 0;
    for (unsigned at = number_at(of->bytes, 10); at != 0; at = number_at(piece(of, at), 4)) {
        ordinal++;
        unsigned mask = number_at(piece(of, at), 2);
        size_t count = gather(of, number_at(piece(of, at), 0), list + end + 2);
        int number = count == 0 ? 7 : plain_piece(list + end + 2, count, mask);
        if (number != 0) {
            return refused((uint64_t)number, ordinal);
        }
        list[end] = (uint16_t)count;
        list[end + 1] = (uint16_t)mask;
        end += 2 + 2 * count;
    }
    list[0] = (uint16_t)ordinal;
    *words = end;
    return 0;
}

static int in_limits(unsigned number, unsigned most) { return number >= 1 && number <= most; }

uint64_t plain_read(const uint8_t *sheet, size_t bytes, uint16_t *list, size_t *words) {
    static const uint8_t mark[4] = {0x4E, 0x4A, 0x01, 0x00};
    if (bytes < 16 || memcmp(sheet, mark, sizeof mark) != 0) {
        return refused(1, 0);
    }
    struct sheet of = {sheet, number_at(sheet, 12), number_at(sheet, 14)};
    if (bytes != 16 + 6 * (size_t)(of.v + of.p) || bytes > MOST_SHEET) {
        return refused(2, 0);
    }
    unsigned width = number_at(sheet, 4), resolution = number_at(sheet, 6), columns = number_at(sheet, 8);
    if (!in_limits(width, 16000)) {
        return refused(3, 0);
    }
    if (!in_limits(resolution, 400)) {
        return refused(16, 0);
    }
    if (!in_limits(columns, 4096)) {
        return refused(17, 0);
    }
    if (count_pieces(&of) < 0) {
        return refused(6, 0);
    }
    uint64_t refusal = read_pieces(&of, list, words);
    return refusal != 0 ? refusal : (uint64_t)width << 16 | (uint64_t)resolution << 32 | (uint64_t)columns << 48;
}

/* --------------------------------------------------------------------- write */

static uint8_t *put(uint8_t *at, unsigned number) {
    at[0] = (uint8_t)number;
    at[1] = (uint8_t)(number >> 8);
    return at + 2;
}

static size_t vertices_in(const uint16_t *list) {
    size_t all = 0;
    const uint16_t *at = list + 1;
    for (unsigned i = 0; i < list[0]; i++) {
        all += at[0];
        at += 2 + 2 * at[0];
    }
    return all;
}

size_t plain_sheet(uint64_t figures, const uint16_t *list, uint8_t *sheet) {
    size_t vertices = vertices_in(list), size = 16 + 6 * (vertices + list[0]);
    if (size > MOST_SHEET) {
        return size;
    }
    unsigned pieces = list[0], number = 0;
    uint8_t *to = put(put(sheet, 0x4A4E), 1);
    to = put(put(put(to, (uint16_t)(figures >> 16)), (uint16_t)(figures >> 32)), (uint16_t)(figures >> 48));
    to = put(put(put(to, pieces > 0), (unsigned)vertices), pieces);
    uint8_t *piece_to = to + 6 * vertices;
    const uint16_t *at = list + 1;
    for (unsigned i = 1; i <= pieces; i++) {
        unsigned count = at[0];
        piece_to = put(put(put(piece_to, number + 1), at[1]), i < pieces ? i + 1 : 0);
        at += 2;
        for (unsigned j = 1; j <= count; j++) {
            number++;
            to = put(put(put(to, at[0]), at[1]), j < count ? number + 1 : 0);
            at += 2;
        }
    }
    return size;
}
