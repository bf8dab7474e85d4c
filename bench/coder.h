/* The coder over a table of marks, and the centre: for trees.c, whose marks are digits, and named.c, whose marks are digit and atom. Each file has its own copy, so that one
 * coder's cost does not hang on the other's. */
#ifndef CODER_H
#define CODER_H

#include "careful.h"
#include <string.h>

/* Whether the m vertices at x come before the n at y in dictionary order of their marks. The pairs looked at are added to `*looked`. */
static inline int smaller(const uint8_t *mark, const uint8_t *x, size_t m, const uint8_t *y, size_t n, unsigned *looked) {
    size_t least = m < n ? m : n, i = 0;
    while (i < least && mark[x[i]] == mark[y[i]])
        i++;
    *looked += (unsigned)(i + (i < least));
    return i < least ? mark[x[i]] < mark[y[i]] : m < n;
}

/* Writes what hangs at v to `at`, in the order of its code, and returns where it ends. The children's parts stand one behind the other, largest first: each new one
 * is compared with all of them, and moved before the first that is smaller. Of the marks it knows only the table. */
static uint8_t *subtree(const struct tree *t, const uint8_t *mark, unsigned v, unsigned parent, uint8_t *at, unsigned *looked) {
    uint8_t *part[WIDTH + 1];
    unsigned k = 0, pairs = 0;
    *at++ = (uint8_t)v;
    part[0] = at;
    for (unsigned i = 0; i < t->degree[v]; i++) {
        unsigned w = t->near[v][i], place = k;
        if (w == parent)
            continue;
        uint8_t *end = at + 1;
        if (t->degree[w] == 1)
            *at = (uint8_t)w;
        else
            end = subtree(t, mark, w, v, at, looked);
        size_t len = (size_t)(end - at);
        for (unsigned j = k; j-- > 0;)
            if (smaller(mark, part[j], (size_t)(part[j + 1] - part[j]), at, len, &pairs))
                place = j;
        if (place < k) {
            uint8_t held[SIZE];
            memcpy(held, at, len);
            memmove(part[place] + len, part[place], (size_t)(at - part[place]));
            memcpy(part[place], held, len);
            for (unsigned j = k; j > place; j--)
                part[j] = part[j - 1] + len;
        }
        part[++k] = at = end;
    }
    *looked += pairs;
    return at;
}

/* Breadth first from s to the vertex found last, which is a farthest one. `up` gets the vertex that each was found from, s for s itself; in a tree all
 * neighbours but that one are new. */
static unsigned farthest(const struct tree *t, unsigned s, uint8_t *up) {
    uint8_t queue[SIZE];
    unsigned from = 0, to = 1;
    queue[0] = up[s] = (uint8_t)s;
    while (to < t->n) {
        unsigned v = queue[from++], parent = up[v];
        for (unsigned i = 0; i < t->degree[v]; i++) {
            unsigned w = t->near[v][i];
            if (w != parent) {
                up[w] = (uint8_t)v;
                queue[to++] = (uint8_t)w;
            }
        }
    }
    return queue[to - 1];
}

/* The middle of a longest path, one vertex twice or two. A vertex that is farthest from any one ends such a path, and a vertex farthest from that is its other end;
 * `fast` goes back along it two steps at a time, and `slow` one. */
static void centre(const struct tree *t, unsigned *first, unsigned *second) {
    uint8_t up[SIZE + 1];
    unsigned fast = farthest(t, farthest(t, 1, up), up), slow = fast;
    while (up[fast] != fast) {
        fast = up[fast];
        if (up[fast] == fast) {
            *first = slow;
            *second = up[slow];
            return;
        }
        fast = up[fast];
        slow = up[slow];
    }
    *first = *second = slow;
}

#endif
