/* The same task as a straightforward C program on bit masks, with no proof: for comparison only. */
#include "plain.h"

#include <string.h>

typedef struct {
    int n;
    uint64_t row[64], near[64], placed, doubt;
} Rig;

static uint64_t one(int i) { return (uint64_t)1 << i; }
static int lowest(uint64_t m) { return __builtin_ctzll(m); }
static int highest(uint64_t m) { return 63 - __builtin_clzll(m); }
static uint64_t far_star(const Rig *g, int v, const uint64_t *near) { return one(v) | (g->row[v] & ~near[v]); }

/* The cluster of r, and the order in which it is walked, with parents. */
static uint64_t walk(const Rig *g, int r, int *order, int *parent, int *length) {
    uint64_t met = one(r);
    int n = 1;
    order[0] = r;
    for (int k = 0; k < n; k++) {
        int u = order[k];
        for (uint64_t fresh = g->row[u] & ~met; fresh != 0; fresh &= fresh - 1) {
            int v = lowest(fresh);
            met |= one(v);
            parent[v] = u;
            order[n++] = v;
        }
    }
    *length = n;
    return met;
}

static int has_star(const Rig *g, const uint64_t *near, int w, uint64_t a) { return a == near[w] || a == far_star(g, w, near); }

static int star_agreed(const Rig *g, const uint64_t *near, int v, uint64_t a) {
    int u = lowest(a);
    if (u != v) return has_star(g, near, u, a);
    for (uint64_t m = a; m != 0; m &= m - 1)
        if (!has_star(g, near, lowest(m), a)) return 0;
    return 1;
}

static int clique(const Rig *g, uint64_t a) {
    for (uint64_t m = a; m != 0; m &= m - 1) {
        int v = lowest(m);
        if ((a & ~one(v) & ~g->row[v]) != 0) return 0;
    }
    return 1;
}

static int attempt(const Rig *g, int r, uint64_t first, const int *order, const int *parent, int length, uint64_t *near) {
    if (!clique(g, first)) return 0;
    near[r] = first;
    for (int k = 1; k < length; k++) {
        int v = order[k], p = parent[v];
        near[v] = (near[p] & one(v)) ? near[p] : far_star(g, p, near);
    }
    for (int k = 0; k < length; k++) {
        int v = order[k];
        if (!(near[v] & one(v)) || (near[v] & ~one(v) & ~g->row[v])) return 0;
        if (!star_agreed(g, near, v, near[v]) || !star_agreed(g, near, v, far_star(g, v, near))) return 0;
    }
    return 1;
}

static int settle(Rig *g, int r) {
    int order[64], parent[64], length, found = 0;
    uint64_t scratch[64], cluster = walk(g, r, order, parent, &length);
    g->placed |= cluster;
    if (g->row[r] == 0) {
        g->near[r] = one(r);
        return 1;
    }
    int s = lowest(g->row[r]);
    uint64_t between = g->row[r] & g->row[s], all = one(r) | one(s) | between;
    if (attempt(g, r, all, order, parent, length, g->near)) found = 1;
    for (uint64_t m = between; m != 0;) {
        int x = highest(m);
        m &= ~one(x);
        if (g->row[x] & between) continue;
        if (!attempt(g, r, all & ~one(x), order, parent, length, found ? scratch : g->near)) continue;
        if (found) {
            g->doubt |= cluster;
            break;
        }
        found = 1;
    }
    return found;
}

static int push(uint8_t *out, uint64_t *begun, uint64_t star, int number) {
    for (uint64_t m = star; m != 0; m &= m - 1) {
        int v = lowest(m);
        out[3 * v + ((*begun >> v) & 1)] = (uint8_t)number;
        *begun |= one(v);
    }
    return number + 1;
}

static int second(uint64_t a) {
    a &= a - 1;
    return a == 0 ? 64 : lowest(a);
}

static int number(const Rig *g, uint8_t *out) {
    uint64_t begun = 0;
    int next = 0;
    for (int v = 0; v < g->n; v++) {
        uint64_t a = g->near[v], b = far_star(g, v, g->near);
        if (second(b) < second(a)) {
            uint64_t c = a;
            a = b;
            b = c;
        }
        if (lowest(a) == v) next = push(out, &begun, a, next);
        if (lowest(b) == v) next = push(out, &begun, b, next);
        out[3 * v + 2] = (g->doubt >> v) & 1;
    }
    return next;
}

uint64_t plain_place_square(uint64_t n, const uint8_t *square, size_t square_len, uint8_t *out, size_t out_len) {
    Rig g;
    if (n > 64) return 6;
    if (square_len != n * n) return 7;
    for (uint64_t i = 0; i < n; i++)
        for (uint64_t j = 0; j < n; j++) {
            uint8_t b = square[i * n + j];
            if (b > 1 || (i == j && b != 0) || b != square[j * n + i]) return 8 + 256 * (i * n + j);
        }
    g.n = (int)n;
    g.placed = g.doubt = 0;
    for (uint64_t i = 0; i < n; i++) {
        g.row[i] = 0;
        for (uint64_t j = 0; j < n; j++) g.row[i] |= (uint64_t)square[i * n + j] << j;
    }
    for (int r = 0; r < g.n; r++)
        if (!(g.placed & one(r)) && !settle(&g, r)) return 18 + 256 * (uint64_t)r;
    if (out_len < 3 * n) return 19 + 256 * 3 * n;
    return 256 * (uint64_t)number(&g, out);
}
