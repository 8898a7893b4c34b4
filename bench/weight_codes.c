/* Looks for codes of constant weight as unions of orbits of a permutation group.

       cc -O3 -march=native -o weight_codes weight_codes.c
       weight_codes N D W SECONDS SEED AT_LEAST [LENGTH]

   Permutation groups of the N places are taken by chance from those of a few forms: translations of one or two cyclic groups on copies of
   them, with or without multiplications, rotations of the copies, the projective line and binary spaces; with LENGTH only of cycles of that
   length. The orbits of words of weight W whose words are at distance D from each other are the vertices of a graph; sets of orbits that stand
   at that distance are looked for by a tabu search. Each time a code of more words than AT_LEAST and all before is found, one line with the
   group follows and then its words, a line each, and an empty line. Nothing here is proved, and nothing is trusted: the program checks what is
   handed in. */

#include <stdint.h>
#include <stdio.h>
#include <stdlib.h>
#include <string.h>
#include <time.h>

enum { MOST_PLACES = 30, MOST_ELEMENTS = 8192, MOST_VERTICES = 20000 };

typedef struct { uint8_t to[MOST_PLACES]; } Permutation;
typedef struct { uint32_t word; int size; } Orbit;

static int n, d, w, best, only;
static double until;
static uint64_t state;
static Permutation generators[8];
static int generator_count;
static Permutation elements[MOST_ELEMENTS];
static uint32_t image[MOST_ELEMENTS][4][128];
static int element_count;
static char told[400];
static uint8_t *seen;
static Orbit vertices[MOST_VERTICES];
static int vertex_count;
static uint8_t *conflict;
static int conflict_weight[MOST_VERTICES], tabu_until[MOST_VERTICES];
static uint8_t is_in[MOST_VERTICES];

static uint32_t next(void) {
    state ^= state << 13;
    state ^= state >> 7;
    state ^= state << 17;
    return (uint32_t)(state >> 20);
}

static int below(int bound) { return (int)(next() % (uint32_t)bound); }

static double now(void) {
    struct timespec t;
    clock_gettime(CLOCK_MONOTONIC, &t);
    return t.tv_sec + t.tv_nsec * 1e-9;
}

static Permutation identity(void) {
    Permutation p;
    for (int i = 0; i < MOST_PLACES; i++) p.to[i] = (uint8_t)i;
    return p;
}

static void add(Permutation p) { generators[generator_count++] = p; }

static void tell(const char *text, int a, int b) {
    size_t used = strlen(told);
    snprintf(told + used, sizeof told - used, text, a, b);
}

static int gcd(int a, int b) { return b ? gcd(b, a % b) : a; }

/* A unit modulo m that isn't 1, or 1 where there is none. */
static int unit(int m) {
    for (int turn = 0; turn < 20; turn++) {
        int t = 2 + below(m > 2 ? m - 2 : 1);
        if (t < m && gcd(t, m) == 1) return t;
    }
    return 1;
}

static int is_prime(int p) {
    for (int q = 2; q * q <= p; q++)
        if (p % q == 0) return 0;
    return p > 1;
}

/* Copies of the projective line over a field of p elements, p + 1 places each, with x + 1, s^2 x and -1/x. */
static int projective(void) {
    int p = 5 + below(23);
    if (!is_prime(p) || p + 1 > n) return 0;
    int copies = n / (p + 1), fixed = n % (p + 1);
    if (fixed > 4) return 0;
    Permutation shift = identity(), square = identity(), turn = identity();
    int s = 2 + below(p - 2), how = below(3);
    for (int c = 0; c < copies; c++)
        for (int x = 0; x <= p; x++) {
            int at = c * (p + 1) + x, base = c * (p + 1);
            shift.to[at] = (uint8_t)(x == p ? at : base + (x + 1) % p);
            square.to[at] = (uint8_t)(x == p ? at : base + s * s * x % p);
            int inverse = 0;
            for (int y = 1; y < p; y++)
                if (x != p && x * y % p == p - 1) inverse = y;
            turn.to[at] = (uint8_t)(base + (x == p ? 0 : x == 0 ? p : inverse));
        }
    add(shift);
    if (how != 1) add(square);
    if (how) add(turn);
    tell("the projective line of %d elements on %d copies", p, copies);
    tell(how == 0 ? ", without an inversion, %d fixed" : how == 1 ? ", an inversion and translations alone, %d fixed" : ", %d fixed", fixed, 0);
    return 1;
}

/* Copies of Z_a x Z_b, or of Z_a alone where b is 1, with translations, and by chance more. */
static int translations(void) {
    int a = only ? only : 2 + below(n - 1), b = only || below(3) ? 1 : 2 + below(5), size = a * b;
    if (size > n) return 0;
    int fixed = below(3) ? n % size : n % size + size * below(n / size), copies = (n - fixed) / size;
    if (copies < 1 || fixed > 6) return 0;
    Permutation one = identity(), other = identity();
    for (int c = 0; c < copies; c++)
        for (int x = 0; x < a; x++)
            for (int y = 0; y < b; y++) {
                int at = (c * a + x) * b + y;
                one.to[at] = (uint8_t)((c * a + (x + 1) % a) * b + y);
                other.to[at] = (uint8_t)((c * a + x) * b + (y + 1) % b);
            }
    add(one);
    if (b > 1) add(other);
    if (b > 1) tell("translations of Z_%d x Z_%d", a, b); else tell("%d cycles of length %d", copies, a);
    if (b > 1) tell(", on %d copies", copies, 0);
    if (fixed) tell(", %d fixed", fixed, 0);
    for (int turn = below(3); turn > 0; turn--) {
        int s = unit(a), t = b > 2 ? unit(b) : 1, step = copies > 1 && below(2);
        if (s == 1 && t == 1) continue;
        Permutation more = identity();
        for (int c = 0; c < copies; c++)
            for (int x = 0; x < a; x++)
                for (int y = 0; y < b; y++)
                    more.to[(c * a + x) * b + y] = (uint8_t)(((c + step) % copies * a + s * x % a) * b + t * y % b);
        add(more);
        tell(step ? ", a multiplication by %d with a rotation of the copies" : ", a multiplication by %d", s, 0);
    }
    if (copies > 1 && below(2)) {
        int moved = below(3) ? copies : 2 + below(copies - 1);
        Permutation more = identity();
        for (int c = 0; c < moved; c++)
            for (int x = 0; x < size; x++) more.to[c * size + x] = (uint8_t)((c + 1) % moved * size + x);
        add(more);
        tell(", a rotation of %d copies", moved, 0);
    }
    if (fixed > 1 && below(3) == 0) {
        Permutation more = identity();
        for (int i = 0; i < fixed; i++) more.to[n - fixed + i] = (uint8_t)(n - fixed + (i + 1) % fixed);
        for (int i = 0; i < size * copies; i++) more.to[i] = generators[generator_count - 1].to[i];
        generators[generator_count - 1] = more;
        tell(", the fixed ones turned with the last", 0, 0);
    }
    return 1;
}

/* Copies of a space of 2^k words, with its translations, and by chance a linear map and a rotation of the copies. */
static int affine(void) {
    int k = 2 + below(3), size = 1 << k, copies = n / size, fixed = n % size;
    if (copies < 1 || fixed > 4) return 0;
    int to[5] = {0};
    for (int tries = 0, full = 0; !full && tries < 100; tries++) {
        full = 1;
        for (int i = 0; i < k; i++) to[i] = 1 + below(size - 1);
        for (int x = 1; x < size; x++) {
            int sum = 0;
            for (int i = 0; i < k; i++) sum ^= x >> i & 1 ? to[i] : 0;
            if (sum == 0) full = 0;
        }
    }
    int linear = below(3), rotated = copies > 1 && below(2);
    Permutation map = identity(), rotation = identity();
    for (int i = 0; i < k; i++) {
        Permutation shift = identity();
        for (int at = 0; at < copies * size; at++) shift.to[at] = (uint8_t)(at ^ 1 << i);
        add(shift);
    }
    for (int at = 0; at < copies * size; at++) {
        int sum = 0;
        for (int i = 0; i < k; i++) sum ^= at >> i & 1 ? to[i] : 0;
        map.to[at] = (uint8_t)(at / size * size + sum);
        rotation.to[at] = (uint8_t)((at + size) % (copies * size));
    }
    if (linear) add(map);
    if (rotated) add(rotation);
    tell("translations of %d words on %d copies", size, copies);
    if (linear) tell(", a linear map", 0, 0);
    if (rotated) tell(", a rotation of the copies", 0, 0);
    if (fixed) tell(", %d fixed", fixed, 0);
    return 1;
}

/* One permutation with cycles of two lengths. */
static int two_lengths(void) {
    int a = 2 + below(n - 2), b = 2 + below(n - 2);
    if (a + b > n) return 0;
    int of_b = 1 + below(3);
    if (of_b * b >= n) return 0;
    int of_a = (n - of_b * b) / a, fixed = n - of_b * b - of_a * a;
    if (of_a < 1 || fixed > 3) return 0;
    Permutation p = identity();
    for (int at = 0; at < n - fixed; at++) {
        int length = at < of_a * a ? a : b, base = at < of_a * a ? at / a * a : of_a * a + (at - of_a * a) / b * b;
        p.to[at] = (uint8_t)(base + (at - base + 1) % length);
    }
    add(p);
    tell("%d cycles of length %d", of_a, a);
    tell(" and %d of length %d", of_b, b);
    if (fixed) tell(", %d fixed", fixed, 0);
    return 1;
}

/* All elements of the group that is generated, or 0 where they are too many. */
static int close_group(void) {
    element_count = 0;
    elements[element_count++] = identity();
    for (int at = 0; at < element_count; at++)
        for (int g = 0; g < generator_count; g++) {
            Permutation p = identity();
            for (int i = 0; i < n; i++) p.to[i] = generators[g].to[elements[at].to[i]];
            int known = 0;
            for (int e = 0; e < element_count && !known; e++) known = memcmp(&elements[e], &p, sizeof p) == 0;
            if (known) continue;
            if (element_count == 3000) return 0;
            elements[element_count++] = p;
        }
    for (int e = 0; e < element_count; e++)
        for (int part = 0; part < 4; part++)
            for (int bits = 0; bits < 128; bits++) {
                uint32_t word = 0;
                for (int i = 0; i < 7; i++)
                    if (bits >> i & 1 && part * 7 + i < n) word |= 1u << elements[e].to[part * 7 + i];
                image[e][part][bits] = word;
            }
    return 1;
}

static uint32_t moved(int e, uint32_t word) {
    return image[e][0][word & 127] | image[e][1][word >> 7 & 127] | image[e][2][word >> 14 & 127] | image[e][3][word >> 21 & 127];
}

/* The orbits of words of weight w with distance d; 0 where they are too many. */
static int find_orbits(void) {
    memset(seen, 0, (size_t)1 << (n > 3 ? n - 3 : 0));
    vertex_count = 0;
    long passed = 0;
    for (uint32_t word = (1u << w) - 1; word < 1u << n;) {
        if (!(seen[word >> 3] >> (word & 7) & 1)) {
            int same = 0, far = 1;
            for (int e = 0; e < element_count; e++) {
                uint32_t other = moved(e, word);
                seen[other >> 3] |= (uint8_t)(1 << (other & 7));
                if (other == word) same++;
                else if (__builtin_popcount(word ^ other) < d) far = 0;
            }
            if (far) {
                if (vertex_count == MOST_VERTICES) return 0;
                vertices[vertex_count++] = (Orbit){word, element_count / same};
            }
            if ((++passed & 1023) == 0 && now() > until) return 0;
        }
        uint32_t low = word & -word, high = word + low;
        word = high | ((word ^ high) >> 2) / low;
    }
    return vertex_count > 0;
}

static int find_conflicts(void) {
    for (int a = 0; a < vertex_count; a++) {
        if ((a & 63) == 0 && now() > until) return 0;
        conflict[(size_t)a * vertex_count + a] = 0;
        static uint32_t words[MOST_ELEMENTS];
        int count = 0;
        for (int e = 0; e < element_count; e++) {
            uint32_t word = moved(e, vertices[a].word);
            if (vertices[a].size == element_count) words[count++] = word;
            else {
                int known = 0;
                for (int i = 0; i < count && !known; i++) known = words[i] == word;
                if (!known) words[count++] = word;
            }
        }
        for (int b = a + 1; b < vertex_count; b++) {
            int near = 0;
            for (int i = 0; i < count && !near; i++) near = __builtin_popcount(words[i] ^ vertices[b].word) < d;
            conflict[(size_t)a * vertex_count + b] = conflict[(size_t)b * vertex_count + a] = (uint8_t)near;
        }
    }
    return 1;
}

static void print_code(int size) {
    printf("%d %s\n", size, told);
    for (int v = 0; v < vertex_count; v++)
        if (is_in[v]) {
            for (int e = 0; e < element_count; e++) {
                uint32_t word = moved(e, vertices[v].word);
                int first = 1;
                for (int f = 0; f < e && first; f++) first = moved(f, vertices[v].word) != word;
                if (!first) continue;
                for (int i = 0; i < n; i++) putchar(word >> i & 1 ? '1' : '0');
                putchar('\n');
            }
        }
    putchar('\n');
    fflush(stdout);
}

static void change(int v, int by) {
    const uint8_t *row = conflict + (size_t)v * vertex_count;
    for (int x = 0; x < vertex_count; x++) conflict_weight[x] += row[x] * by;
}

static void search(double stop) {
    memset(conflict_weight, 0, sizeof conflict_weight);
    memset(tabu_until, 0, sizeof tabu_until);
    memset(is_in, 0, sizeof is_in);
    int size = 0, top = 0, at_top = 0;
    for (int turn = 1;; turn++) {
        if ((turn & 31) == 0 && now() > stop) return;
        int chosen = -1, gain = -1000000, ties = 0;
        for (int v = 0; v < vertex_count; v++) {
            if (is_in[v]) continue;
            int more = vertices[v].size - conflict_weight[v];
            if (more < gain || (tabu_until[v] > turn && size + more <= top)) continue;
            if (more > gain) { gain = more; ties = 0; chosen = v; }
            else if (below(++ties + 1) == 0) chosen = v;
        }
        if (chosen < 0) continue;
        const uint8_t *row = conflict + (size_t)chosen * vertex_count;
        for (int x = 0; x < vertex_count; x++)
            if (is_in[x] && row[x]) {
                is_in[x] = 0;
                size -= vertices[x].size;
                change(x, -vertices[x].size);
                tabu_until[x] = turn + 7 + below(10);
            }
        is_in[chosen] = 1;
        size += vertices[chosen].size;
        change(chosen, vertices[chosen].size);
        if (size > top) { top = size; at_top = turn; }
        if (size > best) { best = size; print_code(size); }
        if (turn - at_top > 20000) return;
    }
}

int main(int count, char **words) {
    if (count != 7 && count != 8) return 2;
    n = atoi(words[1]), d = atoi(words[2]), w = atoi(words[3]);
    double seconds = atof(words[4]);
    state = 88172645463325252ull + 7919 * strtoull(words[5], 0, 10);
    best = atoi(words[6]);
    only = count == 8 ? atoi(words[7]) : 0;
    if (n < 4 || n > MOST_PLACES || w < 1 || w > n / 2 || only < 0 || only == 1 || only > n) return 2;
    for (int i = 0; i < 20; i++) next();
    until = now() + seconds;
    seen = malloc((size_t)1 << (n > 3 ? n - 3 : 0));
    conflict = malloc((size_t)MOST_VERTICES * MOST_VERTICES);
    if (!seen || !conflict) return 1; // What isn't written of the second takes no memory.
    while (now() < until) {
        generator_count = 0;
        told[0] = 0;
        int kind = only ? 3 : below(9);
        if (!(kind == 0 ? projective() : kind == 1 ? two_lengths() : kind == 2 ? affine() : translations())) continue;
        if (!close_group() || !find_orbits() || !find_conflicts()) continue;
        double stop = now() + seconds / 12 + 0.05;
        search(stop < until ? stop : until);
    }
    return 0;
}
