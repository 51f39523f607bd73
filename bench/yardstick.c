/* The yardstick: document 01's printing program in plain C, with 02's kinds W and G, its trains, its fill books and its eighth field. A book on standard input, the own and
   the common fill book as files that its arguments name, the book's lines on standard output. The book is read once; load sets are walked as two tables of half sums with carried sums, all checks of a combination
   at once, and a quotient is only worked out where the figure gets worse. What it takes from the C library is declared
   here, so that the kit's compiler, which has no headers, compiles it. */
typedef long i64;
typedef unsigned long u64;
typedef int i32;
typedef unsigned u32;
typedef unsigned char u8;
typedef unsigned __int128 u128;
void *memcpy(void *, const void *, u64);
void *memset(void *, int, u64);
int memcmp(const void *, const void *, u64);
u64 strlen(const char *);
i64 read(int, void *, u64);
i64 write(int, const void *, u64);
int open(const char *, int, ...);
int close(int);
#define INLINE static inline __attribute__((always_inline))
#define COLD static __attribute__((noinline, cold))

enum { MAX_BOOK = 65536, MAX_JOBS = 64, MAX_LOADS = 16, MAX_OPTIONAL = 12 };
enum { KB, KS, KC, KE, KDL, KEP, KLL, KLF, KCF, KWC, KBU, KTM, KEX, KWL, KSF, KW, KG, NO_KIND };

/* ---- RFC 4180 rows */
enum { TEXT, COMMA, CR, LF, QUOTE, BAD };
static u8 class_of[256];
typedef struct { u32 start, end; } Field;

static void make_classes(void) {
    for (int i = 0; i < 256; i++) class_of[i] = i >= 0x20 && i <= 0x7E ? TEXT : BAD;
    class_of[','] = COMMA; class_of['"'] = QUOTE; class_of['\r'] = CR; class_of['\n'] = LF;
}

typedef struct { const u8 *b; u32 len, pos; int done; } Rows;

/* Number of fields of the next row, 0 if there is none, -1 if the bytes are not RFC 4180. */
static int next_row(Rows *r, Field *f) {
    if (r->done) return 0;
    const u8 *b = r->b;
    u32 len = r->len, p = r->pos;
    int n = 0;
    for (;;) {
        Field g;
        if (p < len && b[p] == '"') {
            p++;
            g.start = p;
            for (;;) {
                if (p >= len) return -1;
                u8 c = class_of[b[p]];
                if (c == QUOTE) {
                    if (p + 1 < len && b[p + 1] == '"') { p += 2; continue; }
                    break;
                }
                if (c == BAD) return -1;
                p++;
            }
            g.end = p;
            p++;
        } else {
            g.start = p;
            while (p < len && class_of[b[p]] == TEXT) p++;
            g.end = p;
        }
        if (n < 10) f[n] = g;
        n++;
        if (p == len) { r->done = 1; r->pos = p; return n; }
        u8 c = class_of[b[p]];
        if (c == COMMA) p++;
        else if (c == CR && p + 1 < len && b[p + 1] == '\n') {
            p += 2; r->pos = p; r->done = p == len;
            return n;
        } else return -1;
    }
}

/* ---- the job book */
typedef struct { u8 bytes[24]; u8 member_len, job_len; } Key;
typedef struct { int kind; i32 n[6]; } Load;
typedef struct {
    Key key;
    i32 base[5], scour[6], clear[5];
    int has_scour, has_clear, count, out_of_range;
    Load loads[MAX_LOADS];
} Job;
typedef struct { Key key; int kind; i32 n[6]; int in_range; } Row;

static const i32 ranges[7][6][2] = {
    {{500, 30000}, {500, 60000}, {1, 10000}, {1, 1000}, {0, 1}},
    {{1, 50000000}, {1, 3000000}, {100, 3000}, {1000, 1300000}, {1, 5}, {0, 200000}},
    {{0, 10000}, {1, 100000}, {1, 100000}, {-500000, 9000000}, {-500000, 9000000}},
    {{1, 5}, {1, 5}, {1, 15000}, {1, 60000}, {0, 2}},
    {{-50000, 50000}, {-30000, 30000}, {-50000, 50000}, {0, 60000}, {0, 2}, {1, MAX_LOADS}},
    {{1, 6}, {1, 20000}, {0, 6000}, {0, 60000}, {0, 60000}, {0, 2}},
    {{1, 7}, {0, 20000}, {1, 5}, {1, 15000}, {1, 60000}, {0, 2}},
};

INLINE int train_kind(int kind) { return kind == KLF || kind == KCF; }

static int kind_of(const u8 *s, u32 n) {
    if (n == 1) switch (s[0]) { case 'B': return KB; case 'S': return KS; case 'C': return KC; case 'E': return KE; case 'W': return KW; case 'G': return KG; default: return NO_KIND; }
    if (n != 2) return NO_KIND;
    switch (s[0] << 8 | s[1]) {
    case 'D' << 8 | 'L': return KDL;
    case 'E' << 8 | 'P': return KEP;
    case 'L' << 8 | 'L': return KLL;
    case 'L' << 8 | 'F': return KLF;
    case 'C' << 8 | 'F': return KCF;
    case 'W' << 8 | 'C': return KWC;
    case 'B' << 8 | 'U': return KBU;
    case 'T' << 8 | 'M': return KTM;
    case 'E' << 8 | 'X': return KEX;
    case 'W' << 8 | 'L': return KWL;
    case 'S' << 8 | 'F': return KSF;
    default: return NO_KIND;
    }
}

static int name_form(const u8 *s, u32 n) {
    if (n < 1 || n > 12) return 0;
    for (u32 i = 0; i < n; i++)
        if (!((s[i] >= 'A' && s[i] <= 'Z') || (s[i] >= '0' && s[i] <= '9') || s[i] == '-')) return 0;
    return 1;
}

static int number(const u8 *s, u32 n, i32 *out) {
    int neg = n > 0 && s[0] == '-';
    if (neg) { s++; n--; }
    if (n == 0 || n > 9 || (s[0] == '0' && (neg || n > 1))) return 0;
    i32 v = 0;
    for (u32 i = 0; i < n; i++) {
        if (s[i] < '0' || s[i] > '9') return 0;
        v = v * 10 + (s[i] - '0');
    }
    *out = neg ? -v : v;
    return 1;
}

static int row_form(const u8 *book, int count, const Field *f, Row *r) {
    if (count != 10) return 0;
    const u8 *m = book + f[0].start, *j = book + f[1].start;
    u32 mn = f[0].end - f[0].start, jn = f[1].end - f[1].start;
    if (!name_form(m, mn) || !name_form(j, jn)) return 0;
    r->kind = kind_of(book + f[2].start, f[2].end - f[2].start);
    if (r->kind == NO_KIND) return 0;
    int want = r->kind == KS || r->kind >= KW || train_kind(r->kind) ? 6 : 5;
    const i32(*g)[2] = ranges[r->kind < 4 ? r->kind : r->kind < KW ? 4 : r->kind - KW + 5];
    r->in_range = 1;
    r->n[5] = 0;
    for (int i = 0; i < want; i++) {
        i32 v;
        if (!number(book + f[3 + i].start, f[3 + i].end - f[3 + i].start, &v)) return 0;
        r->in_range &= g[i][0] <= v && v <= g[i][1];
        r->n[i] = v;
    }
    if (want == 5 && f[8].start != f[8].end) return 0;
    memset(&r->key, 0, sizeof r->key);
    memcpy(r->key.bytes, m, mn);
    memcpy(r->key.bytes + 12, j, jn);
    r->key.member_len = mn;
    r->key.job_len = jn;
    return 1;
}

static Job jobs[MAX_JOBS];

/* Number of jobs, or 0 with the refusal. */
static int scan(const u8 *book, u32 len, u32 *no, u32 *row) {
    *row = 0;
    if (len > MAX_BOOK) { *no = 1; return 0; }
    Rows rows = {book, len, 0, 0};
    Field f[10];
    int count = 0, n;
    u32 at = 0, bad = 0, bad_row = 0;
    Job *job = 0;
    Row r;
    while ((n = next_row(&rows, f)) != 0) {
        if (n < 0) { *no = 2; return 0; }
        if (bad) continue;
        at++;
        bad_row = at;
        if (!row_form(book, n, f, &r)) { bad = 3; continue; }
        if (r.kind == KB) {
            if (job && job->count == 0) { bad = 4; continue; }
            if (count == MAX_JOBS) { bad = 5; continue; }
            for (int i = 0; i < count; i++) if (!memcmp(&jobs[i].key, &r.key, sizeof(Key))) { bad = 6; break; }
            if (bad) continue;
            job = &jobs[count++];
            job->key = r.key;
            memcpy(job->base, r.n, sizeof job->base);
            job->has_scour = job->has_clear = job->count = 0;
            job->out_of_range = !r.in_range;
            continue;
        }
        int ok = job && !memcmp(&r.key, &job->key, sizeof(Key));
        if (ok) {
            if (r.kind == KS) ok = !job->has_scour && !job->has_clear && job->count == 0;
            else if (r.kind == KC) ok = job->has_scour && !job->has_clear && job->count == 0;
            else ok = job->count < MAX_LOADS;
        }
        if (!ok) { bad = 4; continue; }
        job->out_of_range |= !r.in_range;
        if (r.kind == KS) { memcpy(job->scour, r.n, sizeof job->scour); job->has_scour = 1; }
        else if (r.kind == KC) { memcpy(job->clear, r.n, sizeof job->clear); job->has_clear = 1; }
        else {
            Load *l = &job->loads[job->count++];
            l->kind = r.kind;
            memcpy(l->n, r.n, sizeof l->n);
        }
    }
    if (bad) { *no = bad; *row = bad_row; return 0; }
    if (!job || job->count == 0) { *no = 4; *row = at + 1; return 0; }
    return count;
}

/* ---- river rules, earth pressure and water current */
INLINE u64 div_up(u64 a, u64 b) { return a / b + (a % b != 0); }

static u64 qf_of(u64 q, u64 z) {
    if (z <= 500) return div_up(13 * q, 10);
    if (z <= 5000) return div_up(q * (59000 - z), 45000);
    return div_up(q * (245000 - z), 200000);
}

static u64 cube_root_up(u64 t) {
    if (t == 0) return 0;
    u64 lo = 0, hi = 65536;
    while (hi - lo > 1) {
        u64 mid = (lo + hi) / 2;
        if (mid * mid * mid >= t) hi = mid; else lo = mid;
    }
    return hi;
}

static u64 greatest_scour(u64 d, u64 reach) {
    static const u64 num[6] = {0, 5, 3, 7, 2, 11}, den[6] = {1, 4, 2, 4, 1, 4};
    return div_up(num[reach] * d, den[reach]);
}

static u64 clearance_needed(u64 q) {
    if (q <= 30000) return 600;
    if (q <= 300000) return 600 + div_up(600 * (q - 30000), 270000);
    return q <= 3000000 ? 1500 : 1800;
}

typedef unsigned short Fills[5][5]; /* by soil and slope, 0 where nothing is held */

static Fills common = {
    {4609, 4471, 4707, 5962, 8786}, {6178, 5805, 6276, 7649, 10787}, {7355, 7511, 8090, 9571, 13494}, {15690, 16186, 17893, 0, 0}, {18828, 20306, 21189, 0, 0},
};

/* Own fills, in a hash table by member: a book has 6,553 rows at most. */
enum { OWN_SLOTS = 16384 };
static struct { u8 member[12], len; Fills fills; } own[OWN_SLOTS];

/* The member's slot, or the empty one that is its own. */
static u32 own_slot(const u8 *member, u32 len) {
    u32 at = 2166136261u;
    for (u32 i = 0; i < len; i++) at = (at ^ member[i]) * 16777619u;
    for (at ^= at >> 16;; at++) {
        at %= OWN_SLOTS;
        if (own[at].len == 0 || (own[at].len == len && !memcmp(own[at].member, member, len))) return at;
    }
}

/* Whether a fill book is accepted; its values go to own, or to common. */
static int read_fills(const u8 *book, u32 len, int is_common) {
    static const i32 most[3] = {5, 5, 40000};
    if (len > MAX_BOOK) return 0;
    if (is_common) memset(common, 0, sizeof common);
    Rows rows = {book, len, 0, len == 0};
    Field f[10];
    int n;
    while ((n = next_row(&rows, f)) != 0) {
        if (n != 5) return 0;
        const u8 *m = book + f[0].start;
        u32 mn = f[0].end - f[0].start;
        if (is_common ? mn != 0 : !name_form(m, mn)) return 0;
        i32 v[3];
        for (int i = 0; i < 3; i++)
            if (!number(book + f[1 + i].start, f[1 + i].end - f[1 + i].start, &v[i]) || v[i] < 1 || v[i] > most[i]) return 0;
        Fills *fills = &common;
        if (!is_common) {
            u32 at = own_slot(m, mn);
            memcpy(own[at].member, m, mn);
            own[at].len = mn;
            fills = &own[at].fills;
        }
        unsigned short *k = &(*fills)[v[0] - 1][v[1] - 1];
        if (*k) return 0;
        *k = v[2];
    }
    return 1;
}

static u64 fill_value(const Key *key, int soil, int slope) {
    u64 k = own[own_slot(key->bytes, key->member_len)].fills[soil - 1][slope - 1];
    return k ? k : common[soil - 1][slope - 1];
}

static const u64 table4[6] = {79, 35, 37, 47, 24, 26};
static const u64 table3[7][2] = {{16300, 3000}, {13700, 3000}, {15800, 3000}, {13700, 3000}, {9800, 2100}, {9800, 2100}, {8300, 1800}};
static const u64 active[4] = {27, 30, 39, 100};

static u64 over_length(u64 p, u64 l) { return div_up(p * l * 980665, 100000000000ull); }

/* H of both parts of a surcharge, and the sum of their 2Hy. */
static u64 surcharge(const i32 *n, u64 b, u64 *turn) {
    u64 t = (table3[n[0] - 1][0] + n[1]) * active[n[2] - 1], h = n[3], l = n[4], d = l - b;
    u64 near = h <= d;
    u64 first = over_length(div_up(t * h, 100 * (near ? b + h : l)), l);
    u64 second = over_length(near ? div_up(t * h * h, 200 * b * (b + h)) : div_up(t * d * d, 200 * b * l), l);
    *turn = 2 * (first * div_up(h, 2) + second * (near ? div_up(2 * h, 3) : div_up(3 * h - d, 3)));
    return first + second;
}

/* ---- load sets */
#define TOP (~0ul) /* "none" for OP, OM, SL; "off" for PR, RK; and no key */

typedef struct { i64 n, h, m, op, om; u64 key; } Sums;
typedef struct { u64 value, key; } Worst;
typedef struct { i64 b, l, friction; Worst op, om, sl, pr, rk; } Search;
typedef struct { Sums lead, rows[MAX_OPTIONAL]; int n; } Train; /* an LL row, and the LF and CF rows that name it */
typedef struct {
    Sums fixed, plain[16], wind[16], quake[16];
    Train trains[MAX_OPTIONAL / 2];
    int np, nw, nq, nt;
} Choice;

INLINE Sums plus(Sums a, const Sums *b) {
    a.n += b->n; a.h += b->h; a.m += b->m; a.op += b->op; a.om += b->om; a.key += b->key;
    return a;
}

/* A row with V at x, H, and t the sum of its 2Hy, which have one sign. */
static Sums sums_row(i64 b, int index, i64 v, i64 x, i64 h, i64 t) {
    i64 p = v * (b - 2 * x), q = v * (b + 2 * x);
    Sums s = {v, h, 2 * v * x + t, (p < 0 ? -p : 0) + (t > 0 ? t : 0), (q < 0 ? -q : 0) + (t < 0 ? -t : 0), 1 << 16 | 1 << index};
    return s;
}

COLD void lower_slow(Worst *w, u64 x, u64 y, u64 key, int strictly) {
    if (strictly) { w->value = x / y; w->key = key; }
    else if (key < w->key) w->key = key;
}

INLINE void lower(Worst *w, u64 x, u64 y, u64 key) {
    u128 t = (u128)w->value * y;
    if (x < t + y) lower_slow(w, x, y, key, x < t);
}

INLINE void lower_const(Worst *w, u64 value, u64 key) {
    if (value < w->value) { w->value = value; w->key = key; }
    else if (value == w->value && key < w->key) w->key = key;
}

COLD void higher_slow(Worst *w, u64 x, u64 y, u64 key, int strictly) {
    if (strictly) { w->value = div_up(x, y); w->key = key; }
    else if (key < w->key) w->key = key;
}

INLINE void higher(Worst *w, u64 x, u64 y, u64 key) {
    u128 t = (u128)w->value * y;
    if ((u128)x + y > t) higher_slow(w, x, y, key, x > t);
}

INLINE void off(Worst *w, u64 key) {
    if (w->value != TOP || key < w->key) { w->value = TOP; w->key = key; }
}

static Search fresh(i64 b, i64 l, i64 friction) {
    Worst best = {TOP, TOP}, least = {0, TOP};
    Search s = {b, l, friction, best, best, best, least, least};
    return s;
}

INLINE void weigh(Search *w, const Sums *s, int full, int rock) {
    i64 nb = s->n * w->b;
    if (full) {
        if (s->op == 0) lower_const(&w->op, TOP, s->key);
        else lower(&w->op, 100 * (nb - s->m + s->op), s->op, s->key);
        if (s->om == 0) lower_const(&w->om, TOP, s->key);
        else lower(&w->om, 100 * (nb + s->m + s->om), s->om, s->key);
        if (s->n <= 0) lower_const(&w->sl, 0, s->key);
        else if (s->h == 0) lower_const(&w->sl, TOP, s->key);
        else lower(&w->sl, w->friction * s->n, 10 * (s->h < 0 ? -s->h : s->h), s->key);
    }
    i64 am = s->m < 0 ? -s->m : s->m;
    if (s->n <= 0) {
        off(&w->pr, s->key);
        if (rock) off(&w->rk, s->key);
        return;
    }
    if (am >= nb) off(&w->pr, s->key);
    else if (w->pr.value != TOP) {
        if (3 * am <= nb) higher(&w->pr, 1000000 * (nb + 3 * am), w->b * w->b * w->l, s->key);
        else higher(&w->pr, 4000000 * s->n * s->n, 3 * w->l * (nb - am), s->key);
    }
    if (rock && w->rk.value != TOP) higher(&w->rk, 1000 * am, 2 * nb, s->key);
}

INLINE void fill(Sums *t, const Sums *rows, int n) {
    for (int i = 0; i < n; i++)
        for (int j = 0; j < 1 << i; j++) t[(1 << i) + j] = plus(t[j], &rows[i]);
}

/* Every set that is `fixed` plus any choice of the n `rows`, save the empty one. */
INLINE void power(Search *w, const Sums *fixed, const Sums *rows, int n, int full, int rock) {
    Sums lo[64], hi[64];
    Search k = *w;
    int nlo = n / 2;
    memset(&lo[0], 0, sizeof lo[0]);
    fill(lo, rows, nlo);
    hi[0] = *fixed;
    fill(hi, rows + nlo, n - nlo);
    for (int a = 0; a < 1 << (n - nlo); a++)
        for (int c = 0; c < 1 << nlo; c++) {
            Sums s = plus(hi[a], &lo[c]);
            if (s.key != 0) weigh(&k, &s, full, rock);
        }
    *w = k;
}

static void power_ff(Search *w, const Sums *f, const Sums *r, int n) { power(w, f, r, n, 0, 0); }
static void power_ft(Search *w, const Sums *f, const Sums *r, int n) { power(w, f, r, n, 0, 1); }
static void power_tf(Search *w, const Sums *f, const Sums *r, int n) { power(w, f, r, n, 1, 0); }
static void power_tt(Search *w, const Sums *f, const Sums *r, int n) { power(w, f, r, n, 1, 1); }

static void power_of(Search *w, const Sums *f, const Sums *r, int n, int full, int rock) {
    if (full) { if (rock) power_tt(w, f, r, n); else power_tf(w, f, r, n); }
    else { if (rock) power_ft(w, f, r, n); else power_ff(w, f, r, n); }
}

/* The same with any choice of the trains: without its LL row none of a train's rows is taken, with it they are free.
   `rows` has room for them. */
static void power_trains(Search *w, const Sums *fixed, Sums *rows, int n, const Train *t, int nt, int full, int rock) {
    if (nt == 0) { power_of(w, fixed, rows, n, full, rock); return; }
    power_trains(w, fixed, rows, n, t + 1, nt - 1, full, rock);
    Sums f = plus(*fixed, &t->lead);
    memcpy(rows + n, t->rows, t->n * sizeof(Sums));
    power_trains(w, &f, rows, n + t->n, t + 1, nt - 1, full, rock);
}

/* Every set of the fixed rows, at least one of `must`, and any other: by the first of `must` that is taken. */
static void power_with(Search *w, const Choice *c, const Sums *must, int nm, int full, int rock) {
    Sums rows[16];
    for (int i = 0; i < nm; i++) {
        int rest = nm - i - 1;
        memcpy(rows, must + i + 1, rest * sizeof(Sums));
        memcpy(rows + rest, c->plain, c->np * sizeof(Sums));
        Sums f = plus(c->fixed, &must[i]);
        power_trains(w, &f, rows, rest + c->np, c->trains, c->nt, full, rock);
    }
}

INLINE int phase(const Load *o) { return o->n[o->kind >= KW ? 5 : 4]; }

/* The LL row `at` as the head of a train; 0 if no row outside phase `other` names it. */
static int add_train(Choice *c, const Job *j, const Sums *rows, int at, int other) {
    Train *t = &c->trains[c->nt];
    t->n = 0;
    for (int i = 0; i < j->count; i++) {
        const Load *o = &j->loads[i];
        if (train_kind(o->kind) && o->n[5] == at + 1 && phase(o) != other) t->rows[t->n++] = rows[i];
    }
    if (t->n == 0) return 0;
    t->lead = rows[at];
    c->nt++;
    return 1;
}

/* The rows of a job that are not of phase `other`, sorted. */
static void choose(Choice *c, const Job *j, const Sums *rows, int other) {
    memset(&c->fixed, 0, sizeof c->fixed);
    c->np = c->nw = c->nq = c->nt = 0;
    for (int i = 0; i < j->count; i++) {
        int kind = j->loads[i].kind;
        if (phase(&j->loads[i]) == other || train_kind(kind)) continue;
        if (kind == KWL) c->wind[c->nw++] = rows[i];
        else if (kind == KSF) c->quake[c->nq++] = rows[i];
        else if (kind <= KEP) c->fixed = plus(c->fixed, &rows[i]);
        else if (kind != KLL || !add_train(c, j, rows, i, other)) c->plain[c->np++] = rows[i];
    }
}

/* ---- the printed answer */
static u8 out[MAX_JOBS * 2048];
static u32 out_len;

static void put(const void *s, u32 n) { memcpy(out + out_len, s, n); out_len += n; }
#define PUT(s) put(s, sizeof(s) - 1)

static void num(u64 v) {
    u8 d[20];
    int i = 20;
    do { d[--i] = '0' + v % 10; v /= 10; } while (v);
    put(d + i, 20 - i);
}

static void integer(i64 v) {
    if (v < 0) { PUT("-"); num(-(u64)v); } else num(v);
}

/* Whether a value is the quotient of two numbers itself, or was rounded to it. */
static const char *mark(u64 value, u64 by, u64 of) { return value * by == of ? "E" : "R"; }

/* The end of a line with Y or N, and with E, R or nothing. */
static int yes(int y, const char *exact) {
    put(y ? ",Y," : ",N,", 3);
    put(exact, strlen(exact));
    PUT("\r\n");
    return y;
}

static void head(const Job *j) {
    put(j->key.bytes, j->key.member_len);
    PUT(",");
    put(j->key.bytes + 12, j->key.job_len);
    PUT(",");
}

/* The sums of a set, added up once more from its rows. */
static Sums sums_of(const Sums *rows, u64 set) {
    Sums s;
    memset(&s, 0, sizeof s);
    for (; set; set &= set - 1) s = plus(s, &rows[__builtin_ctzl(set)]);
    return s;
}

/* Whether the figure of the set that a line names was rounded; nothing of a word. */
static const char *mark_of(const Search *w, const Sums *rows, const char *check, const Worst *worst) {
    u64 value = worst->value;
    if (value == TOP) return "";
    Sums s = sums_of(rows, worst->key & 0xFFFF);
    u64 nb = s.n * w->b, m = s.m < 0 ? -s.m : s.m, h = s.h < 0 ? -s.h : s.h;
    switch (check[0] << 8 | check[1]) {
    case 'O' << 8 | 'P': return mark(value, s.op, 100 * (nb - s.m + s.op));
    case 'O' << 8 | 'M': return mark(value, s.om, 100 * (nb + s.m + s.om));
    case 'S' << 8 | 'L': return s.n <= 0 ? "E" : mark(value, 10 * h, w->friction * s.n);
    case 'R' << 8 | 'K': return mark(value, 2 * nb, 1000 * m);
    }
    if (3 * m <= nb) return mark(value, w->b * w->b * w->l, 1000000 * (nb + 3 * m));
    return mark(value, 3 * w->l * (nb - m), 4000000 * s.n * s.n);
}

static int line(const Job *j, const char *name, const char *check, const Worst *w, const char *top, u64 limit, int low, const char *exact) {
    head(j);
    put(name, strlen(name));
    put(check, 3);
    if (w->value == TOP) put(top, strlen(top)); else num(w->value);
    PUT(",");
    num(limit);
    PUT(",");
    num(w->key & 0xFFFF);
    return yes(low ? w->value >= limit : w->value <= limit, exact);
}

static int lines_of(const Job *j, const char *name, const Search *s, const Sums *rows, u64 over, u64 slide, u64 press, int full, int rock) {
    int y = 1;
    if (s->pr.key == TOP) return 1;
    if (full) {
        y &= line(j, name, "OP,", &s->op, "none", over, 1, mark_of(s, rows, "OP", &s->op));
        y &= line(j, name, "OM,", &s->om, "none", over, 1, mark_of(s, rows, "OM", &s->om));
        y &= line(j, name, "SL,", &s->sl, "none", slide, 1, mark_of(s, rows, "SL", &s->sl));
    }
    y &= line(j, name, "PR,", &s->pr, "off", press, 0, mark_of(s, rows, "PR", &s->pr));
    if (rock) y &= line(j, name, "RK,", &s->rk, "off", 250, 0, mark_of(s, rows, "RK", &s->rk));
    return y;
}

/* 0, or the refusal of the job. */
static u32 lines(const Job *j) {
    if (j->out_of_range) return 11;
    int rock = j->base[4] == 1;
    u64 scour = 0, needed = 0;
    if (j->has_scour) {
        u64 q = j->scour[0], z = j->scour[1], f = j->scour[2], w = j->scour[3];
        if (z > 25000) return 12;
        u64 qf = qf_of(q, z), d;
        if (10000000 * w * w >= 483537ull * 483537 * q) d = rock ? 0 : cube_root_up(div_up(473ull * 473 * 473 * qf, f));
        else {
            u64 i = div_up(1000 * qf, w);
            if (i > 50000) return 13;
            d = rock ? 0 : cube_root_up(div_up(1338ull * 1338 * 1338 * i * i, 1000 * f));
        }
        scour = greatest_scour(d, j->scour[4]);
        needed = div_up(133 * scour, 100);
    }
    if (j->has_clear && j->clear[2] > j->clear[1]) return 14;

    i64 b = j->base[0], l = j->base[1], p = j->base[2], friction = j->base[3];
    Sums rows[MAX_LOADS];
    int some_1 = 0, optional = 0;
    u32 bad = 0; /* a bit for each refusal; the lowest is given */
    for (int i = 0; i < j->count; i++) {
        const Load *o = &j->loads[i];
        const i32 *n = o->n;
        if (o->kind == KE) {
            u64 k = fill_value(&j->key, n[0], n[1]), ht = n[2];
            u64 h = div_up(k * ht * ht * n[3], 2000000000000ull);
            if (k == 0) bad |= 1u << 15;
            rows[i] = sums_row(b, i, 0, 0, h, 2 * h * div_up(ht, 3));
        } else if (o->kind == KW) {
            u64 v = n[2], h = div_up(table4[n[0] - 1] * n[1] * v * v * 196133, 2000000000000000ull);
            if (n[3] < n[4]) bad |= 1u << 17;
            rows[i] = sums_row(b, i, 0, 0, h, 2 * h * div_up(2 * n[3] + n[4], 3));
        } else if (o->kind == KG) {
            u64 width = table3[n[0] - 1][1], turn = 0, h = 0;
            if ((u64)n[4] <= width) bad |= 1u << 19;
            else if (n[2] == 5) bad |= 1u << 20;
            else h = surcharge(n, width, &turn);
            rows[i] = sums_row(b, i, 0, 0, h, turn);
        } else {
            if (train_kind(o->kind) && (n[5] > j->count || j->loads[n[5] - 1].kind != KLL)) bad |= 1u << 18;
            rows[i] = sums_row(b, i, n[0], n[1], n[2], 2 * (i64)n[2] * n[3]);
        }
        optional += o->kind > KEP;
        some_1 |= phase(o) == 1;
    }
    if (optional > MAX_OPTIONAL) bad |= 1u << 16;
    if (bad) return __builtin_ctz(bad);

    head(j);
    PUT("VERDICT,");
    u32 at = out_len;
    PUT("A,,,,\r\n");
    int y = 1;
    Choice c;
    choose(&c, j, rows, 1);
    Search s = fresh(b, l, friction);
    power_trains(&s, &c.fixed, c.plain, c.np, c.trains, c.nt, 1, rock);
    y &= lines_of(j, "I-", &s, rows, 200, 150, p, 1, rock);
    s = fresh(b, l, friction);
    power_with(&s, &c, c.wind, c.nw, 1, rock);
    y &= lines_of(j, "II-", &s, rows, 150, 125, p * 4 / 3, 1, rock);
    s = fresh(b, l, friction);
    power_with(&s, &c, c.quake, c.nq, 1, rock);
    y &= lines_of(j, "III-", &s, rows, 150, 125, p * 4 / 3, 1, rock);
    if (some_1) {
        choose(&c, j, rows, 0);
        s = fresh(b, l, friction);
        power_with(&s, &c, c.quake, c.nq, 0, rock);
        memcpy(c.plain + c.np, c.wind, c.nw * sizeof(Sums));
        power_trains(&s, &c.fixed, c.plain, c.np + c.nw, c.trains, c.nt, 0, rock);
        y &= lines_of(j, "IV-", &s, rows, 0, 0, p * 7 / 5, 0, rock);
    }
    if (j->has_scour && !rock) {
        head(j);
        PUT("SC,");
        num(needed);
        PUT(",");
        num(j->scour[5]);
        PUT(",");
        y &= yes(needed <= (u64)j->scour[5], mark(needed, 100, 133 * scour));
    }
    if (j->has_clear) {
        u64 v = j->clear[0], area = j->clear[1], a = j->clear[2];
        u64 raised = (10 * v * v + 2724912) * (area * area - a * a), part = 178800 * a * a, rise = div_up(raised, part);
        i64 value = (i64)j->clear[3] - j->clear[4] - (i64)rise, limit = clearance_needed(j->scour[0]);
        head(j);
        PUT("CL,");
        integer(value);
        PUT(",");
        num(limit);
        PUT(",");
        y &= yes(value >= limit, mark(rise, part, raised));
    }
    out[at] = y ? 'A' : 'N';
    return 0;
}

/* Reads up to one byte more than a book may have. */
static int read_all(int file, u8 *to, u32 *len) {
    for (*len = 0; *len < MAX_BOOK + 1;) {
        i64 n = read(file, to + *len, MAX_BOOK + 1 - *len);
        if (n < 0) return 0;
        if (n == 0) break;
        *len += n;
    }
    return 1;
}

int main(int argc, char **argv) {
    static u8 book[MAX_BOOK + 1], fill_book[MAX_BOOK + 1];
    u32 len, no = 0, row = 0;
    if (!read_all(0, book, &len)) return 1;
    make_classes();
    int count = scan(book, len, &no, &row), accepted = 1;
    for (int i = 1; i < argc && i <= 2; i++) {
        int file = open(argv[i], 0);
        if (file < 0 || !read_all(file, fill_book, &len)) return 1;
        close(file);
        accepted &= read_fills(fill_book, len, i == 2);
    }
    if (count && !accepted) { count = 0; no = 8; }
    if (count == 0) {
        PUT(",,BOOK,");
        num(no);
        PUT(",");
        num(row);
        PUT(",,,\r\n");
    }
    for (int i = 0; i < count; i++) {
        u32 refusal = lines(&jobs[i]);
        if (refusal) {
            head(&jobs[i]);
            PUT("VERDICT,");
            num(refusal);
            PUT(",,,,\r\n");
        }
    }
    for (u32 at = 0; at < out_len;) {
        i64 n = write(1, out + at, out_len - at);
        if (n <= 0) return 1;
        at += n;
    }
    return 0;
}
