/* Reading a sheet: refusals 1 to 4, 6 and 7, with all that the steps need laid out by node. */

enum { CLEAN = 1, SOILED = 2, TRANSFER = 3 };

typedef struct {
    u32 n, vans;
    u32 profile;                        /* 1: clean before soiled */
    i32 capacity[MOST_VANS], limit[MOST_VANS];
    u32 class[MOST_VANS];               /* one bit */
    u32 classes;                        /* of all vans */
    i32 largest;                        /* capacity, over all vans */
    i32 heaviest;                       /* load, over all jobs; 0: no job */
    i32 earliest[MOST_NODES], service[MOST_NODES];
    i32 last[MOST_NODES];               /* last moment to start: latest less service, may be negative */
    u8 admits[MOST_NODES];              /* classes of the vans that may come */
    i32 load[TRANSFER + 1][MOST_NODES]; /* by kind of job; 0: none */
    u8 partner[MOST_NODES];             /* 0: none */
    u64 pickups;                        /* nodes that are the first of a transfer */
    u64 transfers;                      /* nodes that have a transfer end */
    u64 clean, soiled;                  /* nodes that have such a job */
    const u8 *nodes, *jobs, *seconds, *metres, *steps;
    u32 job_count, step_count;
} Sheet;

typedef struct {
    const u8 *bytes;
    u64 words, at;
} Reader;

static inline i32 seconds(const Sheet *s, u64 from, u64 to) { return (i32)word(s->seconds + 4 * (from * s->n + to)); }
static inline i32 metres(const Sheet *s, u64 from, u64 to) { return (i32)word(s->metres + 4 * (from * s->n + to)); }

/* Nodes 1 to n - 2. */
static inline u64 wards(const Sheet *s) { return (bit(s->n - 1) - 1) & ~1ULL; }

/* Count, then shortness. */
static u64 entries(Reader *r, u32 low, u32 high, u64 width, const u8 **begin, u32 *count)
{
    if (r->at >= r->words) return 1;
    *count = word(r->bytes + 4 * r->at);
    if (*count < low || *count > high) return 2;
    if (*count * width > r->words - r->at - 1) return 1;
    *begin = r->bytes + 4 * (r->at + 1);
    r->at += 1 + *count * width;
    return 0;
}

/* Three words a van, and one for the profile. A class that has no bit in common with the number before
   it is one bit. */
static u64 read_limits(Reader *r, Sheet *s)
{
    const u8 *e;
    u32 count, bad = 0;
    /* a count that no number of vans makes is out of range, and that comes before shortness */
    if (r->words && word(r->bytes) % 3 != 1) return 2;
    u64 no = entries(r, 4, 3 * MOST_VANS + 1, 1, &e, &count);
    if (no) return no;
    s->vans = count / 3;
    s->largest = 0;
    s->classes = 0;
    for (u32 v = 0; v < s->vans; v++, e += 12) {
        u32 capacity = word(e), limit = word(e + 4), class = word(e + 8);
        bad |= (capacity > 1000) | (limit > 1000000) | (class - 1 > 127) | (class & (class - 1));
        s->capacity[v] = (i32)capacity;
        if ((i32)capacity > s->largest) s->largest = (i32)capacity;
        s->limit[v] = (i32)limit;
        s->class[v] = class;
        s->classes |= class;
    }
    s->profile = word(e);
    bad |= s->profile > 1;
    return bad ? 3 : 0;
}

static u64 read_nodes(Reader *r, Sheet *s)
{
    u64 no = entries(r, 2, MOST_NODES, 4, &s->nodes, &s->n);
    u32 bad = 0;
    if (no) return no;
    const u8 *e = s->nodes;
    for (u32 x = 0; x < s->n; x++, e += 16) {
        u32 early = word(e), late = word(e + 4), service = word(e + 8), set = word(e + 12);
        bad |= (late > 1000000) | (early > late) | (service > 1000000) | (set - 1 > 254);
        s->earliest[x] = (i32)early;
        s->last[x] = (i32)(late - service);
        s->service[x] = (i32)service;
        s->admits[x] = (u8)set;
    }
    return bad ? 3 : 0;
}

static int outside(const Sheet *s, u32 x) { return x - 1 >= s->n - 2; }

/* One job; a node met twice shows in *twice and is judged later. */
static u64 read_job(Sheet *s, const u8 *e, u64 has[4], int *twice)
{
    u32 kind = word(e), a = word(e + 4), b = word(e + 8), load = word(e + 12);
    if (kind < CLEAN || kind > TRANSFER || outside(s, a) || load < 1 || load > 1000) return 3;
    u64 nodes = bit(a);
    s->load[kind][a] = (i32)load;
    if ((i32)load > s->heaviest) s->heaviest = (i32)load;
    if (kind == TRANSFER) {
        if (outside(s, b) || a == b) return 3;
        nodes |= bit(b);
        s->load[TRANSFER][b] = (i32)load;
        s->partner[a] = (u8)b;
        s->partner[b] = (u8)a;
        s->pickups |= bit(a);
    } else if (b != 0) return 3;
    *twice |= (has[kind] & nodes) != 0;
    has[kind] |= nodes;
    return 0;
}

static u64 read_jobs(Reader *r, Sheet *s, int *twice)
{
    u64 has[TRANSFER + 1] = {0};
    u64 no = entries(r, 0, MOST_JOBS, 4, &s->jobs, &s->job_count);
    if (no) return no;
    for (u32 x = 0; x < s->n; x++) {
        s->load[CLEAN][x] = s->load[SOILED][x] = s->load[TRANSFER][x] = 0;
        s->partner[x] = 0;
    }
    s->pickups = 0;
    s->heaviest = 0;
    for (u32 j = 0; j < s->job_count; j++) {
        no = read_job(s, s->jobs + 16 * j, has, twice);
        if (no) return no;
    }
    s->transfers = has[TRANSFER];
    s->clean = has[CLEAN];
    s->soiled = has[SOILED];
    return 0;
}

/* All ones that occur in the words. Four sums side by side, so that none waits for another. */
static u32 ones(const u8 *e, u64 count)
{
    u64 part = count / 4;
    const u8 *f = e + 4 * part, *g = f + 4 * part, *h = g + 4 * part;
    u32 a = 0, b = 0, c = 0, d = 0;
    for (u64 i = 0; i < part; i++) {
        a |= word(e + 4 * i);
        b |= word(f + 4 * i);
        c |= word(g + 4 * i);
        d |= word(h + 4 * i);
    }
    for (u64 i = 4 * part; i < count; i++) a |= word(e + 4 * i);
    return a | b | c | d;
}

/* No entry is above all ones together; only where these are above the bound each entry is asked. */
static u64 read_table(Reader *r, const Sheet *s, const u8 **table)
{
    u32 count, bad = 0;
    u64 no = entries(r, s->n * s->n, s->n * s->n, 1, table, &count);
    if (no || ones(*table, count) <= 1000000) return no;
    const u8 *e = *table;
    for (u64 i = 0; i < count; i++) bad |= word(e + 4 * i) > 1000000;
    return bad ? 3 : 0;
}

static u64 read_sheet(const u8 *bytes, u64 length, Sheet *s)
{
    Reader r = {bytes, length / 4, 0};
    int twice = 0;
    u64 no;
    if (length % 4) return 1;
    if ((no = read_limits(&r, s))) return no;
    if ((no = read_nodes(&r, s))) return no;
    if ((no = read_jobs(&r, s, &twice))) return no;
    if ((no = read_table(&r, s, &s->seconds))) return no;
    if ((no = read_table(&r, s, &s->metres))) return no;
    if ((no = entries(&r, 0, MOST_STEPS, 3, &s->steps, &s->step_count))) return no;
    if (r.at != r.words) return 1;
    if (twice) return 4;
    if (s->heaviest > s->largest) return 6;
    return s->classes & ~(s->admits[0] & s->admits[s->n - 1]) ? 7 : 0;
}
