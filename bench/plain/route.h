/* What the tests ask of a van's route, in linear passes. All of it hangs on the route alone, so
   it is looked at when first asked for and stands until the route changes. */

typedef struct {
    u64 on;                  /* nodes on the route; always true, the rest only once looked at */
    u8 along, back;          /* looked along, looked back */
    u8 sound;                /* keeps windows, metres, loads, the order of transfers, and the profile */
    u8 tested;               /* every open place is known to keep what hangs on the route alone */
    u32 legs;                /* leg i leaves stop i */
    u8 at[MOST_NODES];       /* node at each stop */
    u8 stop_of[MOST_NODES];  /* stop of each node on the route */
    i32 h[MOST_NODES];       /* H of each leg */
    u64 before[MOST_NODES];  /* legs that leave the stops before this one */
    u8 next[MOST_NODES];     /* by node, as all below: who comes after it */
    i32 leave[MOST_NODES];   /* E + service */
    i32 hop[MOST_NODES];     /* service + seconds to the next */
    i32 leg[MOST_NODES];     /* metres to the next */
    i32 by[MOST_NODES];      /* L of the next */
    i32 spare[MOST_NODES];   /* metres there may be from here to the next by way of another */
    i32 metres, most;        /* of the whole route; the greatest H */
    u64 called;              /* partners of the nodes on the route */
    u32 clean_to;            /* under the profile: the last stop with a clean job, 0 if there is none */
    u32 soiled_from;         /* likewise: the first stop with a soiled job, the end if there is none */
} Route;

static void changed(Route *r, u64 on)
{
    r->on = on;
    r->along = r->back = r->tested = 0;
}

/* Who stands where; the clean load at the start. */
static i32 find_stops(const Sheet *s, const State *state, Route *r)
{
    i32 clean = 0;
    r->legs = (u32)state->stops - 1;
    for (u32 i = 0; i <= r->legs; i++) {
        u32 x = (u32)state->route[i];
        r->at[i] = (u8)x;
        r->stop_of[x] = (u8)i;
        clean += s->load[CLEAN][x];
    }
    return clean;
}

/* H, the partners, and whether no transfer has its second node before its first. A node without
   a transfer has load 0 and partner 0, so it needs no question. */
static int loads(const Sheet *s, Route *r, i32 aboard)
{
    i32 most = aboard;
    u64 seen = 0, called = 0, wrong = 0;
    r->h[0] = aboard;
    for (u32 i = 1; i < r->legs; i++) {
        u32 x = r->at[i], other = s->partner[x];
        u64 came = seen >> other & 1, starts = s->pickups >> x & r->on >> other & 1;
        i32 load = starts ? s->load[TRANSFER][x] : -s->load[TRANSFER][x];
        aboard += s->load[SOILED][x] - s->load[CLEAN][x] + (came ^ starts ? load : 0);
        wrong |= came & starts;
        r->h[i] = aboard;
        most = aboard > most ? aboard : most;
        seen |= bit(x);
        called |= bit(other);
    }
    r->most = most;
    r->called = called;
    return !wrong;
}

/* E and the metres; is no stop late, first and last included? */
static int starts(const Sheet *s, Route *r)
{
    i32 e = s->earliest[0], total = 0, late = e > s->last[0];
    u32 p = 0;
    for (u32 i = 1; i <= r->legs; i++) {
        u32 x = r->at[i];
        i32 hop = s->service[p] + seconds(s, p, x), leg = metres(s, p, x);
        r->leave[p] = e + s->service[p];
        r->hop[p] = hop;
        r->leg[p] = leg;
        total += leg;
        e = e + hop > s->earliest[x] ? e + hop : s->earliest[x];
        late |= e > s->last[x];
        p = x;
    }
    r->metres = total;
    return !late;
}

/* Clean before soiled: is no soiled stop before another one that is clean? The start and the end have
   no jobs, so they can stand for none. */
static int clean_first(const Sheet *s, Route *r)
{
    u32 clean = r->legs, soiled = 0;
    while (clean > 0 && !(s->clean >> r->at[clean] & 1)) clean--;
    while (soiled < r->legs && !(s->soiled >> r->at[soiled] & 1)) soiled++;
    r->clean_to = clean;
    r->soiled_from = soiled;
    return clean <= soiled;
}

/* What the verdict asks. */
static void look_along(const Sheet *s, u32 van, const State *state, Route *r)
{
    if (r->along) return;
    int ordered = loads(s, r, find_stops(s, state, r));
    int timely = starts(s, r);
    int tidy = !s->profile || clean_first(s, r);
    r->sound = ordered && timely && tidy && r->metres <= s->limit[van] && r->most <= s->capacity[van];
    r->along = 1;
}

/* And what settling asks besides: L, the metres to spare, and the legs before each stop. */
static void look_back(const Sheet *s, u32 van, const State *state, Route *r)
{
    look_along(s, van, state, r);
    if (r->back) return;
    i32 l = s->last[s->n - 1], spare = s->limit[van] - r->metres;
    u64 before = 0;
    for (u32 i = 0; i < r->legs; i++) {
        r->before[i] = before;
        before |= bit(r->at[i]);
    }
    r->before[r->legs] = before;
    for (u32 i = r->legs; i-- > 0;) {
        u32 p = r->at[i];
        r->next[p] = r->at[i + 1];
        r->by[p] = l;
        r->spare[p] = spare + r->leg[p];
        l = l - r->hop[p] < s->last[p] ? l - r->hop[p] : s->last[p];
    }
    r->back = 1;
}
