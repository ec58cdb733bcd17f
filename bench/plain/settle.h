/* Settling. Only the support of a transfer with neither node placed can change between rounds;
   all else hangs on the route alone and is done once, and not again while the route stands and
   the sets only shrink. */

/* Legs from stop `from` on, up to the first without the room. */
static u64 legs_on(const Route *r, u32 from, i32 room)
{
    u64 kept = 0;
    if (r->most <= room) return r->before[r->legs] & ~r->before[from];
    for (u32 i = from; i < r->legs && r->h[i] <= room; i++) kept |= bit(r->at[i]);
    return kept;
}

/* Legs before stop `to`, back to the first without the room. */
static u64 legs_back(const Route *r, u32 to, i32 room)
{
    u64 kept = 0;
    if (r->most <= room) return r->before[to];
    for (u32 i = to; i-- > 0 && r->h[i] <= room;) kept |= bit(r->at[i]);
    return kept;
}

/* Places of x that keep window and metres. The larger of earliest and arrival is within a bound if
   both are, so nothing need be chosen: what is left below each bound is negative, all of it
   together too, if one is broken. Earliest against the last moment is the same for every place. Not
   inlined: the loop needs all the registers there are. */
static __attribute__((noinline)) u64 kept_alone(const Sheet *s, const Route *r, u32 x, u64 set)
{
    i32 earliest = s->earliest[x], last = s->last[x], service = s->service[x];
    u64 kept = 0;
    if (earliest > last) return 0;
    for (u64 left = set; left; left &= left - 1) {
        u32 p = lowest(left), k = r->next[p];
        i32 arrival = r->leave[p] + seconds(s, p, x);
        i32 bound = r->by[p] - service - seconds(s, x, k);
        i32 spare = (last - arrival) | (bound - arrival) | (bound - earliest);
        spare |= r->spare[p] - metres(s, p, x) - metres(s, x, k);
        kept |= left & -left & ~(u64)(i64)(spare >> 31);
    }
    return kept;
}

/* Under the profile: legs before the first soiled stop for a clean node, from the last clean one on for
   a soiled node. */
static u64 kept_tidy(const Sheet *s, const Route *r, u32 x, u64 kept)
{
    if (s->clean >> x & 1) kept &= r->before[r->soiled_from];
    if (s->soiled >> x & 1) kept &= ~r->before[r->clean_to];
    return kept;
}

/* All that hangs on the route alone. */
static u64 kept_by_route(const Sheet *s, u32 van, const Route *r, u32 x, u64 set)
{
    i32 capacity = s->capacity[van];
    u64 kept = kept_alone(s, r, x, s->profile ? kept_tidy(s, r, x, set) : set);
    if (s->load[CLEAN][x]) kept &= legs_on(r, 0, capacity - s->load[CLEAN][x]);
    if (s->load[SOILED][x]) kept &= legs_back(r, r->legs, capacity - s->load[SOILED][x]);
    if (r->called >> x & 1) {
        u32 other = r->stop_of[s->partner[x]];
        i32 room = capacity - s->load[TRANSFER][x];
        kept &= s->pickups >> x & 1 ? legs_back(r, other, room) : legs_on(r, other, room);
    }
    return kept;
}

/* Both off the route: a's legs that reach an open leg of b, and b's that are reached. */
static void supported(const Route *r, i32 room, u64 set_a, u64 set_b, u64 *keep_a, u64 *keep_b)
{
    u64 reach = 0;
    u32 first = 0, last = r->legs;
    *keep_a = *keep_b = 0;
    if (r->most <= room) {
        while (first < r->legs && !(set_a >> r->at[first] & 1)) first++;
        while (last > 0 && !(set_b >> r->at[last - 1] & 1)) last--;
        *keep_b = r->before[r->legs] & ~r->before[first];
        *keep_a = r->before[last];
        return;
    }
    for (u32 i = 0; i < r->legs; i++) {
        u64 leg = bit(r->at[i]);
        reach = r->h[i] <= room && (reach || set_a & leg);
        if (reach) *keep_b |= leg;
    }
    reach = 0;
    for (u32 i = r->legs; i-- > 0;) {
        u64 leg = bit(r->at[i]);
        reach = r->h[i] <= room && (reach || set_b & leg);
        if (reach) *keep_a |= leg;
    }
}

/* Strikes a pair by support against the sets as the first round found them, and once more if
   that round struck at it. A third look would find nothing: who lost his support in the second
   round had it from a place that itself had none. The number of the last round that struck. */
static u64 strike_pair(const Route *r, i32 room, u64 old_a, u64 old_b, u64 *a, u64 *b)
{
    u64 keep_a, keep_b;
    supported(r, room, old_a, old_b, &keep_a, &keep_b);
    *a &= keep_a;
    *b &= keep_b;
    if (*a == old_a && *b == old_b) return 0;
    supported(r, room, *a, *b, &keep_a, &keep_b);
    if (!((*a & ~keep_a) | (*b & ~keep_b))) return 1;
    *a &= keep_a;
    *b &= keep_b;
    return 2;
}

/* The nodes whose set shrinks, with their sets when nothing more is struck. */
static u64 settle_sets(const Sheet *s, u32 van, const State *state, Route *r, u64 *sets, u64 *rounds)
{
    u64 open = 0, shrunk = 0;
    *rounds = 0;
    for (u64 left = wards(s) & ~r->on; left; left &= left - 1)
        if (state->sets[lowest(left)]) open |= left & -left;
    if (!open) return 0;
    look_back(s, van, state, r);
    for (u64 left = open; left; left &= left - 1) {
        u32 x = lowest(left);
        sets[x] = r->tested ? state->sets[x] : kept_by_route(s, van, r, x, state->sets[x]);
        if (sets[x] != state->sets[x]) *rounds = 1;
    }
    for (u64 left = s->pickups & ~r->on & ~r->called; left; left &= left - 1) {
        u32 a = lowest(left), b = s->partner[a];
        if (!((open >> a | open >> b) & 1)) continue;
        if (!(open >> a & 1)) sets[a] = 0;
        if (!(open >> b & 1)) sets[b] = 0;
        u64 last = strike_pair(r, s->capacity[van] - s->load[TRANSFER][a], state->sets[a], state->sets[b], &sets[a], &sets[b]);
        if (last > *rounds) *rounds = last;
    }
    for (u64 left = open; left; left &= left - 1)
        if (sets[lowest(left)] != state->sets[lowest(left)]) shrunk |= left & -left;
    return shrunk;
}
