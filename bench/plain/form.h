/* Is the fleet in form? Also which nodes are on each route, as sets. */

/* The nodes on the route, or 0 if it is none or one of them has an open place. Twice the same
   node shows in the number of nodes seen, so the loop asks for no exit. */
static u64 route_nodes(const Sheet *s, const State *state)
{
    u64 seen = 0, bad = 0;
    if (state->stops < 2 || state->stops > s->n) return 0;
    for (u64 i = 0; i < state->stops; i++) {
        u64 x = state->route[i];
        bad |= x >= s->n;
        bad |= state->sets[x & 63];
        seen |= bit(x & 63);
    }
    for (u64 i = state->stops; i < MOST_NODES; i++) bad |= state->route[i];
    bad |= state->route[0] | (state->route[state->stops - 1] ^ (s->n - 1));
    bad |= (u64)__builtin_popcountll(seen) ^ state->stops;
    return bad ? 0 : seen;
}

static int levels_in_form(const State *state)
{
    u64 tail = 0, before = 0;
    if (state->level_count > MOST_LEVELS) return 0;
    for (u64 i = 0; i < state->level_count; i++) {
        if (state->levels[i] < before) return 0;
        before = state->levels[i];
    }
    for (u64 i = state->level_count; i < MOST_LEVELS; i++) tail |= state->levels[i];
    return !tail && before <= state->records;
}

/* Sets only of present legs, and none above n; those of placed nodes are known to be empty. */
static int van_in_form(const Sheet *s, const State *state, u64 on)
{
    u64 open = 0, tail = 0;
    for (u32 x = 0; x < s->n; x++) open |= state->sets[x];
    for (u32 x = s->n; x < MOST_NODES; x++) tail |= state->sets[x];
    u64 bad = tail | (open & ~(on & ~bit(s->n - 1))) | (state->marks & ~wards(s));
    return !bad && levels_in_form(state);
}

/* No ward on a route is on or open in another van; `all` are the nodes on any route. */
static int vans_apart(const Sheet *s, const Fleet *fleet, const u64 *on, u64 all)
{
    u64 shared = 0, open = 0, before = 0;
    for (u32 v = 0; v < s->vans; v++) {
        shared |= before & on[v] & wards(s);
        before |= on[v];
        for (u64 left = all & ~on[v]; left; left &= left - 1) open |= fleet->vans[v].sets[lowest(left)];
    }
    return !(shared | open);
}

/* All there is in the states that are no vans. Four sums side by side, so that none waits for
   another: for one van this is the longest loop of the form. */
static u64 idle_words(const Sheet *s, const Fleet *fleet)
{
    const u64 *w = (const u64 *)&fleet->vans[s->vans];
    u64 count = (MOST_VANS - s->vans) * (sizeof(State) / 8 / 4), a = 0, b = 0, c = 0, d = 0;
    for (u64 i = 0; i < count; i++) {
        a |= w[i];
        b |= w[count + i];
        c |= w[2 * count + i];
        d |= w[3 * count + i];
    }
    return a | b | c | d;
}

static int in_form(const Sheet *s, const Fleet *fleet, u64 *on)
{
    u64 rest = fleet->must & ~wards(s), all = 0;
    for (u32 v = 0; v < s->vans; v++) {
        const State *state = &fleet->vans[v];
        on[v] = route_nodes(s, state);
        if (!on[v] || !van_in_form(s, state, on[v])) return 0;
        rest |= state->level_count ^ fleet->vans[0].level_count;
        all |= on[v];
    }
    rest |= idle_words(s, fleet);
    return !rest && (s->vans == 1 || vans_apart(s, fleet, on, all));
}
