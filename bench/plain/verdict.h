/* Open places, and the verdict. */

/* Of the first n nodes. */
static u64 count_places(const State *state, u32 n)
{
    u64 sum = 0;
    for (u32 x = 0; x < n; x++) sum += (u64)__builtin_popcountll(state->sets[x]);
    return sum;
}

/* One van: its route, and a place for each ward it owes. */
static int van_alive(const Sheet *s, u32 van, const State *state, Route *r)
{
    look_along(s, van, state, r);
    if (!r->sound) return 0;
    u64 owing = state->marks | r->called;
    for (u64 left = state->marks & s->transfers; left; left &= left - 1) owing |= bit(s->partner[lowest(left)]);
    for (u64 left = owing & ~r->on; left; left &= left - 1)
        if (!state->sets[lowest(left)]) return 0;
    return 1;
}

/* Wards that must go somewhere and are placed or open in no van; `all` are those on any route. */
static u64 must_lost(const Sheet *s, const Fleet *fleet, u64 all)
{
    u64 lost = 0;
    for (u64 left = fleet->must & ~all; left; left &= left - 1) {
        u64 open = 0;
        for (u32 v = 0; v < s->vans; v++) open |= fleet->vans[v].sets[lowest(left)];
        if (!open) lost |= left & -left;
    }
    return lost;
}
