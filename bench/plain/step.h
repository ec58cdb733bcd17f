/* One step: refusals in order, then the change. */

static u64 check_ward(const Work *w, u32 van, u64 x)
{
    if (x < 1 || x > w->sheet->n - 2) return 12;
    return w->routes[van].on >> x & 1 ? 13 : 0;
}

static u64 check_place(const Work *w, u32 van, u64 p, u64 x)
{
    if (p > w->sheet->n - 2) return 12;
    u64 no = check_ward(w, van, x);
    if (no) return no;
    if (!(w->routes[van].on >> p & 1)) return 14;
    return w->fleet->vans[van].sets[x] >> p & 1 ? 0 : 15;
}

/* For an unplaced ward. */
static int owed(const Work *w, u32 van, u64 x)
{
    u64 marks = w->fleet->vans[van].marks, wanted = marks | w->routes[van].on;
    int by_partner = w->sheet->transfers >> x & 1 && wanted >> w->sheet->partner[x] & 1;
    return marks >> x & 1 || by_partner;
}

/* The vans but the named one, from which the ward placed is excluded: does one owe it (22), or
   have no room for the record (17)? */
static u64 check_others(const Work *w, u32 van, u64 x)
{
    u64 full = 0;
    for (u32 v = 0; v < w->sheet->vans; v++) {
        if (v == van) continue;
        if (owed(w, v, x)) return 22;
        full |= w->fleet->vans[v].sets[x] && !room_left(w, v);
    }
    return full ? 17 : 0;
}

static void set_shrinks(const Work *w, u32 van, u64 x, u64 set)
{
    u64 *old = &w->fleet->vans[van].sets[x];
    record(w, van, 1, x, *old);
    *old = set;
}

static u64 shrink(const Work *w, u32 van, u64 x, u64 set)
{
    if (w->fleet->vans[van].sets[x] == set) return 0;
    if (!room_left(w, van)) return 17;
    set_shrinks(w, van, x, set);
    return 0;
}

static void put_on_route(const Work *w, u32 van, u64 p, u64 x)
{
    State *state = &w->fleet->vans[van];
    u64 at = state->stops++;
    for (; state->route[at - 1] != p; at--) state->route[at] = state->route[at - 1];
    state->route[at] = x;
    state->sets[x] = 0;
    for (u64 y = 1, last = w->sheet->n - 1; y < last; y++) state->sets[y] |= (state->sets[y] >> p & 1) << x;
    changed(&w->routes[van], w->routes[van].on | bit(x));
}

static u64 place(const Work *w, u32 van, u64 p, u64 x)
{
    u64 no = check_place(w, van, p, x);
    if (no || (no = check_others(w, van, x))) return no;
    if (!room_left(w, van)) return 17;
    for (u32 v = 0; v < w->sheet->vans; v++)
        if (v != van && w->fleet->vans[v].sets[x]) set_shrinks(w, v, x, 0);
    record(w, van, 2, x, w->fleet->vans[van].sets[x]);
    put_on_route(w, van, p, x);
    return 0;
}

static u64 close_place(const Work *w, u32 van, u64 p, u64 x)
{
    u64 no = check_place(w, van, p, x);
    return no ? no : shrink(w, van, x, w->fleet->vans[van].sets[x] & ~bit(p));
}

static u64 exclude(const Work *w, u32 van, u64 x)
{
    u64 no = check_ward(w, van, x);
    if (no) return no;
    return owed(w, van, x) ? 16 : shrink(w, van, x, 0);
}

/* Steps 4 and 8: a mark, with its record. */
static u64 mark(const Work *w, u32 van, u64 *marks, u64 kind, u64 x)
{
    if (*marks >> x & 1) return 0;
    if (!room_left(w, van)) return 17;
    record(w, van, kind, x, 0);
    *marks |= bit(x);
    return 0;
}

static u64 require(const Work *w, u32 van, u64 x)
{
    u64 no = check_ward(w, van, x);
    return no ? no : mark(w, van, &w->fleet->vans[van].marks, 3, x);
}

static u64 must_go(const Work *w, u64 x)
{
    if (x < 1 || x > w->sheet->n - 2) return 12;
    return mark(w, 0, &w->fleet->must, 4, x);
}

static Answer settle(const Work *w, u32 van)
{
    const State *state = &w->fleet->vans[van];
    u64 sets[MOST_NODES], rounds;
    u64 shrunk = settle_sets(w->sheet, van, state, &w->routes[van], sets, &rounds);
    if ((u64)__builtin_popcountll(shrunk) > w->part / 2 - state->records) return (Answer){17, 0};
    for (; shrunk; shrunk &= shrunk - 1) set_shrinks(w, van, lowest(shrunk), sets[lowest(shrunk)]);
    w->routes[van].tested = 1;
    return (Answer){0, rounds};
}

static u64 open_level(const Work *w)
{
    u64 level = w->fleet->vans[0].level_count;
    if (level == MOST_LEVELS) return 18;
    for (u32 v = 0; v < w->sheet->vans; v++) {
        State *state = &w->fleet->vans[v];
        state->levels[level] = state->records;
        state->level_count = level + 1;
    }
    return 0;
}

/* The sheet is read, the fleet in form, and the routes tell the nodes on them. */
static Answer step_formed(const Work *w, u64 code, u64 first, u64 second)
{
    u64 kind = code % 256, named = code / 256;
    if (kind < 1 || kind > 8) return (Answer){11, 0};
    if (kind == 6) return (Answer){open_level(w), 0};
    if (kind == 7) return (Answer){step_back(w), 0};
    if (kind == 8) return (Answer){must_go(w, first), 0};
    if (named >= w->sheet->vans) return (Answer){21, 0};
    u32 van = (u32)named;
    switch (kind) {
    case 1: return (Answer){place(w, van, first, second), 0};
    case 2: return (Answer){close_place(w, van, first, second), 0};
    case 3: return (Answer){exclude(w, van, first), 0};
    case 4: return (Answer){require(w, van, first), 0};
    default: return settle(w, van);
    }
}
