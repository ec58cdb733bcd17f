/* Stepping back. It is worked out beside the fleet, so that a record that does not fit leaves
   all as it was. Undoing a placing takes its leg out of every set; as routes only get shorter
   here, that is done once at the end, and until then a set counts for the legs still there. */

typedef struct {
    u64 on, legs, marks;
    u64 sets[MOST_NODES];
    u8 next[MOST_NODES], last[MOST_NODES]; /* neighbours on the route, by node */
} Undone;

static void begin_undoing(const State *state, u64 on, u32 n, Undone *u)
{
    u32 p = 0;
    u->on = on;
    u->legs = on & ~bit(n - 1);
    u->marks = state->marks;
    for (u32 x = 0; x < n; x++) u->sets[x] = state->sets[x];
    for (u64 i = 1; i < state->stops; i++) {
        u32 x = (u32)state->route[i];
        u->next[p] = (u8)x;
        u->last[x] = (u8)p;
        p = x;
    }
}

static int undo_placed(Undone *u, u64 node, u64 old)
{
    u64 legs = u->legs & ~bit(node);
    if (!(u->on >> node & 1)) return 0;
    u32 p = u->last[node], k = u->next[node];
    if (old & ~legs || !(old >> p & 1)) return 0;
    u->next[p] = (u8)k;
    u->last[k] = (u8)p;
    u->on &= ~bit(node);
    u->legs = legs;
    u->sets[node] = old;
    return 1;
}

/* `must` is 0 but for the first van. */
static int undo_one(Undone *u, u64 *must, u64 first, u64 old, u32 n)
{
    u64 kind = first / 256, node = first % 256;
    if (node < 1 || node > n - 2) return 0;
    if (kind == 2) return undo_placed(u, node, old);
    if (kind == 4) {
        if (old || !(*must >> node & 1)) return 0;
        *must &= ~bit(node);
        return 1;
    }
    if (u->on >> node & 1) return 0;
    if (kind == 1) {
        u64 set = u->sets[node] & u->legs;
        if (set & ~old || old == set || old & ~u->legs) return 0;
        u->sets[node] = old;
        return 1;
    }
    if (kind != 3 || old || !(u->marks >> node & 1)) return 0;
    u->marks &= ~bit(node);
    return 1;
}

/* The van's records above its last level; 0 if one does not fit. */
static int undo_van(const Work *w, u32 van, Undone *u, u64 *must)
{
    const State *state = &w->fleet->vans[van];
    const u64 *trail = trail_of(w, van);
    u64 floor = state->levels[state->level_count - 1];
    begin_undoing(state, w->routes[van].on, w->sheet->n, u);
    for (u64 i = state->records; i-- > floor;)
        if (!undo_one(u, must, trail[2 * i], trail[2 * i + 1], w->sheet->n)) return 0;
    return 1;
}

/* The rule between the vans: no ward on a route is on or open in another. */
static int undone_apart(const Sheet *s, const Undone *u)
{
    u64 shared = 0, open = 0, all = 0;
    for (u32 v = 0; v < s->vans; v++) {
        shared |= all & u[v].on & wards(s);
        all |= u[v].on;
    }
    for (u32 v = 0; v < s->vans; v++)
        for (u64 left = all & ~u[v].on; left; left &= left - 1) open |= u[v].sets[lowest(left)] & u[v].legs;
    return !(shared | open);
}

static void keep_undone(const Work *w, u32 van, const Undone *u)
{
    State *state = &w->fleet->vans[van];
    u64 stops = 1;
    for (u32 x = 0; x < w->sheet->n; x++) state->sets[x] = u->sets[x] & u->legs;
    state->marks = u->marks;
    w->routes[van].tested = 0;
    if (u->on == w->routes[van].on) return;
    for (u32 p = 0; p != w->sheet->n - 1; stops++) state->route[stops] = p = u->next[p];
    for (u64 i = stops; i < state->stops; i++) state->route[i] = 0;
    state->stops = stops;
    changed(&w->routes[van], u->on);
}

static u64 step_back(const Work *w)
{
    Undone undone[MOST_VANS];
    u32 vans = w->sheet->vans;
    u64 must = w->fleet->must, none = 0;
    if (!w->fleet->vans[0].level_count) return 18;
    for (u32 v = 0; v < vans; v++)
        if (!undo_van(w, v, &undone[v], v ? &none : &must)) return 20;
    if (vans > 1 && !undone_apart(w->sheet, undone)) return 20;
    for (u32 v = 0; v < vans; v++) {
        State *state = &w->fleet->vans[v];
        u64 *level = &state->levels[state->level_count - 1];
        if (state->records != *level) keep_undone(w, v, &undone[v]);
        state->records = *level;
        *level = 0;
        state->level_count--;
    }
    w->fleet->must = must;
    return 0;
}
