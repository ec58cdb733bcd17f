/* The listing of the program, into a buffer. The sheet is read once, and one fleet is worked on
   in place: it is in form by its making, so only opening is checked. */

enum { MOST_TEXT = 112 * MOST_STEPS + (8 + 3 * MOST_NODES) * MOST_VANS };

/* What the lines tell, kept by van and in sum. */
typedef struct {
    u64 places[MOST_VANS], records[MOST_VANS];
    u64 all_places, all_records;
    u32 dead; /* vans, as a set */
    int alive;
} Told;

static void tell_van(const Work *w, u32 van, Told *told)
{
    const State *state = &w->fleet->vans[van];
    u64 places = count_places(state, w->sheet->n);
    told->all_places += places - told->places[van];
    told->all_records += state->records - told->records[van];
    told->places[van] = places;
    told->records[van] = state->records;
    told->dead &= ~(1u << van);
    if (!van_alive(w->sheet, van, state, &w->routes[van])) told->dead |= 1u << van;
}

/* Every change of route, sets or marks writes a record or takes one back, so a van with as many
   records as before is as before. */
static void tell_changes(const Work *w, Told *told)
{
    u64 all = 0;
    u32 told_anew = 0;
    for (u32 v = 0; v < w->sheet->vans; v++) {
        all |= w->routes[v].on;
        if (w->fleet->vans[v].records == told->records[v]) continue;
        tell_van(w, v, told);
        told_anew = 1;
    }
    if (told_anew) told->alive = !told->dead && !must_lost(w->sheet, w->fleet, all);
}

static char *put_step(char *at, u64 number, Answer a, const Told *told)
{
    at = put_number(PUT(at, "step "), number);
    at = put_number(PUT(at, " answer "), a.answer);
    at = put_number(PUT(at, " open "), told->all_places);
    at = put_number(PUT(at, " records "), told->all_records);
    at = put_number(PUT(at, " rounds "), a.rounds);
    at = put_number(PUT(at, " alive "), (u64)told->alive);
    *at = '\n';
    return at + 1;
}

static char *put_route(char *at, const State *state)
{
    at = PUT(at, "route");
    for (u64 i = 0; i < state->stops; i++) {
        *at = ' ';
        at = put_number(at + 1, state->route[i]);
    }
    *at = '\n';
    return at + 1;
}

static char *put_steps(char *at, const Work *w)
{
    Told told = {0};
    const Sheet *s = w->sheet;
    for (u32 v = 0; v < s->vans; v++) tell_van(w, v, &told);
    told.alive = !told.dead;
    for (u32 i = 0; i < s->step_count; i++) {
        const u8 *e = s->steps + 12 * i;
        Answer a = step_formed(w, word(e), word(e + 4), word(e + 8));
        if (!a.answer) tell_changes(w, &told);
        at = put_step(at, i + 1, a, &told);
    }
    return at;
}

static u64 listing_trail[2 * ROOM * MOST_VANS];

/* The length of the text. */
static u64 listing(const u8 *bytes, u64 length, char *text)
{
    Sheet s;
    Fleet fleet;
    Route routes[MOST_VANS];
    u64 no = length > PROGRAM_BYTES ? 1 : read_sheet(bytes, length, &s);
    if (!no && triangles_broken(&s)) no = 5;
    if (no) {
        char *end = put_number(PUT(text, "refused "), no);
        *end = '\n';
        return (u64)(end + 1 - text);
    }
    Work w = {&s, &fleet, routes, listing_trail, 2 * ROOM};
    fresh(&s, &fleet);
    for (u32 v = 0; v < s.vans; v++) changed(&routes[v], 1 | bit(s.n - 1));
    char *at = put_steps(text, &w);
    for (u32 v = 0; v < s.vans; v++) at = put_route(at, &fleet.vans[v]);
    return (u64)(at - text);
}
