/* The calls a user has, besides opening and reading a section: bytes of the sheet and a fleet
   that may hold anything, by value. A step works on its own copy, and hands that back. None is
   inlined, so that what a call costs is what a user pays. Opening is in open.h, the section in
   section.h. */

static Answer step_on(const u8 *bytes, u64 length, Fleet *fleet, u64 *words, u64 count, u64 code, u64 first, u64 second)
{
    Sheet s;
    Route routes[MOST_VANS];
    u64 on[MOST_VANS];
    u64 no = read_sheet(bytes, length, &s);
    if (no) return (Answer){no, 0};
    if (!in_form(&s, fleet, on)) return (Answer){19, 0};
    Work w = {&s, fleet, routes, words, s.vans == 1 ? count : count / s.vans};
    for (u32 v = 0; v < s.vans; v++) {
        if (fleet->vans[v].records > w.part / 2) return (Answer){19, 0};
        changed(&routes[v], on[v]);
    }
    return step_formed(&w, code, first, second);
}

static __attribute__((noinline)) Turned step(const u8 *bytes, u64 length, Fleet fleet, u64 *words, u64 count, u64 code, u64 first, u64 second)
{
    Answer answer = step_on(bytes, length, &fleet, words, count, code, first, second);
    return (Turned){answer, fleet};
}

static __attribute__((noinline)) Judged verdict(const u8 *bytes, u64 length, Fleet fleet)
{
    Sheet s;
    Route route;
    u64 on[MOST_VANS], all = 0;
    u64 no = read_sheet(bytes, length, &s);
    if (no) return (Judged){no, 0};
    if (!in_form(&s, &fleet, on)) return (Judged){19, 0};
    for (u32 v = 0; v < s.vans; v++) {
        changed(&route, on[v]);
        if (!van_alive(&s, v, &fleet.vans[v], &route)) return (Judged){0, 0};
        all |= on[v];
    }
    return (Judged){0, !must_lost(&s, &fleet, all)};
}

static __attribute__((noinline)) Counted open_places(const u8 *bytes, u64 length, Fleet fleet)
{
    Sheet s;
    u64 on[MOST_VANS], sum = 0;
    u64 no = read_sheet(bytes, length, &s);
    if (no) return (Counted){no, 0};
    if (!in_form(&s, &fleet, on)) return (Counted){19, 0};
    for (u32 v = 0; v < s.vans; v++) sum += count_places(&fleet.vans[v], s.n);
    return (Counted){0, sum};
}
