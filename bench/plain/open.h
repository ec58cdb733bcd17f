/* Opening: the triangles of both tables, and the fresh fleet. */

/* A ward is open in the vans that it admits. */
static void fresh(const Sheet *s, Fleet *fleet)
{
    *fleet = (Fleet){0};
    for (u32 v = 0; v < s->vans; v++) {
        State *state = &fleet->vans[v];
        state->route[1] = s->n - 1;
        state->stops = 2;
        for (u32 x = 1; x + 1 < s->n; x++) state->sets[x] = (s->admits[x] & s->class[v]) != 0;
    }
}

static int triangles_broken(const Sheet *s)
{
    return triangle_broken(s->seconds, s->n) || triangle_broken(s->metres, s->n);
}

static __attribute__((noinline)) Opened open_sheet(const u8 *bytes, u64 length)
{
    Sheet s;
    Opened o;
    o.answer = read_sheet(bytes, length, &s);
    if (!o.answer && triangles_broken(&s)) o.answer = 5;
    if (o.answer) o.fleet = (Fleet){0};
    else fresh(&s, &o.fleet);
    return o;
}
