/* What a step works on: the sheet read, the fleet in form, its routes, and the lent trail, which
   is cut into as many equal parts as there are vans. */

typedef struct {
    const Sheet *sheet;
    Fleet *fleet;
    Route *routes; /* one a van */
    u64 *trail;
    u64 part;      /* words of the trail that a van has */
} Work;

static inline u64 *trail_of(const Work *w, u32 van) { return w->trail + van * w->part; }

static inline int room_left(const Work *w, u32 van) { return w->fleet->vans[van].records < w->part / 2; }

/* There must be room. */
static inline void record(const Work *w, u32 van, u64 kind, u64 node, u64 old)
{
    u64 *to = trail_of(w, van) + 2 * w->fleet->vans[van].records++;
    to[0] = 256 * kind + node;
    to[1] = old;
}
