/* The protocol at the head of plain.c. */

enum { MOST_INPUT = 16 + 61440 + 4 };

static u8 input[MOST_INPUT];
static u64 input_length;
static u64 trail[2 * ROOM * MOST_VANS];
static char text[MOST_TEXT];

static void read_input(void)
{
    long got;
    while (input_length < MOST_INPUT && (got = read(0, input + input_length, MOST_INPUT - input_length)) > 0)
        input_length += (u64)got;
}

static void write_text(u64 length)
{
    u64 done = 0;
    while (done < length) {
        long put_now = write(1, text + done, length - done);
        if (put_now <= 0) return;
        done += (u64)put_now;
    }
}

static u64 number_at(const u8 *at) { return word(at) | (u64)word(at + 4) << 32; }

static u64 now(void)
{
    struct clock_time t;
    clock_gettime(1, &t); /* the monotonic clock */
    return (u64)t.seconds * 1000000000 + (u64)t.nanoseconds;
}

/* What is measured, and on what. */
typedef struct {
    u64 operation;
    u8 *sheet;
    u64 length, n, vans;
    Fleet from; /* what each time starts from */
} Task;

static Turned take_step(const Task *t, u64 code, u64 first, u64 second)
{
    return step(t->sheet, t->length, t->from, trail, 2 * ROOM * t->vans, code, first, second);
}

/* The vans get the wards by turns, each after the last one its van has: the stop before the end.
   That may be an older one, since a ward that another van owes is refused. */
static Turned next_ward(const Task *t, u64 x)
{
    if (!x) return take_step(t, 1, x - 1, x);
    const State *van = &t->from.vans[(x - 1) % t->vans];
    return take_step(t, 256 * ((x - 1) % t->vans) + 1, van->route[van->stops - 2], x);
}

/* Wards 1, 2, ... in order, `stops` in all with start and end. */
static void build(Task *t, u64 stops)
{
    for (u64 x = 1; x + 1 < stops; x++) t->from = next_ward(t, x).fleet;
}

static u64 sum_of(const Turned *to)
{
    u64 sum = to->answer.answer + to->answer.rounds;
    for (u64 v = 0; v < MOST_VANS; v++) sum += to->fleet.vans[v].stops + to->fleet.vans[v].records;
    return sum;
}

static __attribute__((noinline)) u64 one_placing(const Task *t)
{
    Turned to = next_ward(t, t->n / 2 - 1);
    return sum_of(&to);
}

static __attribute__((noinline)) u64 one_step(const Task *t)
{
    Turned to = take_step(t, t->operation == 9 ? 7 : 5, 0, 0);
    return sum_of(&to);
}

static __attribute__((noinline)) u64 one_listing(const Task *t)
{
    u64 length = listing(t->sheet, t->length, text);
    u32 sum = 0;
    for (u64 i = 0; i < length; i++) sum += (u8)text[i];
    return length + sum;
}

static __attribute__((noinline)) u64 one_opening(const Task *t)
{
    Opened o = open_sheet(t->sheet, t->length);
    u64 stops = 0;
    for (u32 v = 0; v < MOST_VANS; v++) stops += o.fleet.vans[v].stops;
    return o.answer + stops;
}

static u64 one_time(const Task *t)
{
    switch (t->operation) {
    case 1: return one_opening(t);
    case 2: return one_placing(t);
    case 6: {
        Judged j = verdict(t->sheet, t->length, t->from);
        return j.answer + (u64)j.alive;
    }
    case 7: return one_listing(t);
    case 8: {
        Counted c = open_places(t->sheet, t->length, t->from);
        return c.answer + c.places;
    }
    default: return one_step(t);
    }
}

/* Where seconds(0, 0) stands, or 0 if the sheet is not read; also its nodes and vans. */
static u64 diagonal(Task *t)
{
    Sheet s;
    if (read_sheet(t->sheet, t->length, &s)) return 0;
    t->n = s.n;
    t->vans = s.vans;
    return (u64)(s.seconds - t->sheet);
}

/* The length of the text, or 0 if it cannot be done. */
static u64 repeat(u64 operation, u64 count, u8 *sheet, u64 length)
{
    static Task t;
    t.operation = operation;
    t.sheet = sheet;
    t.length = length;
    u64 spot = diagonal(&t), sum = 0;
    Opened o = open_sheet(sheet, length);
    t.from = o.fleet;
    if (o.answer && operation != 1 && operation != 7) return 0;
    if (operation == 9) t.from = take_step(&t, 6, 0, 0).fleet;
    if (operation == 5) build(&t, t.n);
    else if (operation != 3 && !o.answer) build(&t, t.n / 2);
    u64 begin = now();
    for (u64 i = 0; i < count; i++) {
        u32 mark = (u32)(i % 1000);
        if (spot) __builtin_memcpy(sheet + spot, &mark, 4);
        sum += one_time(&t);
    }
    u64 end = now();
    char *at = put_number(PUT(text, "result "), sum);
    at = put_number(PUT(at, "\nnanoseconds "), end - begin);
    *at = '\n';
    return (u64)(at + 1 - text);
}

static int measure(void)
{
    read_input();
    u64 operation = number_at(input), count = number_at(input + 8), done = 0;
    int well = input_length >= 16;
    if (well && operation == 0) done = listing(input + 16, input_length - 16, text);
    else if (well && operation <= 9) done = repeat(operation, count, input + 16, input_length - 16);
    if (!done) done = (u64)(PUT(text, "cannot\n") - text);
    write_text(done);
    return 0;
}
