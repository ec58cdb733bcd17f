/* A section's entries, as the stretch of the sheet itself. */

static u64 section(const u8 *bytes, u64 length, u64 number, const u8 **begin)
{
    Sheet s;
    *begin = bytes;
    if (number < 1 || number > 6 || read_sheet(bytes, length, &s)) return 0;
    u64 table = 4 * (u64)s.n * s.n;
    switch (number) {
    case 1: *begin = bytes + 4; return 12 * s.vans + 4;
    case 2: *begin = s.nodes; return 16 * s.n;
    case 3: *begin = s.jobs; return 16 * s.job_count;
    case 4: *begin = s.seconds; return table;
    case 5: *begin = s.metres; return table;
    default: *begin = s.steps; return 12 * s.step_count;
    }
}
