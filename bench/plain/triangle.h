/* The triangle rule of one table, refusal 5. */

/* Every x86-64 and every Arm of 64 bits takes four numbers at once. */
typedef i32 Four __attribute__((vector_size(16)));

static inline Four four(i32 x) { return (Four){x, x, x, x}; }

static inline int negative(Four x) { return (x[0] | x[1] | x[2] | x[3]) < 0; }

static union {
    i32 at[MOST_NODES];
    Four part[MOST_NODES / 4];
} square[MOST_NODES];

/* The rows end with zeros, so that they are whole parts, an even number of them; a column of zeros
   breaks no rule. */
static void read_square(const u8 *table, u64 n, u64 parts)
{
    for (u64 i = 0; i < n; i++) {
        square[i].part[parts - 2] = square[i].part[parts - 1] = four(0);
        for (u64 k = 0; k < n; k++) square[i].at[k] = (i32)word(table + 4 * (i * n + k));
        square[i].at[i] = 0;
    }
}

/* Two rows at a time, both ways round: what (i, k) is above (j, k) must be within (i, j), and the
   other way within (j, i); what is left of either is negative if the rule is broken. With a
   diagonal of 0, triples that are not different can never break it, so nothing is asked of k. Row
   i stays in registers while j runs: so a strip of it only, eight parts at most, and `wide` is a
   constant where it is put in. */
static inline __attribute__((always_inline)) int strip_broken(u64 n, u64 from, u64 wide)
{
    Four row[8], bad = four(0);
    for (u64 i = 1; i < n && !negative(bad); i++) {
        for (u64 p = 0; p < wide; p++) row[p] = square[i].part[from + p];
        for (u64 j = 0; j < i; j++) {
            Four there = four(square[i].at[j]), back = four(square[j].at[i]);
            for (u64 p = 0; p < wide; p++) {
                Four above = row[p] - square[j].part[from + p];
                bad |= (there - above) | (back + above);
            }
        }
    }
    return negative(bad);
}

static int triangle_broken(const u8 *table, u64 n)
{
    u64 parts = (n + 7) / 8 * 2, from = 0;
    read_square(table, n, parts);
    for (; from + 8 <= parts; from += 8)
        if (strip_broken(n, from, 8)) return 1;
    if (parts & 4 && strip_broken(n, from, 4)) return 1;
    return parts & 2 && strip_broken(n, parts - 2, 2);
}
