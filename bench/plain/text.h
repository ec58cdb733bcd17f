/* Text written through a pointer, which each writer hands back behind what it wrote. */

static const char pairs[] =
    "00010203040506070809101112131415161718192021222324252627282930313233343536373839"
    "40414243444546474849505152535455565758596061626364656667686970717273747576777879"
    "8081828384858687888990919293949596979899";

/* Of a length known here, so that it is a move or two. */
#define PUT(at, words) (__builtin_memcpy(at, words, sizeof words - 1), (at) + sizeof words - 1)

static inline char *put_pair(char *at, u32 value)
{
    __builtin_memcpy(at, pairs + 2 * value, 2);
    return at + 2;
}

/* Two digits a division, from the back. */
static char *put_long(char *at, u64 value)
{
    char digits[20];
    u32 from = 20;
    for (; value >= 100; value /= 100) put_pair(digits + (from -= 2), (u32)(value % 100));
    if (value >= 10) put_pair(digits + (from -= 2), (u32)value);
    else digits[--from] = (char)('0' + value);
    while (from < 20) *at++ = digits[from++];
    return at;
}

static inline char *put_number(char *at, u64 value)
{
    if (value < 10) {
        *at = (char)('0' + value);
        return at + 1;
    }
    if (value < 100) return put_pair(at, (u32)value);
    if (value >= 10000) return put_long(at, value);
    u32 high = (u32)value / 100;
    if (high < 10) *at++ = (char)('0' + high);
    else at = put_pair(at, high);
    return put_pair(at, (u32)value % 100);
}
