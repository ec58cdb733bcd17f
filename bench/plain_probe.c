/* `probe` over the plain version, so that its every call can be compared, not only listings.
   The format is that of the planner's own `probe`; see docs/PROBE.md. */

#include "plain/types.h"
#include "plain/sheet.h"
#include "plain/section.h"
#include "plain/triangle.h"
#include "plain/open.h"
#include "plain/form.h"
#include "plain/route.h"
#include "plain/settle.h"
#include "plain/work.h"
#include "plain/undo.h"
#include "plain/step.h"
#include "plain/verdict.h"
#include "plain/face.h"

enum { MOST_SHEET = 61440, MOST_TRAIL = 65536, NUMBERS = 196 * MOST_VANS + 1, BUFFER = 1 << 16 };

static u8 in_buffer[BUFFER], out_buffer[BUFFER], sheet[MOST_SHEET];
static u64 in_at, in_end, out_length, trail[MOST_TRAIL];

/* Fills `to`; 1 if all came, 0 if the input ended first, with *some telling whether any came. */
static int take(u8 *to, u64 count, int *some)
{
    for (u64 i = 0; i < count; i++) {
        if (in_at == in_end) {
            long got = read(0, in_buffer, BUFFER);
            if (got <= 0) return 0;
            in_at = 0;
            in_end = (u64)got;
        }
        to[i] = in_buffer[in_at++];
        *some = 1;
    }
    return 1;
}

static void flush(void)
{
    u64 done = 0;
    while (done < out_length) {
        long now = write(1, out_buffer + done, out_length - done);
        if (now <= 0) break;
        done += (u64)now;
    }
    out_length = 0;
}

static void put_byte(u8 byte)
{
    if (out_length == BUFFER) flush();
    out_buffer[out_length++] = byte;
}

static void put_number(u64 value, u8 after)
{
    u8 digits[20];
    u32 count = 0;
    do digits[count++] = (u8)('0' + value % 10);
    while (value /= 10);
    while (count) put_byte(digits[--count]);
    put_byte(after);
}

static void put_words(const char *words)
{
    while (*words) put_byte((u8)*words++);
}

static void answer_section(u64 length, u64 number)
{
    const u8 *begin;
    u64 size = section(sheet, length, number, &begin);
    put_number(size, size ? ' ' : '\n');
    for (u64 i = 0; i < size; i++) put_number(begin[i], i + 1 < size ? ' ' : '\n');
}

static void answer_rest(const u64 *head, Fleet *fleet)
{
    Answer a = {0, 0};
    u64 places = 0;
    int alive = 0;
    if (head[2] == 0) {
        Opened o = open_sheet(sheet, head[0]);
        a.answer = o.answer;
        *fleet = o.fleet;
    }
    if (head[2] == 1) {
        Turned t = step(sheet, head[0], *fleet, trail, head[1], head[3], head[4], head[5]);
        a = t.answer;
        *fleet = t.fleet;
    }
    if (head[2] == 2) {
        Counted c = open_places(sheet, head[0], *fleet);
        a.answer = c.answer;
        places = c.places;
    }
    if (head[2] == 3) {
        Judged j = verdict(sheet, head[0], *fleet);
        a.answer = j.answer;
        alive = j.alive;
    }
    put_number(a.answer, ' ');
    put_number(a.rounds, ' ');
    put_number(places, ' ');
    put_number((u64)alive, ' ');
    u64 numbers[NUMBERS];
    __builtin_memcpy(numbers, fleet, sizeof numbers);
    for (u32 i = 0; i < NUMBERS; i++) put_number(numbers[i], i + 1 < NUMBERS || head[1] ? ' ' : '\n');
    for (u64 i = 0; i < head[1]; i++) put_number(trail[i], i + 1 < head[1] ? ' ' : '\n');
}

/* 1 if a case was answered, 0 at the end, and `bad case` where one cannot be read. */
static int one_case(void)
{
    u64 head[6];
    static Fleet fleet;
    int some = 0;
    int well = take((u8 *)head, sizeof head, &some);
    if (!some) return 0;
    well = well && head[0] <= MOST_SHEET && head[1] <= MOST_TRAIL && head[2] <= 4;
    well = well && take((u8 *)&fleet, sizeof fleet, &some) && take(sheet, head[0], &some) && take((u8 *)trail, 8 * head[1], &some);
    if (!well) {
        put_words("bad case\n");
        return 0;
    }
    if (head[2] == 4) answer_section(head[0], head[3]);
    else answer_rest(head, &fleet);
    return 1;
}

int main(void)
{
    while (one_case()) {
    }
    flush();
    return 0;
}
