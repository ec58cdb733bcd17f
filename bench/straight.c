/* The plain version with the triangle rule as 01 words it: every comparison builds its three words from bytes.
   Only for counting (reads.sh). */

#include "plain/types.h"
#include "plain/sheet.h"

static int triangle_broken(const u8 *table, u64 n)
{
    for (u64 i = 0; i < n; i++)
        for (u64 j = 0; j < n; j++)
            for (u64 k = 0; k < n; k++) {
                if (i == j || j == k || i == k) continue;
                if (word(table + 4 * (i * n + k)) > word(table + 4 * (i * n + j)) + word(table + 4 * (j * n + k))) return 1;
            }
    return 0;
}

#include "plain/open.h"
#include "plain/form.h"
#include "plain/route.h"
#include "plain/settle.h"
#include "plain/work.h"
#include "plain/undo.h"
#include "plain/step.h"
#include "plain/verdict.h"
#include "plain/face.h"
#include "plain/text.h"
#include "plain/listing.h"
#include "plain/measure.h"

int main(void) { return measure(); }
