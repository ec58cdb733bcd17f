/* The plain version: the planner in C, as one writes it without proofs, to be measured against.

   Protocol, the same for both sides. Standard input:
     8 bytes  operation, a 64-bit little-endian number
     8 bytes  how often it is done, likewise
     rest     the day sheet
   Operations:
     0  print the listing of the program `round`, once; nothing else is printed
     1  open the sheet
     2  place: on the half-built fleet, the next ward
     3  settle the first van of the fresh fleet
     4  settle the first van of the half-built fleet
     5  settle the first van of the full fleet
     6  verdict of the half-built fleet
     7  listing, into memory
     8  open places of the half-built fleet
     9  step back, on the fleet that a level was opened in before it was half built
   With v vans, ward x is placed in van (x - 1) mod v, after the last ward on that van's route, or
   after the start. The half-built fleet was given the wards 1 to n/2 - 2, the next one is n/2 - 1,
   the full fleet was given all; a ward whose transfer partner another van has is refused (22), and
   so is one that does not admit its van (15). They are made from the fresh fleet by step 1 alone,
   never settled. (With n/2 = 1 the next ward is 0, after 2^64 - 1, in the first van.)
   Each time starts from the same fleet (a copy), with a trail of v x 2 x 4,030 words, and through
   the calls a user has: bytes of the sheet in, so 1 to 4, 6 and 7 are judged each time.
   Before each time the number of the time, modulo 1,000, is written into seconds(0, 0): a
   diagonal is never used, so nothing changes, but no compiler may do the work once for all.

   Standard output of 1 to 9, two lines:
     result R        the sum over all times, modulo 2^64, of
                     1: answer + stops of all states
                     2 to 5 and 9: answer + rounds + stops and records of all states
                     6: answer + alive     8: answer + places
                     7: length of the text + the sum of its bytes
     nanoseconds T   wall clock of the loop; a side without a clock leaves this line out and is
                     timed from outside, by the difference of two counts
   An input of less than 16 bytes, an unknown operation, or a sheet that is not opened (all but
   operations 0, 1 and 7) prints the one line `cannot`. */

#include "plain/types.h"
#include "plain/sheet.h"
#include "plain/triangle.h"
#include "plain/open.h"
#include "plain/form.h"
#include "plain/route.h"
#include "plain/settle.h"
#include "plain/work.h"
#include "plain/undo.h"
#include "plain/step.h"
#include "plain/verdict.h"
#include "plain/face.h"
#include "plain/text.h"
#include "plain/listing.h"
#include "plain/measure.h"

int main(void) { return measure(); }
