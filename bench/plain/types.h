/* Numbers, the fleet, and the little that is wanted of the system. The compiler at hand may
   have no library headers, so nothing is included and the system calls are declared here. */

typedef unsigned char u8;
typedef unsigned int u32;
typedef int i32;
typedef unsigned long long u64;
typedef long long i64;

struct clock_time {
    long seconds;
    long nanoseconds;
};

long read(int file, void *to, unsigned long count);
long write(int file, const void *from, unsigned long count);
int clock_gettime(int which, struct clock_time *to);

enum { MOST_NODES = 64, MOST_JOBS = 155, MOST_LEVELS = 64, MOST_STEPS = 2000, MOST_VANS = 8 };
enum { PROGRAM_BYTES = 60396, ROOM = 4030 };

/* One van. */
typedef struct {
    u64 route[MOST_NODES];
    u64 stops;
    u64 sets[MOST_NODES];
    u64 marks;
    u64 levels[MOST_LEVELS];
    u64 level_count;
    u64 records;
} State;

/* The sheet tells how many of the states are vans; the others are zero. */
typedef struct {
    State vans[MOST_VANS];
    u64 must; /* wards that must go somewhere */
} Fleet;

typedef struct {
    u64 answer;
    u64 rounds;
} Answer;

/* What the calls give. The fleet goes in and out by value, as in the planner: whoever hands it in
   keeps his own. */
typedef struct {
    Answer answer;
    Fleet fleet;
} Turned;

typedef struct {
    u64 answer;
    Fleet fleet;
} Opened;

typedef struct {
    u64 answer;
    u64 places;
} Counted;

typedef struct {
    u64 answer;
    int alive;
} Judged;

static inline u64 bit(u64 at) { return 1ULL << at; }
static inline u32 lowest(u64 set) { return (u32)__builtin_ctzll(set); }

static inline u32 word(const u8 *at)
{
    u32 value; /* both machines are little-endian */
    __builtin_memcpy(&value, at, 4);
    return value;
}
