// Plays series of fights as fast as a processor lets a program: what `cwtune` could reach at most.
//
//   limit CANDIDATE.load OPPONENT.load SCHEDULE.csv
//
// Threaded code: each instruction that occurs is a function for each side, all but its numbers
// known at compile time, and ends in a jump to the next one's. Nothing is proved and no index is
// checked. KEYS.inc has the instructions of the warriors: no fight makes others. Core of 8000
// cells.
#include <array>
#include <cstdint>
#include <cstdio>
#include <cstdlib>
#include <cstring>
#include <utility>

using u16 = uint16_t;
using u32 = uint32_t;
using u64 = uint64_t;

enum Opcode { DAT, MOV, ADD, SUB, MUL, DIV, MOD, JMP, JMZ, JMN, DJN, SEQ, SNE, SLT, SPL, NOP };
enum Modifier { A, B, AB, BA, F, X, I };
enum Mode {
    IMMEDIATE, DIRECT, A_INDIRECT, B_INDIRECT, A_DECREMENT, B_DECREMENT, A_INCREMENT, B_INCREMENT
};
const char *const OPCODES[] = {"DAT", "MOV", "ADD", "SUB", "MUL", "DIV", "MOD", "JMP",
                               "JMZ", "JMN", "DJN", "SEQ", "SNE", "SLT", "SPL", "NOP"};
const char *const MODIFIERS[] = {"A", "B", "AB", "BA", "F", "X", "I"};
const char MODES[] = "#$*@{<}>";

constexpr u32 SIZE = 8000, TASKS = 8000, CYCLES = 80000, STRETCH = 2000, FEW = 8;
// The slots of a queue: a task each, a turn each of a stretch, and room to keep the queues apart.
constexpr u32 SLOTS = 16928;
// The key of an instruction: opcode, modifier, A-mode, B-mode. Cells hold it so that 0 is empty.
constexpr int key_of(int opcode, int modifier, int a, int b) {
    return opcode | modifier << 4 | a << 7 | b << 10;
}
constexpr int EMPTY = key_of(DAT, F, DIRECT, DIRECT);

struct Cell { u16 a, b, key, unused; };
static Cell core[65536] __attribute__((aligned(4096)));
static u16 slots[2 * SLOTS] __attribute__((aligned(4096)));
static u16 *const mine = slots, *const theirs = slots + SLOTS;
// Where a stretch ended: the heads and the ends of both queues.
static struct { u16 *head0, *end0, *head1, *end1; } left;
static u16 *last; // the head of `mine` after the last cycle of the stretch
using Step = void (*)(u16 *, u16 *, u16 *, u64);
extern const std::array<Step, 8192> first_side, other_side;

#define INLINE static inline __attribute__((always_inline))
INLINE u32 wrapped(u32 x) { u32 y = x - SIZE; return (int32_t)y < 0 ? x : y; }
// x + n: the carry of one addition tells whether it wraps round.
INLINE u32 sum(u32 x, u32 n) { u32 y; return __builtin_add_overflow(n, x - SIZE, &y) ? y : n + x; }
INLINE u32 lowered(u32 x) { u32 y = x - 1; return (int32_t)y < 0 ? SIZE - 1 : y; }
INLINE u32 raised(u32 x) { u32 y = x + 1; return y == SIZE ? 0 : y; }
INLINE u64 word(u32 at) { return *(u64 *)&core[at]; }

struct Located {
    u32 at;
    u64 copy;
    u32 a() { return (u16)copy; }
    u32 b() { return (u16)(copy >> 16); }
};

template <int MODE> INLINE Located operand(u32 pc, u32 n) {
    if (MODE == IMMEDIATE) return {pc, word(pc)};
    u32 way = sum(pc, n);
    if (MODE == DIRECT) return {way, word(way)};
    constexpr bool by_a = MODE == A_INDIRECT || MODE == A_DECREMENT || MODE == A_INCREMENT;
    u16 *number = by_a ? &core[way].a : &core[way].b;
    if (MODE == A_DECREMENT || MODE == B_DECREMENT) *number = lowered(*number);
    u32 was = *number, at = sum(way, was);
    Located found = {at, word(at)};
    if (MODE == A_INCREMENT || MODE == B_INCREMENT) *number = raised(was);
    return found;
}

template <int OPCODE> INLINE u32 computed(u32 b, u32 a) {
    if (OPCODE == ADD) return wrapped(b + a);
    if (OPCODE == SUB) { int32_t y = b - a; return y < 0 ? y + SIZE : y; }
    if (OPCODE == MUL) return b * a % SIZE;
    return OPCODE == DIV ? b / a : b % a;
}

// `head` is that of side 0, past its task; that of side 1 is SLOTS further on.
#define QUEUES head, end0, end1
#define GO [[clang::musttail]] return
template <int SIDE> INLINE void leave(u16 *head, u16 *end0, u16 *end1) {
    left = {head, end0, head + SLOTS - (SIDE == 0), end1};
}
#define REST do { \
    if (SIDE == 0) { u64 pc = head[SLOTS - 1]; GO other_side[core[pc].key](QUEUES, pc); } \
    if (head == last) { leave<1>(QUEUES); return; } \
    u64 pc = *head++; GO first_side[core[pc].key](QUEUES, pc); } while (0)
#define PUSH(task) (SIDE == 0 ? *end0++ = (task) : *end1++ = (task))
#define NEXT(task) do { PUSH(task); REST; } while (0)
#define DIE do { \
    if (SIDE == 0 ? head == end0 : head + SLOTS == end1) { leave<SIDE>(QUEUES); return; } \
    REST; } while (0)

template <int OPCODE, int MODIFIER, int A_MODE, int B_MODE, int SIDE>
void step(u16 *head, u16 *end0, u16 *end1, u64 pc64) {
    u32 pc = pc64, a_number = core[pc].a, b_number = core[pc].b;
    Located a = operand<A_MODE>(pc, a_number), b = operand<B_MODE>(pc, b_number);
    constexpr int M = MODIFIER;
    // Which number of `a` goes with which of `b`, and which numbers of `b` are tested.
    constexpr bool aa = M == A || M == F || M == I, bb = M == B || M == F || M == I,
                   ab = M == AB || M == X, ba = M == BA || M == X;
    constexpr bool test_a = M == A || M == BA || M >= F, test_b = M == B || M == AB || M >= F;
    u32 xa = a.a(), xb = a.b(), ya = b.a(), yb = b.b();
    Cell &target = core[b.at];
    if (OPCODE == DAT) DIE;
    if (OPCODE == NOP) NEXT(raised(pc));
    if (OPCODE == MOV) {
        if (M == I) *(u64 *)&target = a.copy;
        else {
            if (aa) target.a = xa;
            if (bb) target.b = xb;
            if (ab) target.b = xa;
            if (ba) target.a = xb;
        }
        NEXT(raised(pc));
    }
    if (OPCODE == ADD || OPCODE == SUB || OPCODE == MUL) {
        if (aa) target.a = computed<OPCODE>(ya, xa);
        if (bb) target.b = computed<OPCODE>(yb, xb);
        if (ab) target.b = computed<OPCODE>(yb, xa);
        if (ba) target.a = computed<OPCODE>(ya, xb);
        NEXT(raised(pc));
    }
    if (OPCODE == DIV || OPCODE == MOD) {
        bool by_zero = ((aa || ab) && xa == 0) || ((bb || ba) && xb == 0);
        if (aa && xa) target.a = computed<OPCODE>(ya, xa);
        if (bb && xb) target.b = computed<OPCODE>(yb, xb);
        if (ab && xa) target.b = computed<OPCODE>(yb, xa);
        if (ba && xb) target.a = computed<OPCODE>(ya, xb);
        if (by_zero) DIE;
        NEXT(raised(pc));
    }
    if (OPCODE == JMP) NEXT(a.at);
    if (OPCODE == JMZ || OPCODE == JMN) {
        bool zero = (!test_a || ya == 0) & (!test_b || yb == 0);
        NEXT(zero == (OPCODE == JMZ) ? a.at : raised(pc));
    }
    if (OPCODE == DJN) {
        bool one = (!test_a || ya == 1) & (!test_b || yb == 1);
        if (test_a) target.a = lowered(target.a);
        if (test_b) target.b = lowered(target.b);
        NEXT(one ? raised(pc) : a.at);
    }
    if (OPCODE == SEQ || OPCODE == SNE) {
        bool equal = M == I ? a.copy == b.copy
            : (!aa || xa == ya) & (!bb || xb == yb) & (!ab || xa == yb) & (!ba || xb == ya);
        NEXT(equal == (OPCODE == SEQ) ? wrapped(pc + 2) : raised(pc));
    }
    if (OPCODE == SLT) {
        bool less = (!aa || xa < ya) & (!bb || xb < yb) & (!ab || xa < yb) & (!ba || xb < ya);
        NEXT(less ? wrapped(pc + 2) : raised(pc));
    }
    PUSH(raised(pc)); // SPL
    if (SIDE == 0) { *end0 = a.at; end0 += end0 - head < (long)TASKS; }
    else { *end1 = a.at; end1 += end1 - (head + SLOTS) < (long)TASKS; }
    REST;
}

constexpr bool occurs(int key) {
    constexpr int keys[] = {EMPTY,
#include "KEYS.inc"
    };
    for (int it : keys) if (it == key) return true;
    return false;
}
template <int SIDE, int KEY> constexpr Step step_of() {
    constexpr int key = KEY ^ EMPTY;
    if constexpr (occurs(key))
        return &step<key & 15, (key >> 4) & 7, (key >> 7) & 7, (key >> 10), SIDE>;
    else return nullptr;
}
template <int SIDE, size_t... KEY>
constexpr std::array<Step, 8192> steps(std::index_sequence<KEY...>) {
    return {{step_of<SIDE, KEY>()...}};
}
const std::array<Step, 8192> first_side = steps<0>(std::make_index_sequence<8192>()),
                             other_side = steps<1>(std::make_index_sequence<8192>());

struct Warrior { Cell cells[200]; int length, start; };
enum End { LOSS = 0, TIE = 1, WIN = 3 };

// Plays some cycles. Returns whether both sides have tasks afterwards.
static bool alternate(u32 cycles) {
    long my_count = left.end0 - left.head0, their_count = left.end1 - left.head1;
    memmove(mine, left.head0, 2 * my_count);
    memmove(theirs, left.head1, 2 * their_count);
    last = mine + cycles;
    first_side[core[*mine].key](mine + 1, mine + my_count, theirs + their_count, *mine);
    return left.head0 != left.end0 && left.head1 != left.end1;
}

// Plays a fight to its end, for the side that moves first. A state that comes back is a tie.
static End fought() {
    static Cell kept[SIZE];
    static u16 kept_tasks[2][FEW];
    static long kept_counts[2];
    u32 kept_at = 0;
    for (u32 done = 0; done < CYCLES;) {
        u32 cycles = CYCLES - done < STRETCH ? CYCLES - done : STRETCH;
        if (!alternate(cycles)) return left.head0 == left.end0 ? LOSS : WIN;
        done += cycles;
        long counts[2] = {left.end0 - left.head0, left.end1 - left.head1};
        if (counts[0] > FEW || counts[1] > FEW || done >= CYCLES) continue;
        if (kept_at && !memcmp(counts, kept_counts, sizeof counts)
            && !memcmp(kept_tasks[0], left.head0, 2 * counts[0])
            && !memcmp(kept_tasks[1], left.head1, 2 * counts[1])
            && !memcmp(kept, core, sizeof kept)) return TIE;
        if (done < 4 * kept_at) continue;
        kept_at = done;
        memcpy(kept_counts, counts, sizeof counts);
        memcpy(kept_tasks[0], left.head0, 2 * counts[0]);
        memcpy(kept_tasks[1], left.head1, 2 * counts[1]);
        memcpy(kept, core, sizeof kept);
    }
    return TIE;
}

// Returns the candidate's points.
static int fight(const Warrior &candidate, const Warrior &opponent, u32 position, bool is_first) {
    memset(core, 0, SIZE * sizeof(Cell));
    memcpy(core, candidate.cells, candidate.length * sizeof(Cell));
    memcpy(core + position, opponent.cells, opponent.length * sizeof(Cell));
    u16 one = candidate.start, other = position + opponent.start;
    mine[0] = is_first ? one : other;
    theirs[0] = is_first ? other : one;
    left = {mine, mine + 1, theirs, theirs + 1};
    End end = fought();
    return is_first || end == TIE ? end : WIN - end;
}

[[noreturn]] static void refuse(const char *path) {
    fprintf(stderr, "error: %s cannot be read\n", path);
    exit(2);
}

static int index_in(const char *const *words, int count, const char *word, const char *path) {
    for (int k = 0; k < count; k++) if (!strcmp(words[k], word)) return k;
    refuse(path);
}

static Warrior warrior_at(const char *path) {
    FILE *file = fopen(path, "r");
    char line[256], opcode[4], modifier[3], a_mode, b_mode;
    int a, b;
    Warrior it = {};
    if (!file || !fgets(line, sizeof line, file) || sscanf(line, "ORG %d", &it.start) != 1)
        refuse(path);
    while (fgets(line, sizeof line, file)) {
        if (it.length == 200 || sscanf(line, "%3s.%2[A-Z] %c%d, %c%d", opcode, modifier,
                                       &a_mode, &a, &b_mode, &b) != 6) refuse(path);
        const char *first = strchr(MODES, a_mode), *second = strchr(MODES, b_mode);
        if (!first || !second) refuse(path);
        int key = key_of(index_in(OPCODES, 16, opcode, path),
                         index_in(MODIFIERS, 7, modifier, path), first - MODES, second - MODES);
        int size = SIZE;
        it.cells[it.length++] = {(u16)((a % size + size) % size),
                                 (u16)((b % size + size) % size), (u16)(key ^ EMPTY), 0};
    }
    fclose(file);
    return it;
}

int main(int count, char **words) {
    if (count != 4) {
        fprintf(stderr, "use: limit CANDIDATE.load OPPONENT.load SCHEDULE.csv\n");
        return 2;
    }
    Warrior candidate = warrior_at(words[1]), opponent = warrior_at(words[2]);
    FILE *schedule = fopen(words[3], "r");
    char line[99], first;
    u32 total = 0, position, opponent_index;
    if (!schedule || !fgets(line, sizeof line, schedule)) refuse(words[3]);
    while (fgets(line, sizeof line, schedule)) {
        if (sscanf(line, "%u,%u,%c", &opponent_index, &position, &first) != 3) refuse(words[3]);
        total += fight(candidate, opponent, position, first == 'c');
    }
    printf("total %u\n", total);
}
