// A machine on threads, hand-tuned and unverified: what `bench/threads` compares the proved one with.
//
//     threads THREADS ROOM SLOTS LENGTH.. < LISTING
//
// It runs the listing of a program that doesn't trap, on as many processors as threads, none of which fails. There is
// a LENGTH for each array, whose values are 0 at first. It prints the nanoseconds from the beginning of the first thread
// to the end of the last one, the word steps of all, and the words of the arrays. Words, their bits and the word steps
// are those of the machine (docs/MACHINE.md), each a sequentially consistent access of a word of 64 bits. A processor
// without work stands back for a moment, longer each time, and never leaves.
#define _GNU_SOURCE
#include <pthread.h>
#include <sched.h>
#include <stdatomic.h>
#include <stdint.h>
#include <stdio.h>
#include <stdlib.h>
#include <string.h>
#include <time.h>

enum op {
    CONST, MOVE, ADD, SUB, MUL, DIV, REM, EQ, NE, LT, LE, LEN, CUTL, CUTR, LOADSLOT, STORECUR, GIVE, GET, PUT, BRANCHZ,
    BRANCHNZ, ROOM, STORENEW, NEXT, END, CALL, CALLTO, FORK, FORKTO, NONE
};
static const char *const NAMES[NONE] = {
    "const", "move", "add", "sub", "mul", "div", "rem", "eq", "ne", "lt", "le", "len", "cutl", "cutr", "loadslot",
    "storecur", "give", "get", "put", "branchz", "branchnz", "room", "storenew", "next", "end", "call", "callto",
    "fork", "forkto"};
enum kind { RUN = 1, BUMP, PUSH1, PUSH2, UNWIND = 5, ARRIVE, JOIN, POP1, POP2, SEEK, STEAL, CHECK };
enum { EMPTY, LOCAL, JOB, TAKEN };
enum { ROOT = 1, CALLED, LEFT, RIGHT, FORKED };
enum { ENDED = 1, MOST_PROCESSORS = 64 };

struct instr {
    enum op op;
    int32_t n[5];
    int64_t value;
};
struct procedure {
    uint32_t slots, entry;
};
struct processor {
    _Alignas(128) uint32_t own;
    uint64_t steps, random;
};

static struct instr *instrs;
static uint32_t *begins, *registers_of, root, root_arrays[64], root_count;
static struct procedure *procedures;
static _Atomic uint64_t *words;
static uint32_t processors, room, slots, lengths[64], arrays_at;
static struct processor them[MOST_PROCESSORS];

static void refuse(const char *what) {
    fprintf(stderr, "threads: %s\n", what);
    exit(2);
}

// ---- the listing

static int32_t number(const char *text) { return *text == '-' && !text[1] ? -1 : atoi(text + (*text == 'r')); }

static void read_listing(void) {
    char line[256], word[6][32];
    uint32_t count = 0, capsules = 0, most = 1024;
    instrs = malloc(most * sizeof *instrs);
    begins = malloc(65536 * sizeof *begins), registers_of = calloc(65536, sizeof *registers_of);
    procedures = malloc(65536 * sizeof *procedures);
    while (fgets(line, sizeof line, stdin)) {
        memset(word, 0, sizeof word);
        sscanf(line, "%31s %31s %31s %31s %31s %31s", word[0], word[1], word[2], word[3], word[4], word[5]);
        if (!strcmp(word[0], "ppm")) continue;
        if (!strcmp(word[0], "root")) {
            char *at = line + 5;
            root = strtoul(at, &at, 10);
            for (char *next; root_count < 64; at = next) {
                uint32_t array = strtoul(at, &next, 10);
                if (next == at) break;
                root_arrays[root_count++] = array;
            }
            continue;
        }
        if (!strcmp(word[0], "proc")) {
            procedures[number(word[1])] = (struct procedure){.slots = number(word[3]), .entry = number(word[5])};
            continue;
        }
        if (!strcmp(word[0], "capsule")) {
            begins[capsules++] = count;
            continue;
        }
        if (count == most) instrs = realloc(instrs, (most *= 2) * sizeof *instrs);
        struct instr *i = &instrs[count++];
        for (i->op = CONST; i->op < NONE && strcmp(word[0], NAMES[i->op]);) i->op++;
        if (i->op == NONE) refuse(line);
        for (int k = 0; k < 5; k++) {
            i->n[k] = number(word[k + 1]);
            // The registers that a capsule names: these begin with 0.
            uint32_t *named = &registers_of[capsules - 1];
            if (word[k + 1][0] == 'r' && i->n[k] >= (int32_t)*named) *named = i->n[k] + 1;
        }
        i->value = strtoll(word[2], NULL, 10);
        // A branch says how far it leads.
        if (i->op == BRANCHZ || i->op == BRANCHNZ) i->n[1] -= (int32_t)(count - 1 - begins[capsules - 1]);
    }
}

// ---- the words

static uint32_t base_of(uint32_t place) { return 1 + 2 * processors + place * (5 + slots + room); }
static uint64_t load(_Atomic uint64_t *w, uint32_t at) { return atomic_load(&w[at]); }
static void store(_Atomic uint64_t *w, uint32_t at, uint64_t word) { atomic_store(&w[at], word); }
static void exchange(_Atomic uint64_t *w, uint32_t at, uint64_t old, uint64_t new) {
    atomic_compare_exchange_strong(&w[at], &old, new);
}
static uint64_t run_of(uint32_t frame, uint32_t copy) { return (uint64_t)RUN << 59 | (uint64_t)copy << 28 | frame; }
static uint64_t entry(uint64_t kind, uint64_t tag, uint64_t payload) { return kind << 62 | tag << 28 | payload; }
static uint64_t tag_of(uint64_t e) { return e >> 28 & ((1ull << 34) - 1); }
static uint64_t changed(uint64_t e, uint64_t kind, uint64_t payload) { return entry(kind, tag_of(e) + 1, payload); }
static uint64_t link(uint64_t kind, uint64_t size, uint64_t copy, uint64_t at) {
    return kind << 57 | size << 29 | copy << 28 | at;
}

static void open_words(void) {
    uint32_t array = 0, total = 0;
    for (uint32_t a = 0; a < 64; a++) total += lengths[a];
    arrays_at = base_of(processors);
    // The finish word is the last of a cache line.
    uint64_t *made = aligned_alloc(4096, ((arrays_at + total + 7) * 8ull + 4095) / 4096 * 4096);
    if (!made) refuse("out of memory");
    memset(made, 0, (arrays_at + total + 7) * 8ull);
    words = (_Atomic uint64_t *)(made + 7);
    uint64_t regions[64];
    for (uint32_t a = 0; a < 64; array += lengths[a++]) regions[a] = (uint64_t)array << 32 | lengths[a];
    for (uint32_t p = 0; p < processors; p++) {
        const uint32_t base = base_of(p), pool = base + 5 + slots, slots_of_root = procedures[root].slots;
        words[1 + p] = p;
        words[base] = (uint64_t)SEEK << 59 | 1ull << 32;
        words[base + 2] = p;
        words[base + 3] = 1;
        words[base + 4] = pool;
        words[base + 5] = entry(TAKEN, 0, p);
        words[base + 6] = entry(LOCAL, 0, 0);
        if (p) continue;
        words[base] = run_of(pool, 0) | 1ull << 32;
        words[base + 4] = pool + 6 + slots_of_root;
        words[pool] = link(ROOT, 6 + slots_of_root, 0, 0);
        words[pool + 1] = ENDED;
        words[pool + 2] = procedures[root].entry;
        for (uint32_t k = 0; k < root_count; k++) words[pool + 6 + k] = regions[root_arrays[k]];
    }
}

// ---- a processor

static uint32_t drawn(struct processor *me) {
    me->random ^= me->random << 13, me->random ^= me->random >> 7, me->random ^= me->random << 17;
    return (me->random >> 32) % processors;
}

static void stand_back(uint32_t looks) {
    if (looks > 6) {
        sched_yield();
        return;
    }
    for (uint32_t k = 0; k < 1u << looks; k++) __builtin_ia32_pause();
}

// Stores the words of a new frame; how many steps that takes.
static uint32_t build(_Atomic uint64_t *w, uint32_t at, uint64_t link_word, uint32_t procedure, int32_t target) {
    store(w, at, link_word), store(w, at + 1, ENDED), store(w, at + 2, procedures[procedure].entry);
    if (target < 0) return 3;
    store(w, at + 5, target);
    return 4;
}

// The value that a frame gives goes to its caller, if there is a target; how many steps that takes.
static uint32_t give_value(_Atomic uint64_t *w, uint32_t frame, uint32_t to) {
    const uint64_t target = load(w, frame + 5);
    if (!target) return 1;
    store(w, to + 5 + target, load(w, frame + 4));
    return 3;
}

#define STEP(what) (steps++, what)

static void *go(void *of) {
    struct processor *const me = of;
    // What doesn't change is taken along, as an access of a word could change what all threads see.
    _Atomic uint64_t *const w = words;
    const struct instr *const code = instrs;
    const uint32_t *const begin = begins, *const named = registers_of, slot_count = slots;
    const uint32_t place = me->own, base = base_of(place), pool_end = base + 5 + slots + room, entries = base + 5;
    uint64_t steps = 2;
    (void)load(w, 1 + place);
    uint64_t restart = load(w, base), message;
    uint32_t looks = 0, frame, copy, at, victim, slot, side;
    int64_t registers[64];
    for (;;) {
        if (STEP(load(w, 0))) break;
        const uint32_t bottom = restart >> 32 & ((1u << 27) - 1);
        uint64_t next = 0;
        uint32_t low = bottom;
        at = restart & ((1u << 28) - 1);
        switch (restart >> 59) {
        case RUN: {
            frame = at, copy = restart >> 28 & 1;
            const uint32_t capsule = STEP(load(w, frame + 2 + copy));
            uint32_t block = 0;
            memset(registers, 0, named[capsule] * sizeof *registers);
            for (const struct instr *i = &code[begin[capsule]];; i++) {
                const int32_t *n = i->n;
                int64_t *to = &registers[n[0] & 63];
                const int64_t x = registers[n[1] & 63], y = registers[n[2] & 63];
                switch (i->op) {
                case CONST: *to = i->value; continue;
                case MOVE: *to = x; continue;
                case ADD: if (__builtin_add_overflow(x, y, to)) refuse("overflow"); continue;
                case SUB: if (__builtin_sub_overflow(x, y, to)) refuse("overflow"); continue;
                case MUL: if (__builtin_mul_overflow(x, y, to)) refuse("overflow"); continue;
                case DIV: if (!y || (y == -1 && x == INT64_MIN)) refuse("divzero"); *to = x / y; continue;
                case REM: if (!y || (y == -1 && x == INT64_MIN)) refuse("divzero"); *to = x % y; continue;
                case EQ: *to = x == y; continue;
                case NE: *to = x != y; continue;
                case LT: *to = x < y; continue;
                case LE: *to = x <= y; continue;
                case LEN: *to = (uint32_t)x; continue;
                case CUTL: if (y < 0 || y > (uint32_t)x) refuse("split"); *to = (x >> 32) << 32 | y; continue;
                case CUTR:
                    if (y < 0 || y > (uint32_t)x) refuse("split");
                    *to = ((x >> 32) + y) << 32 | ((uint32_t)x - y);
                    continue;
                case LOADSLOT: *to = STEP(load(w, frame + 6 + n[1])); continue;
                case STORECUR: STEP(store(w, frame + 6 + n[0], x)); continue;
                case GIVE: STEP(store(w, frame + 4, *to)); continue;
                case GET:
                    if (y < 0 || y >= (uint32_t)x) refuse("index");
                    *to = STEP(load(w, arrays_at + (x >> 32) + y));
                    continue;
                case PUT:
                    if (x < 0 || x >= (uint32_t)*to) refuse("index");
                    STEP(store(w, arrays_at + (*to >> 32) + x, y));
                    continue;
                case BRANCHZ: if (!*to) i += n[1] - 1; continue;
                case BRANCHNZ: if (*to) i += n[1] - 1; continue;
                case ROOM:
                    block = STEP(load(w, base + 4));
                    if (n[0] > (int32_t)(pool_end - block)) refuse("out of room");
                    continue;
                case STORENEW: STEP(store(w, block + n[0], x)); continue;
                case NEXT:
                    STEP(store(w, frame + 3 - copy, n[0]));
                    next = run_of(frame, 1 - copy);
                    break;
                case END:
                    next = (uint64_t)UNWIND << 59 | frame;
                    break;
                case CALL:
                case CALLTO: {
                    const uint32_t size = 6 + procedures[n[0]].slots;
                    steps += build(w, block, link(CALLED, size, 1 - copy, frame), n[0], i->op == CALL ? -1 : n[2] + 1);
                    STEP(store(w, frame + 3 - copy, n[1]));
                    next = (uint64_t)BUMP << 59 | block;
                    break;
                }
                case FORK:
                case FORKTO: {
                    const uint32_t left = 6 + procedures[n[0]].slots, right = 6 + procedures[n[1]].slots;
                    const int none = i->op == FORK;
                    STEP(store(w, block, link(FORKED, 5 + left + right, 1 - copy, frame)));
                    STEP(store(w, block + 4, 5 + left));
                    steps += build(w, block + 5, link(LEFT, left, 0, block), n[0], none ? -1 : n[3] + 1);
                    steps += build(w, block + 5 + left, link(RIGHT, right, 0, block), n[1], none ? -1 : n[4] + 1);
                    STEP(store(w, frame + 3 - copy, n[2]));
                    next = (uint64_t)BUMP << 59 | block;
                    break;
                }
                case NONE: refuse("no instruction");
                }
                break;
            }
            looks = 0;
            break;
        }
        case BUMP: {
            const uint64_t word = STEP(load(w, at));
            STEP(store(w, base + 4, at + (word >> 29 & ((1u << 28) - 1))));
            next = word >> 57 == CALLED ? run_of(at, 0) : (uint64_t)PUSH1 << 59 | at;
            break;
        }
        case PUSH1:
            if (bottom + 1 == slot_count) {
                STEP(store(w, at + 1, 3));
                next = run_of(at + 5, 0);
                break;
            }
            message = STEP(load(w, entries + bottom + 1));
            if (message >> 62 == EMPTY) STEP(exchange(w, entries + bottom + 1, message, changed(message, LOCAL, 0)));
            next = (uint64_t)PUSH2 << 59 | at;
            break;
        case PUSH2:
            message = STEP(load(w, entries + bottom));
            if (message >> 62 == LOCAL) STEP(exchange(w, entries + bottom, message, changed(message, JOB, at)));
            next = run_of(at + 5, 0), low = bottom + 1;
            break;
        case UNWIND: {
            const uint64_t word = STEP(load(w, at)), outcome = STEP(load(w, at + 1));
            const uint32_t to = word & ((1u << 28) - 1);
            if (word >> 57 == ROOT) {
                STEP(exchange(w, 0, 0, outcome));
                continue;
            }
            if (word >> 57 == CALLED) {
                steps += give_value(w, at, to);
                next = run_of(to, word >> 28 & 1);
                break;
            }
            side = word >> 57 == RIGHT;
            STEP(store(w, to + 2 + side, outcome));
            next = (uint64_t)ARRIVE << 59 | side << 28 | to;
            break;
        }
        case ARRIVE:
            side = restart >> 28 & 1;
            STEP(exchange(w, at + 1, 0, 1 + side));
            next = (uint64_t)JOIN << 59 | side << 28 | at;
            break;
        case JOIN: {
            const uint64_t order = STEP(load(w, at + 1));
            side = restart >> 28 & 1;
            if (order == 1 + side) {
                next = (uint64_t)POP1 << 59;
                break;
            }
            if (order == 3 && !side) {
                next = run_of(at + STEP(load(w, at + 4)), 0);
                break;
            }
            const uint64_t word = STEP(load(w, at));
            const uint32_t to = word & ((1u << 28) - 1);
            const uint64_t left = STEP(load(w, at + 2)), right = STEP(load(w, at + 3));
            if (left != ENDED || right != ENDED) refuse("a trap");
            steps += give_value(w, at + 5, to);
            const uint64_t offset = STEP(load(w, at + 4));
            steps += give_value(w, at + offset, to);
            next = run_of(to, word >> 28 & 1);
            break;
        }
        case POP1:
            message = STEP(load(w, entries + bottom - 1));
            if (message >> 62 == JOB) {
                const uint64_t block = message & ((1u << 28) - 1);
                const uint64_t mine = changed(message, LOCAL, block);
                STEP(exchange(w, entries + bottom - 1, message, mine));
                next = (uint64_t)POP2 << 59 | block;
            } else {
                next = (uint64_t)SEEK << 59;
            }
            break;
        case POP2:
            message = STEP(load(w, entries + bottom - 1));
            if (message >> 62 != LOCAL) {
                next = (uint64_t)SEEK << 59;
                break;
            }
            message = STEP(load(w, entries + bottom));
            if (message >> 62 == LOCAL) STEP(exchange(w, entries + bottom, message, changed(message, EMPTY, 0)));
            next = run_of(at + STEP(load(w, at + 4)), 0), low = bottom - 1;
            break;
        case SEEK: {
            victim = drawn(me);
            const uint64_t holder = STEP(load(w, base_of(victim) + 2));
            if (victim != place) {
                (void)STEP(load(w, 1 + processors + (holder & 63)));
                slot = STEP(load(w, base_of(victim) + 3));
                message = STEP(load(w, base_of(victim) + 5 + slot));
                if (message >> 62 == TAKEN) STEP(exchange(w, base_of(victim) + 3, slot, slot + 1));
                if (message >> 62 == JOB) {
                    STEP(store(w, base + 1, message));
                    next = (uint64_t)STEAL << 59 | victim << 16 | slot;
                    break;
                }
            }
            stand_back(looks++);
            continue;
        }
        case STEAL:
            victim = at >> 16 & 63, slot = at & 65535;
            message = STEP(load(w, base + 1));
            STEP(exchange(w, base_of(victim) + 5 + slot, message, changed(message, TAKEN, place)));
            next = (uint64_t)CHECK << 59 | at;
            break;
        case CHECK: {
            victim = at >> 16 & 63, slot = at & 65535;
            message = STEP(load(w, base + 1));
            const uint32_t block = message & ((1u << 28) - 1);
            if (STEP(load(w, base_of(victim) + 5 + slot)) == changed(message, TAKEN, place)) {
                next = run_of(block + STEP(load(w, block + 4)), 0);
            } else {
                next = (uint64_t)SEEK << 59;
            }
            break;
        }
        default: refuse("a restart word");
        }
        restart = next | (uint64_t)low << 32;
        STEP(store(w, base, restart));
    }
    me->steps = steps;
    return NULL;
}

int main(int argc, char **argv) {
    if (argc < 4 || argc > 67) refuse("THREADS ROOM SLOTS LENGTH.. < LISTING");
    processors = atoi(argv[1]), room = atoi(argv[2]), slots = atoi(argv[3]);
    for (int a = 4; a < argc; a++) lengths[a - 4] = atoi(argv[a]);
    if (processors < 1 || processors > MOST_PROCESSORS) refuse("1 to 64 threads");
    read_listing();
    open_words();
    pthread_t threads[MOST_PROCESSORS];
    struct timespec first, last;
    uint64_t steps = 0;
    clock_gettime(CLOCK_MONOTONIC, &first);
    for (uint32_t p = 0; p < processors; p++) {
        them[p].own = p, them[p].random = 0x9e3779b97f4a7c15ull * (p + 1);
        if (p && pthread_create(&threads[p], NULL, go, &them[p])) refuse("no thread");
    }
    go(&them[0]);
    for (uint32_t p = 1; p < processors; p++) pthread_join(threads[p], NULL);
    clock_gettime(CLOCK_MONOTONIC, &last);
    for (uint32_t p = 0; p < processors; p++) steps += them[p].steps;
    printf("%.0f %llu", (last.tv_sec - first.tv_sec) * 1e9 + (last.tv_nsec - first.tv_nsec), (unsigned long long)steps);
    for (int a = 4, k = 0; a < argc; a++)
        for (uint32_t j = 0; j < lengths[a - 4]; j++) printf(" %lld", (long long)load(words, arrays_at + k++));
    printf("\n");
    return 0;
}
