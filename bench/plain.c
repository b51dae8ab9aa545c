// A machine of one processor, hand-tuned and unverified: what `bench/machine` compares the proved one with.
//
// It reads the listing of a program of one procedure without forks, calls and arrays, makes as many word steps as its argument says, and
// prints the nanoseconds of one. The word steps are those of the machine (docs/MACHINE.md): the finish word, the header, what the
// instructions load and store, the other header and the restart word, each a sequentially consistent access of a word of 64 bits.
#include <stdatomic.h>
#include <stdint.h>
#include <stdio.h>
#include <stdlib.h>
#include <string.h>
#include <time.h>

enum op { CONST, ADD, SUB, BRANCHZ, LOADSLOT, STORECUR, NEXT, END, NONE };
static const char *const NAMES[NONE] = {"const", "add", "sub", "branchz", "loadslot", "storecur", "next", "end"};

struct instr {
    enum op op;
    int to, left, right;
    int64_t value;
};

// Where the words lie for one place with 4,096 slots: the finish word, the restart word, and the root's frame in the pool.
enum { FINISH = 0, RESTART = 3, FRAME = 3 + 5 + 4096, SLOTS = FRAME + 6 };

static _Atomic uint64_t words[SLOTS + 25];
static struct instr instrs[1024];
static int begins[256];

static enum op named(const char *name) {
    enum op op = CONST;
    while (op < NONE && strcmp(name, NAMES[op])) op++;
    return op;
}

static int number(const char *text) { return atoi(text + (text[0] == 'r')); }

static void read_listing(void) {
    char line[256];
    int count = 0, capsules = 0;
    while (fgets(line, sizeof line, stdin)) {
        char part[4][32] = {{0}};
        sscanf(line, "%31s %31s %31s %31s", part[0], part[1], part[2], part[3]);
        if (!strcmp(part[0], "ppm") || !strcmp(part[0], "root") || !strcmp(part[0], "proc")) continue;
        if (!strcmp(part[0], "capsule")) {
            begins[capsules++] = count;
            continue;
        }
        struct instr i = {.op = named(part[0]), .to = number(part[1]), .left = number(part[1]), .value = atoll(part[2])};
        switch (i.op) {
        case ADD:
        case SUB: i.left = number(part[2]), i.right = number(part[3]); break;
        case STORECUR: i.left = number(part[2]), i.value = number(part[1]); break;
        case NEXT: i.value = number(part[1]); break;
        case NONE: fprintf(stderr, "plain: not made for: %s", line); exit(2);
        default: break;
        }
        instrs[count++] = i;
    }
}

static uint64_t run_word(uint64_t copy) { return 1ull << 59 | 1ull << 32 | copy << 28 | FRAME; }

int main(int argc, char **argv) {
    const uint64_t steps = argc > 1 ? strtoull(argv[1], NULL, 10) : 1;
    read_listing();
    words[RESTART] = run_word(0);
    int64_t registers[64];
    enum { AT, HEADER, WORK, LOAD, STORE, GOES_ON, INSTALL, DONE } stage = AT;
    uint64_t copy = 0;
    int capsule = 0, at = 0;
    struct timespec first, last;
    clock_gettime(CLOCK_MONOTONIC, &first);
    for (uint64_t n = 0; n < steps && stage != DONE; n++) {
        switch (stage) {
        case AT:
            stage = words[FINISH] ? DONE : HEADER;
            continue;
        case HEADER:
            capsule = words[FRAME + 2 + copy];
            memset(registers, 0, sizeof registers);
            at = begins[capsule];
            break;
        case LOAD:
            registers[instrs[at].to] = words[SLOTS + instrs[at].value];
            at++;
            break;
        case STORE:
            words[SLOTS + instrs[at].value] = registers[instrs[at].left];
            at++;
            break;
        case GOES_ON:
            words[FRAME + 3 - copy] = instrs[at].value;
            stage = INSTALL;
            continue;
        case INSTALL:
            copy = 1 - copy;
            words[RESTART] = run_word(copy);
            stage = AT;
            continue;
        case WORK:
        case DONE:
            continue;
        }
        // Register work, up to the next word step.
        for (stage = WORK; stage == WORK;) {
            const struct instr *i = &instrs[at];
            int64_t *to = &registers[i->to];
            switch (i->op) {
            case CONST:
                *to = i->value;
                at++;
                break;
            case ADD:
                if (__builtin_add_overflow(registers[i->left], registers[i->right], to)) stage = DONE;
                at++;
                break;
            case SUB:
                if (__builtin_sub_overflow(registers[i->left], registers[i->right], to)) stage = DONE;
                at++;
                break;
            case BRANCHZ:
                at = registers[i->left] ? at + 1 : begins[capsule] + (int)i->value;
                break;
            case LOADSLOT:
                stage = LOAD;
                break;
            case STORECUR:
                stage = STORE;
                break;
            case NEXT:
                stage = GOES_ON;
                break;
            default:
                stage = DONE;
                break;
            }
        }
    }
    clock_gettime(CLOCK_MONOTONIC, &last);
    const double spent = (last.tv_sec - first.tv_sec) * 1e9 + (last.tv_nsec - first.tv_nsec);
    printf("%.3f\n", spent / steps);
    return stage == DONE;
}
