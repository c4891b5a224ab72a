// How much stack each function takes where it runs, functions of the C library included: a stack is painted, the function runs on it, and the
// lowest byte that has lost its paint tells. `painted FUNCTION=MOST ..` prints a line for each, and fails where one is over its MOST, is held to
// none, or does not answer 0.
#include "boundary.h" // the declarations of docs/BOUNDARY.md
#include <stdio.h>
#include <stdlib.h>
#include <ucontext.h>

uint8_t stack_check_make(uint8_t n, uint8_t l, uint32_t seed, uint64_t constraint, const uint8_t *page, size_t page_len, uint8_t *room, size_t room_len);
uint8_t stack_check_write(uint32_t page_number, uint8_t n, uint8_t l, uint32_t seed, const uint8_t *page, size_t page_len, uint8_t *room, size_t room_len);

enum { N = 64, L = 32, PAGE = N * L, ROW = 12 + L, ROWS = 512, STACK = 1 << 16, PAINT = 0xA5 };

static uint8_t one[PAGE], other[PAGE], frame[22 + L], list[ROWS * ROW], list2[ROWS * ROW], scratch[32768];
static uint8_t page[PAGE], uses[2 * ROWS], roles[ROWS], page2[PAGE], uses2[2 * ROWS], roles2[ROWS];
static uint8_t store[65536], opened[65536], next[3][22 + L], asked[PAGE];
static size_t place, offset, rank, agreement, rows, shown;
static uint32_t number, seed;
static uint64_t numbers[8];
static uint8_t n, l, answer;

// ---- the painted stack

static _Alignas(16) uint8_t stack[STACK];
static ucontext_t here, there;
static volatile int probing;
static uint8_t *top; // the stack pointer where a function is called

static uint8_t probe(void) {
    top = __builtin_dwarf_cfa();
    return 0;
}

// Calls the probe or the function at the same place, some way down the stack, which the context itself uses at its top.
#define CALL(function, ...)                                                       \
    static void call_##function(void) {                                           \
        volatile uint8_t away[1024];                                              \
        __typeof__(function) *called = probing ? (void *)probe : (void *)function; \
        (void)away;                                                               \
        answer = called(__VA_ARGS__);                                             \
    }

static void on_painted(void (*call)(void), int probe_it) {
    memset(stack, PAINT, STACK);
    probing = probe_it;
    getcontext(&there);
    there.uc_stack.ss_sp = stack;
    there.uc_stack.ss_size = STACK;
    there.uc_link = &here;
    makecontext(&there, call, 0);
    swapcontext(&here, &there);
}

static size_t taken(void (*call)(void)) {
    uint8_t *lowest = stack;
    on_painted(call, 1);
    on_painted(call, 0); // once unseen: where a function of the C library is called first, the dynamic linker may run on this stack
    on_painted(call, 0);
    while (*lowest == PAINT) lowest++;
    return (size_t)(top - lowest);
}

// ---- what is read: the largest page, saved twice, with a frame in sixteen misread and one in sixteen held

static uint32_t draw(void) {
    static uint64_t state = 4;
    state = state * 6364136223846793005u + 1442695040888963407u;
    return (uint32_t)(state >> 32);
}

static void lay_list(void) {
    for (size_t i = 0; i < PAGE; i++) one[i] = (uint8_t)draw(), other[i] = (uint8_t)draw();
    for (size_t i = 0; i < ROWS; i++) {
        uint8_t *row = list + i * ROW;
        uint64_t constraint = (uint64_t)draw() << 32 | draw();
        stack_check_make(N, L, draw(), constraint, i % 4 == 3 ? other : one, PAGE, row, ROW);
        if (i % 16 == 4) row[12 + draw() % L] ^= (uint8_t)(1 << draw() % 8);
        if (i % 16 == 5) memcpy(row, row - ROW, ROW);
    }
}

// The same as frames, in a store; and three frames more, since each call of an offer should have one that is not there yet.
static void fill_store(void) {
    mekorvat_open(store, sizeof store, 212, N, L);
    for (uint32_t i = 0; i < 450; i++) {
        stack_check_write(212, N, L, i, i % 4 == 3 ? other : one, PAGE, frame, sizeof frame);
        if (i % 16 == 4) frame[22 + draw() % L] ^= (uint8_t)(1 << draw() % 8);
        for (int times = i % 16 == 4 ? 2 : 1; times > 0; times--) mekorvat_offer(store, sizeof store, frame, sizeof frame, &place);
    }
    for (uint32_t i = 0; i < 3; i++) stack_check_write(212, N, L, 1000 + i, one, PAGE, next[i], sizeof next[i]);
}

CALL(stack_check_make, N, L, 9, 0x8000000000000003, one, PAGE, list2, ROW)
CALL(stack_check_write, 212, N, L, 9, one, PAGE, frame, sizeof frame)
CALL(mekorvat_read_frame, frame, sizeof frame, &place, &number, &n, &l, &seed, &offset)
CALL(mekorvat_lay, frame, sizeof frame, 212, N, L, ROWS - 1, list2, sizeof list2, &place)
CALL(mekorvat_read_list, N, L, list, sizeof list, page, sizeof page, uses, sizeof uses, roles, sizeof roles, scratch, sizeof scratch,
     &rank, &place, &agreement)
CALL(mekorvat_read_both, N, L, list, sizeof list, page, sizeof page, uses, sizeof uses, roles, sizeof roles, list2, sizeof list2,
     page2, sizeof page2, uses2, sizeof uses2, roles2, sizeof roles2, scratch, sizeof scratch, numbers)
CALL(mekorvat_open, opened, sizeof opened, 212, N, L)
CALL(mekorvat_offer, store, sizeof store, next[shown++ % 3], sizeof next[0], &place)
CALL(mekorvat_ask, store, sizeof store, asked, sizeof asked, uses, sizeof uses, roles, sizeof roles, scratch, sizeof scratch,
     &rank, &place, &agreement, &rows)

// ---- what is found

static int wrong, held;

static void tell(const char *name, void (*call)(void), int figures, char **figure) {
    size_t bytes = taken(call), length = strlen(name);
    long most = -1;
    for (int i = 1; i < figures; i++)
        if (strncmp(figure[i], name, length) == 0 && figure[i][length] == '=') most = atol(figure[i] + length + 1), held++;
    printf("%s: %zu\n", name, bytes);
    if (answer != 0) printf("stack: %s answers %d\n", name, answer), wrong = 1;
    if ((long)bytes > most) printf("stack: %s takes %zu bytes, over %ld\n", name, bytes, most), wrong = 1;
}

#define TELL(function) tell(#function, call_##function, figures, figure)

int main(int figures, char **figure) {
    lay_list();
    fill_store();
    TELL(stack_check_make);
    TELL(stack_check_write);
    TELL(mekorvat_read_frame);
    TELL(mekorvat_lay);
    TELL(mekorvat_read_list);
    TELL(mekorvat_read_both);
    TELL(mekorvat_open);
    TELL(mekorvat_offer);
    TELL(mekorvat_ask);
    if (memcmp(page, one, PAGE) != 0 || memcmp(page2, other, PAGE) != 0 || memcmp(asked, one, PAGE) != 0)
        printf("stack: the pages are not those that were saved\n"), wrong = 1;
    if (held != figures - 1) printf("stack: a figure is of no function that is run\n"), wrong = 1;
    return wrong;
}
