/*
 * Makes each call on a stack of exactly the size that was read off the built code, with a page below it that nobody may touch, and looks how deep it was
 * written. Words: for each call its name and its bytes, then --, then files of jobs. For x86-64, bound at the start (-z now), so that no call waits for the
 * loader.
 */
#define _GNU_SOURCE
#include "tirunoiwa.h"

#include <signal.h>
#include <stdio.h>
#include <stdlib.h>
#include <string.h>
#include <sys/mman.h>
#include <unistd.h>

#define SIZE(array) (sizeof(array) / sizeof((array)[0]))
#define PAGE 4096
#define MOST 65536
#define VERTICES 64

/* What crates/board_calls takes and gives back. */
struct held {
    uint8_t count;
    uint16_t ends[60];
    uint16_t nbr[360];
    uint8_t kind[360];
    uint8_t told;
    uint8_t sizes[120];
    uint8_t rooms;
    uint16_t width;
    uint16_t height;
    uint16_t rects[256];
    uint16_t uprights;
    uint16_t many;
    uint16_t rows[256];
};
struct told {
    struct held held;
    size_t answer;
};
void board_load(void);
void board_turn(void);
void board_narrow(void);
void board_rectangle(void);
void board_touches(void);
void board_write_job(void);
void board_write_plan(void);
void board_write_walls(void);
void board_slices(void);
void board_write_cuts(void);

/* A function, what it may take of the stack, the deepest that was seen, and its own stack. */
struct call {
    const char *name;
    void (*function)(void);
    size_t bytes;
    size_t touched;
    size_t made;
    uint8_t *low;
    uint8_t *top;
};
#define CALL(name) {#name, (void (*)(void))name, 0, 0, 0, NULL, NULL}
static struct call calls[] = {
    CALL(tirunoiwa_plan), CALL(tirunoiwa_turned), CALL(tirunoiwa_star), CALL(tirunoiwa_touch), CALL(tirunoiwa_walls),  CALL(board_load),
    CALL(board_turn),     CALL(board_rectangle),  CALL(board_touches),  CALL(board_write_job), CALL(board_write_plan), CALL(board_write_walls),
    CALL(tirunoiwa_cuts), CALL(board_slices),     CALL(board_write_cuts), CALL(tirunoiwa_narrow), CALL(board_narrow),
    CALL(tirunoiwa_check), CALL(tirunoiwa_totals),
};
enum { PLAN, TURNED, STAR, TOUCH, WALLS, LOAD, TURN, RECTANGLE, TOUCHES, WRITE_JOB, WRITE_PLAN, WRITE_WALLS, CUTS, SLICES, WRITE_CUTS, NARROWED, NARROW, CHECK, TOTALS };

static const char *under_way = "";
static uint8_t job[MOST];
static uint8_t out[MOST];
static struct told told;

/* Calls a function with the stack pointer at `top` and six words in the registers of arguments; what stands from `top` on are arguments in memory. */
size_t on_stack(uint8_t *top, void (*function)(void), const size_t words[6]);
__asm__(".text\n"
        ".globl on_stack\n"
        ".type on_stack, @function\n"
        "on_stack:\n"
        "    push %rbp\n"
        "    mov %rsp, %rbp\n"
        "    mov %rdi, %rsp\n"
        "    mov %rsi, %rax\n"
        "    mov %rdx, %r10\n"
        "    mov 0(%r10), %rdi\n"
        "    mov 8(%r10), %rsi\n"
        "    mov 16(%r10), %rdx\n"
        "    mov 24(%r10), %rcx\n"
        "    mov 32(%r10), %r8\n"
        "    mov 40(%r10), %r9\n"
        "    call *%rax\n"
        "    mov %rbp, %rsp\n"
        "    pop %rbp\n"
        "    ret\n"
        ".section .note.GNU-stack,\"\",@progbits\n"
        ".text\n");

static void went_below(int number)
{
    static const char said[] = ": went below its stack\n";
    (void)number;
    (void)!write(2, under_way, strlen(under_way));
    (void)!write(2, said, sizeof(said) - 1);
    _exit(1);
}

static void stop(const char *what, const char *why)
{
    fprintf(stderr, "stack: %s: %s\n", what, why);
    exit(1);
}

/* A stack pointer is a multiple of 16 where a function is called: the size is rounded up to one. */
static void make_stack(struct call *call)
{
    const size_t size = (call->bytes + 15) / 16 * 16;
    uint8_t *const base = mmap(NULL, PAGE + size + sizeof(struct held) + PAGE, PROT_READ | PROT_WRITE, MAP_PRIVATE | MAP_ANONYMOUS, -1, 0);
    if (base == MAP_FAILED || mprotect(base, PAGE, PROT_NONE) != 0) {
        stop(call->name, "no memory for its stack");
    }
    call->low = base + PAGE;
    call->top = call->low + size;
}

/* What stands on a stack that nobody has written. */
static uint8_t before(const uint8_t *at)
{
    return (uint8_t)((uintptr_t)at * 7 + 161);
}

static size_t make(size_t which, const struct held *held, size_t a, size_t b, size_t c, size_t d, size_t e, size_t f)
{
    struct call *const call = &calls[which];
    const size_t words[] = {a, b, c, d, e, f};
    for (uint8_t *at = call->low; at < call->top; at++) {
        *at = before(at);
    }
    if (held != NULL) {
        memcpy(call->top, held, sizeof(*held));
    }
    under_way = call->name;
    const size_t answer = on_stack(call->top, call->function, words);
    const uint8_t *lowest = call->low;
    while (lowest < call->top && *lowest == before(lowest)) {
        lowest++;
    }
    const size_t touched = (size_t)(call->top - lowest);
    call->touched = touched > call->touched ? touched : call->touched;
    call->made++;
    return answer;
}

static size_t make_on_board(size_t which, const struct held *held, size_t a, size_t b)
{
    make(which, held, (size_t)&told, a, b, 0, 0, 0);
    return told.answer;
}

/* The season's totals of a job that is wrapped twice: it is accepted twice, or falls twice to the refusal that a load gives. */
static void on_season(size_t length, size_t loaded)
{
    static const uint8_t refusals[] = {1, 2, 3, 4, 5, 6, 7, 9, 17, 18};
    static uint8_t jobs[2 * (3 + MOST)];
    static uint64_t figures[TIRUNOIWA_FIGURES];
    size_t line = 0;
    for (size_t i = 0; i < SIZE(refusals); i++) {
        line = refusals[i] == loaded ? 1 + i : line;
    }
    for (size_t i = 0; i < 2; i++) {
        uint8_t *const wrapper = jobs + i * (3 + length);
        wrapper[0] = 9;
        wrapper[1] = (uint8_t)(length / 256);
        wrapper[2] = (uint8_t)(length % 256);
        memcpy(wrapper + 3, job, length);
    }
    if (make(TOTALS, NULL, (size_t)jobs, 2 * (3 + length), (size_t)figures, SIZE(figures), 0, 0) != 256 + TIRUNOIWA_FIGURES || figures[line] != 2) {
        stop("tirunoiwa_totals", "not twice what a load of the job is");
    }
    if (make(TOTALS, NULL, (size_t)jobs, 2 * (3 + length) - 1, (size_t)figures, SIZE(figures), 0, 0) != 19) {
        stop("tirunoiwa_totals", "19 is not given for a wrapper cut short");
    }
}

/* Every call on a job: each contact turned, each room asked for, each pair asked about. */
static void on_job(size_t length)
{
    static const struct held nothing;
    const size_t bytes = (size_t)job;
    const size_t lent = (size_t)out;
    const size_t planned = make(PLAN, NULL, bytes, length, lent, MOST, 0, 0);
    const size_t loaded = make_on_board(LOAD, &nothing, bytes, length);
    const struct held held = told.held;
    if (tirunoiwa_refused(planned) != (loaded == 256 ? 0 : loaded)) {
        stop("board_load", "not the answer of tirunoiwa_plan");
    }
    on_season(length, loaded);
    for (size_t u = 0; u < VERTICES; u++) {
        make(STAR, NULL, bytes, length, u, lent, MOST, 0);
        make_on_board(RECTANGLE, &held, u, 0);
        for (size_t v = u; v < VERTICES; v++) {
            const size_t turned = make(TURNED, NULL, bytes, length, u, v, lent, MOST);
            make(TOUCH, NULL, bytes, length, u, v, 0, 0);
            make_on_board(TOUCHES, &held, u, v);
            const size_t answer = make_on_board(TURN, &held, u, v);
            if (loaded == 256 && tirunoiwa_refused(turned) != (answer == 256 ? 0 : answer)) {
                stop("board_turn", "not the answer of tirunoiwa_turned");
            }
        }
    }
    make_on_board(WRITE_JOB, &held, lent, MOST);
    if (loaded == 256 && (told.answer != length || memcmp(out, job, length) != 0)) {
        stop("board_write_job", "not the job");
    }
    make_on_board(WRITE_PLAN, &held, lent, MOST);
    if (loaded == 256 && told.answer != tirunoiwa_value(planned)) {
        stop("board_write_plan", "not as long as the plan");
    }
    if (loaded == 256) {
        static uint8_t plan[TIRUNOIWA_PLAN_MOST];
        const size_t plan_length = tirunoiwa_value(planned);
        memcpy(plan, out, plan_length);
        if (make(CHECK, NULL, bytes, length, (size_t)plan, plan_length, 0, 0) != 257) {
            stop("tirunoiwa_check", "not good for its own job");
        }
    }
    const size_t narrowed = make(NARROWED, NULL, bytes, length, lent, MOST, 0, 0);
    const size_t turns = make_on_board(NARROW, &held, 0, 0);
    if (loaded == 256 && turns != tirunoiwa_value(narrowed)) {
        stop("board_narrow", "not the turns of tirunoiwa_narrow");
    }
    const size_t walls = make(WALLS, NULL, bytes, length, lent, MOST, 0, 0);
    make_on_board(WRITE_WALLS, &held, lent, MOST);
    if (loaded == 256 && told.answer != tirunoiwa_value(walls)) {
        stop("board_write_walls", "not as long as the walls");
    }
    const size_t cuts = make(CUTS, NULL, bytes, length, lent, MOST, 0, 0);
    const size_t sliceable = make_on_board(SLICES, &held, 0, 0);
    const size_t cut = make_on_board(WRITE_CUTS, &held, lent, MOST);
    if (loaded == 256 && (sliceable == 1 ? cut != tirunoiwa_value(cuts) : cut != 15)) {
        stop("board_write_cuts", "not as long as the cuts, or not refused by 15");
    }
}

static struct call *named(const char *name)
{
    for (size_t i = 0; i < SIZE(calls); i++) {
        if (strcmp(calls[i].name, name) == 0) {
            return &calls[i];
        }
    }
    stop(name, "a call that is not made here");
    return NULL;
}

static size_t read_job(const char *name)
{
    FILE *const file = fopen(name, "rb");
    if (file == NULL) {
        stop(name, "cannot be read");
    }
    const size_t length = fread(job, 1, MOST, file);
    fclose(file);
    return length;
}

int main(int count, char **words)
{
    static uint8_t apart[65536];
    const stack_t other = {.ss_sp = apart, .ss_size = sizeof(apart)};
    struct sigaction action = {.sa_handler = went_below, .sa_flags = SA_ONSTACK};
    sigaltstack(&other, NULL);
    sigaction(SIGSEGV, &action, NULL);

    int at = 1;
    while (at + 1 < count && strcmp(words[at], "--") != 0) {
        struct call *const call = named(words[at]);
        call->bytes = strtoul(words[at + 1], NULL, 10);
        at += 2;
    }
    for (size_t i = 0; i < SIZE(calls); i++) {
        if (calls[i].bytes == 0) {
            stop(calls[i].name, "no bytes were read off");
        }
        make_stack(&calls[i]);
    }
    for (at++; at < count; at++) {
        on_job(read_job(words[at]));
    }
    printf("made on a stack of just that size, bytes read off, bytes touched, times:\n");
    for (size_t i = 0; i < SIZE(calls); i++) {
        printf("  %-28s %6zu %6zu %6zu\n", calls[i].name, calls[i].bytes, calls[i].touched, calls[i].made);
        if (calls[i].made == 0 || calls[i].touched > calls[i].bytes) {
            stop(calls[i].name, "more was touched than was read off");
        }
    }
    return 0;
}
