/* A plain interpreter of the machine: it runs the lines `file`, `boot`, `type` and `run` of a session as docs/SESSION.md says, and
   prints the same answers, but it records nothing. So it is what recording is measured against.

       cc -O2 -o plain plain.c && ./plain < session

   docs/MACHINE.md and docs/KERNEL.md have the rules. It has the calls that the workloads of checks/speed make: exit, fork, wait,
   open of a file that is there, close, read, write to the console and to pipes, and pipe. A program that makes another ends the
   session with status 1, and so does a line that is none of these four or that is refused. Slices are of 1,000 instructions. */
#define _POSIX_C_SOURCE 200809L
#include <stdbool.h>
#include <stdint.h>
#include <stdio.h>
#include <stdlib.h>
#include <string.h>

enum {
    WINDOW = 0x40000, PIPE_BYTES = 4096, MOVED_BYTES = 65536, NAME_BYTES = 64, NAMES = 1024,
    PROCESSES = 64, PIPES = 64, DESCRIPTORS = 16, SLICE = 1000,
};
static const uint64_t WINDOW_AT = 0x10000;

/* The registers that calls use, and x2, the stack's. */
enum { SP = 2, A0 = 10, A1 = 11, A2 = 12, A7 = 17 };
enum { EXIT = 1, FORK = 2, WAIT = 4, OPEN = 9, CLOSE = 10, READ = 11, WRITE = 12, PIPE = 15 };
enum {
    NO_FILE = 2, NO_DESCRIPTOR = 9, NO_CHILD = 10, NO_PROCESS = 11, NO_ROOM = 12, NO_BYTES = 14, BAD = 22, NONE_FREE = 24,
    NO_READER = 32,
};
/* How a process ends by a fault. */
enum { NO_INSTRUCTION = 132, BREAK = 133, MISALIGNED = 135, NO_ACCESS = 139 };

struct file { uint8_t *bytes; uint32_t len; };
struct name { uint8_t bytes[NAME_BYTES]; uint32_t len; struct file *file; };
struct pipe { uint8_t bytes[PIPE_BYTES]; uint32_t at, len; bool has_reader, has_writer; };
enum kind { CONSOLE, FILE_AT, PIPE_READ, PIPE_WRITE };
struct description { enum kind kind; uint32_t holders, position; struct file *file; struct pipe *pipe; };
struct process {
    uint64_t x[32], pc;
    uint8_t *window;                /* none once it has ended */
    uint32_t number, parent;        /* a parent of 0: none */
    uint8_t status;
    struct description *open[DESCRIPTORS];
};

static struct process *table[PROCESSES];    /* those that live, or have ended and are not yet waited for, by number */
static size_t process_count;
static struct name names[NAMES];
static size_t name_count;
static struct pipe pipes[PIPES];
static struct { uint8_t *bytes; size_t at, len, room; } typed;
static uint64_t events, turns;
static uint32_t last_number;

static _Noreturn void stop(const char *why)
{
    fflush(stdout);
    fprintf(stderr, "plain: %s\n", why);
    exit(1);
}

static void *grown(void *old, size_t size)
{
    void *new = realloc(old, size);
    if (!new)
        stop("no memory");
    return new;
}

/* The bytes at an address, if all are in the window. */
static inline uint8_t *bytes_at(const struct process *p, uint64_t address, uint64_t count)
{
    uint64_t at = address - WINDOW_AT;
    return at <= WINDOW && count <= WINDOW - at ? p->window + at : NULL;
}

/* The same for a count that is known here, of at least 1. */
static inline uint8_t *few_at(uint8_t *window, uint64_t address, unsigned count)
{
    uint64_t at = address - WINDOW_AT;
    return at <= WINDOW - count ? window + at : NULL;
}

/* ---- names, descriptions and descriptors ---- */

static struct name *name_of(const uint8_t *bytes, size_t len)
{
    for (size_t i = 0; i < name_count; i++)
        if (names[i].len == len && memcmp(names[i].bytes, bytes, len) == 0)
            return &names[i];
    return NULL;
}

static struct file *make_file(const uint8_t *bytes, size_t len)
{
    struct name *made = &names[name_count++];
    memcpy(made->bytes, bytes, len);
    made->len = (uint32_t)len;
    made->file = grown(NULL, sizeof *made->file);
    *made->file = (struct file){ 0 };
    return made->file;
}

static struct description *describe(enum kind kind, struct file *file, struct pipe *pipe)
{
    struct description *made = grown(NULL, sizeof *made);
    *made = (struct description){ .kind = kind, .holders = 1, .file = file, .pipe = pipe };
    return made;
}

static void let_go(struct description *d)
{
    if (--d->holders > 0)
        return;
    if (d->kind == PIPE_READ)
        d->pipe->has_reader = false;
    if (d->kind == PIPE_WRITE)
        d->pipe->has_writer = false;
    free(d);
}

static struct description *opened(const struct process *p, uint64_t descriptor)
{
    return descriptor < DESCRIPTORS ? p->open[descriptor] : NULL;
}

static int free_count(const struct process *p)
{
    int count = 0;
    for (int i = 0; i < DESCRIPTORS; i++)
        count += !p->open[i];
    return count;
}

static uint64_t place(struct process *p, struct description *d)
{
    uint64_t at = 0;
    while (p->open[at])
        at++;
    p->open[at] = d;
    return at;
}

/* ---- processes ---- */

static void forget(struct process *p)
{
    size_t at = 0;
    while (table[at] != p)
        at++;
    memmove(table + at, table + at + 1, (--process_count - at) * sizeof *table);
    free(p);
}

static void end(struct process *p, uint8_t status)
{
    p->status = status;
    for (int i = 0; i < DESCRIPTORS; i++)
        if (p->open[i])
            let_go(p->open[i]);
    free(p->window);
    p->window = NULL;
    for (size_t i = process_count; i-- > 0;)
        if (table[i]->parent == p->number) {
            table[i]->parent = 0;
            if (!table[i]->window)
                forget(table[i]);
        }
    if (!p->parent)
        forget(p);
}

/* A child that has ended, or NULL; and whether there is any child. */
static struct process *ended_child(const struct process *p, bool *has_child)
{
    *has_child = false;
    for (size_t i = 0; i < process_count; i++)
        if (table[i]->parent == p->number) {
            *has_child = true;
            if (!table[i]->window)
                return table[i];
        }
    return NULL;
}

/* ---- calls: each gives its result, or the error behind `refused` ---- */

enum outcome { RETURNS, WAITS, ENDS };
static inline uint64_t refused(unsigned error) { return -(uint64_t)error; }

static uint64_t call_fork(struct process *p)
{
    if (process_count == PROCESSES)
        return refused(NO_PROCESS);
    struct process *child = grown(NULL, sizeof *child);
    *child = *p;
    child->window = memcpy(grown(NULL, WINDOW), p->window, WINDOW);
    child->number = ++last_number;
    child->parent = p->number;
    child->x[A0] = 0;
    child->pc += 4;
    for (int i = 0; i < DESCRIPTORS; i++)
        if (child->open[i])
            child->open[i]->holders++;
    table[process_count++] = child;
    return child->number;
}

static enum outcome call_wait(struct process *p, uint64_t *result)
{
    bool has_child;
    struct process *child = ended_child(p, &has_child);
    uint8_t *status = bytes_at(p, p->x[A0], 1);
    if (!has_child || !status) {
        *result = refused(has_child ? NO_BYTES : NO_CHILD);
        return RETURNS;
    }
    if (!child)
        return WAITS;
    *status = child->status;
    *result = child->number;
    forget(child);
    return RETURNS;
}

static uint64_t call_open(struct process *p)
{
    uint64_t len = p->x[A1], mode = p->x[A2];
    const uint8_t *path = bytes_at(p, p->x[A0], len);
    if (mode == 1)
        stop("a program makes a file");
    if (len == 0 || len > NAME_BYTES || mode > 1)
        return refused(BAD);
    if (!path)
        return refused(NO_BYTES);
    struct name *found = name_of(path, len);
    if (!found || free_count(p) == 0)
        return refused(found ? NONE_FREE : NO_FILE);
    return place(p, describe(FILE_AT, found->file, NULL));
}

static uint64_t call_close(struct process *p)
{
    struct description *d = opened(p, p->x[A0]);
    if (!d)
        return refused(NO_DESCRIPTOR);
    p->open[p->x[A0]] = NULL;
    let_go(d);
    return 0;
}

static uint64_t call_pipe(struct process *p)
{
    size_t at = 0;
    if (free_count(p) < 2)
        return refused(NONE_FREE);
    while (at < PIPES && (pipes[at].has_reader || pipes[at].has_writer))
        at++;
    if (at == PIPES)
        return refused(NO_ROOM);
    struct pipe *made = &pipes[at];
    made->at = made->len = 0;
    made->has_reader = made->has_writer = true;
    uint64_t reader = place(p, describe(PIPE_READ, NULL, made));
    return reader + 256 * place(p, describe(PIPE_WRITE, NULL, made));
}

static uint64_t least(uint64_t a, uint64_t b) { return a < b ? a : b; }

static uint64_t take_typed(uint8_t *to, uint64_t count)
{
    uint64_t taken = least(count, typed.len);
    memcpy(to, typed.bytes + typed.at, taken);
    typed.at += taken;
    typed.len -= taken;
    return taken;
}

static uint64_t take_file(struct description *d, uint8_t *to, uint64_t count)
{
    uint64_t taken = least(count, d->file->len - d->position);
    if (taken)
        memcpy(to, d->file->bytes + d->position, taken);
    d->position += (uint32_t)taken;
    return taken;
}

static uint64_t take_pipe(struct pipe *q, uint8_t *to, uint64_t count)
{
    uint64_t taken = least(count, q->len), straight = least(taken, PIPE_BYTES - q->at);
    memcpy(to, q->bytes + q->at, straight);
    memcpy(to + straight, q->bytes, taken - straight);
    q->at = (q->at + (uint32_t)taken) % PIPE_BYTES;
    q->len -= (uint32_t)taken;
    return taken;
}

static void give_console(const struct process *p, const uint8_t *from, uint64_t count)
{
    static const char digits[] = "0123456789abcdef";
    static char text[2 * MOVED_BYTES];
    for (uint64_t i = 0; i < count; i++) {
        text[2 * i] = digits[from[i] >> 4];
        text[2 * i + 1] = digits[from[i] & 15];
    }
    printf("out %llu %u ", (unsigned long long)events, p->number);
    fwrite(text, 2, count, stdout);
    putchar('\n');
}

static uint64_t give_pipe(struct pipe *q, const uint8_t *from, uint64_t count)
{
    uint64_t given = least(count, PIPE_BYTES - q->len), at = (q->at + q->len) % PIPE_BYTES;
    uint64_t straight = least(given, PIPE_BYTES - at);
    memcpy(q->bytes + at, from, straight);
    memcpy(q->bytes, from + straight, given - straight);
    q->len += (uint32_t)given;
    return given;
}

/* Whether a read or a write that isn't refused would find nothing to take, or no room. */
static bool is_kept_waiting(const struct description *d, bool reads)
{
    if (d->kind == CONSOLE)
        return reads && typed.len == 0;
    if (d->kind == PIPE_READ)
        return d->pipe->len == 0 && d->pipe->has_writer;
    return d->kind == PIPE_WRITE && d->pipe->len == PIPE_BYTES && d->pipe->has_reader;
}

static enum outcome call_move(struct process *p, bool reads, uint64_t *result)
{
    struct description *d = opened(p, p->x[A0]);
    uint64_t count = least(p->x[A2], MOVED_BYTES);
    uint8_t *bytes = bytes_at(p, p->x[A1], count);
    if (!d || d->kind == (reads ? PIPE_WRITE : PIPE_READ))
        *result = refused(NO_DESCRIPTOR);
    else if (count == 0)
        *result = 0;
    else if (!bytes)
        *result = refused(NO_BYTES);
    else if (is_kept_waiting(d, reads))
        return WAITS;
    else if (d->kind == PIPE_READ)
        *result = take_pipe(d->pipe, bytes, count);
    else if (d->kind == PIPE_WRITE)
        *result = d->pipe->has_reader ? give_pipe(d->pipe, bytes, count) : refused(NO_READER);
    else if (d->kind == FILE_AT && reads)
        *result = take_file(d, bytes, count);
    else if (d->kind == FILE_AT)
        stop("a program writes to a file");
    else if (reads)
        *result = take_typed(bytes, count);
    else
        give_console(p, bytes, *result = count);
    return RETURNS;
}

static enum outcome call(struct process *p)
{
    uint64_t result = 0;
    enum outcome found = RETURNS;
    switch (p->x[A7]) {
    case EXIT: events++; end(p, (uint8_t)p->x[A0]); return ENDS;
    case FORK: result = call_fork(p); break;
    case WAIT: found = call_wait(p, &result); break;
    case OPEN: result = call_open(p); break;
    case CLOSE: result = call_close(p); break;
    case READ: found = call_move(p, true, &result); break;
    case WRITE: found = call_move(p, false, &result); break;
    case PIPE: result = call_pipe(p); break;
    default: stop("a program makes a call that isn't here");
    }
    if (found == RETURNS) {
        events++;
        p->x[A0] = result;
        p->pc += 4;
    }
    return found;
}

/* Whether the next instruction is a call that isn't ready. */
static bool waits(const struct process *p)
{
    const uint8_t *next = bytes_at(p, p->pc, 4);
    if (!next || memcmp(next, "\x73\0\0", 4) != 0)
        return false;
    uint64_t number = p->x[A7];
    if (number == READ || number == WRITE) {
        const struct description *d = opened(p, p->x[A0]);
        uint64_t count = least(p->x[A2], MOVED_BYTES);
        return d && d->kind != (number == READ ? PIPE_WRITE : PIPE_READ) && count && bytes_at(p, p->x[A1], count)
            && is_kept_waiting(d, number == READ);
    }
    bool has_child;
    return number == WAIT && !ended_child(p, &has_child) && has_child && bytes_at(p, p->x[A0], 1);
}

/* ---- instructions ---- */

/* The next words are an instruction's: its opcodes, and its immediates with their sign. */
enum { LUI = 0x37, AUIPC = 0x17, JAL = 0x6f, JALR = 0x67, BRANCH = 0x63, LOAD = 0x03, STORE = 0x23, OP_IMM = 0x13, OP = 0x33,
       OP_IMM_32 = 0x1b, OP_32 = 0x3b, FENCE = 0x0f, SYSTEM = 0x73 };
static inline uint64_t signed_32(uint32_t value) { return (uint64_t)(int64_t)(int32_t)value; }
static inline uint64_t imm_i(uint32_t w) { return (uint64_t)(int64_t)((int32_t)w >> 20); }
static inline uint64_t imm_s(uint32_t w) { return (uint64_t)(int64_t)((int32_t)(w & 0xfe000000) >> 20 | (int32_t)(w >> 7 & 31)); }
static inline uint64_t imm_u(uint32_t w) { return signed_32(w & 0xfffff000); }
static inline uint64_t imm_b(uint32_t w)
{
    uint32_t low = (w & 0x80) << 4 | (w >> 20 & 0x7e0) | (w >> 7 & 0x1e);
    return (uint64_t)(int64_t)((int32_t)(w & 0x80000000) >> 19 | (int32_t)low);
}
static inline uint64_t imm_j(uint32_t w)
{
    uint32_t low = (w & 0xff000) | (w >> 9 & 0x800) | (w >> 20 & 0x7fe);
    return (uint64_t)(int64_t)((int32_t)(w & 0x80000000) >> 11 | (int32_t)low);
}
static inline uint64_t shifted_right(uint64_t a, unsigned by) { return (uint64_t)((int64_t)a >> by); }

/* Each of these says whether the word is an instruction. */
static inline bool is_taken(unsigned funct3, uint64_t a, uint64_t b, bool *taken)
{
    switch (funct3) {
    case 0: *taken = a == b; return true;
    case 1: *taken = a != b; return true;
    case 4: *taken = (int64_t)a < (int64_t)b; return true;
    case 5: *taken = (int64_t)a >= (int64_t)b; return true;
    case 6: *taken = a < b; return true;
    case 7: *taken = a >= b; return true;
    default: return false;
    }
}

/* `other` says that bit 30 is set, which makes a sum a difference and has a shift keep the sign. */
static inline uint64_t wide(unsigned funct3, bool other, uint64_t a, uint64_t b)
{
    switch (funct3) {
    case 0: return other ? a - b : a + b;
    case 1: return a << (b & 63);
    case 2: return (int64_t)a < (int64_t)b;
    case 3: return a < b;
    case 4: return a ^ b;
    case 5: return other ? shifted_right(a, b & 63) : a >> (b & 63);
    case 6: return a | b;
    default: return a & b;
    }
}

static inline uint64_t narrow(unsigned funct3, bool other, uint32_t a, uint32_t b)
{
    if (funct3 == 0)
        return signed_32(other ? a - b : a + b);
    if (funct3 == 1)
        return signed_32(a << (b & 31));
    return other ? (uint64_t)(int64_t)((int32_t)a >> (b & 31)) : signed_32(a >> (b & 31));
}

/* Whether the bits 31 to 25 are those of an operation, for which `has_other` says that it has two forms. */
static inline bool is_operation(unsigned funct7, bool has_other) { return funct7 == 0 || (funct7 == 0x20 && has_other); }

static inline uint64_t loaded(unsigned funct3, const uint8_t *from)
{
    uint64_t d;
    uint32_t w;
    uint16_t h;
    switch (funct3) {
    case 0: return (uint64_t)(int64_t)(int8_t)*from;
    case 1: memcpy(&h, from, 2); return (uint64_t)(int64_t)(int16_t)h;
    case 2: memcpy(&w, from, 4); return signed_32(w);
    case 3: memcpy(&d, from, 8); return d;
    case 4: return *from;
    case 5: memcpy(&h, from, 2); return h;
    default: memcpy(&w, from, 4); return w;
    }
}

static inline void store(unsigned funct3, uint8_t *to, uint64_t value)
{
    switch (funct3) {
    case 0: *to = (uint8_t)value; break;
    case 1: memcpy(to, &value, 2); break;
    case 2: memcpy(to, &value, 4); break;
    default: memcpy(to, &value, 8); break;
    }
}

/* Ends a process by a fault, which counts as one instruction. */
static uint64_t fault(struct process *p, uint64_t done, uint8_t status)
{
    events++;
    end(p, status);
    return done + 1;
}

/* Runs a process for so many instructions at most. Gives how many it ran. */
static uint64_t slice(struct process *p, uint64_t count)
{
    uint64_t *x = p->x, pc = p->pc;
    uint8_t *window = p->window;
    for (uint64_t done = 0; done < count; done++) {
        const uint8_t *next = few_at(window, pc, 4);
        uint8_t *at;
        uint32_t w;
        if (!next)
            return fault(p, done, NO_ACCESS);
        memcpy(&w, next, 4);
        unsigned rd = w >> 7 & 31, funct3 = w >> 12 & 7, funct7 = w >> 25;
        uint64_t a = x[w >> 15 & 31], b = x[w >> 20 & 31], value, target;
        bool taken;
        switch (w & 0x7f) {
        case LUI: value = imm_u(w); break;
        case AUIPC: value = pc + imm_u(w); break;
        case JAL: target = pc + imm_j(w); goto jump;
        case JALR:
            if (funct3)
                return fault(p, done, NO_INSTRUCTION);
            target = (a + imm_i(w)) & ~1ull;
        jump:
            if (target & 3)
                return fault(p, done, MISALIGNED);
            if (rd)
                x[rd] = pc + 4;
            pc = target;
            continue;
        case BRANCH:
            if (!is_taken(funct3, a, b, &taken))
                return fault(p, done, NO_INSTRUCTION);
            target = pc + (taken ? imm_b(w) : 4);
            if (taken && target & 3)
                return fault(p, done, MISALIGNED);
            pc = target;
            continue;
        case LOAD:
            if (funct3 == 7)
                return fault(p, done, NO_INSTRUCTION);
            if (!(at = few_at(window, a + imm_i(w), 1u << (funct3 & 3))))
                return fault(p, done, NO_ACCESS);
            value = loaded(funct3, at);
            break;
        case STORE:
            if (funct3 > 3)
                return fault(p, done, NO_INSTRUCTION);
            if (!(at = few_at(window, a + imm_s(w), 1u << funct3)))
                return fault(p, done, NO_ACCESS);
            store(funct3, at, b);
            pc += 4;
            continue;
        case OP_IMM:
            if ((funct3 == 1 && w >> 26) || (funct3 == 5 && w >> 26 && w >> 26 != 0x10))
                return fault(p, done, NO_INSTRUCTION);
            value = wide(funct3, funct3 == 5 && w >> 30, a, imm_i(w));
            break;
        case OP:
            if (!is_operation(funct7, funct3 == 0 || funct3 == 5))
                return fault(p, done, NO_INSTRUCTION);
            value = wide(funct3, funct7, a, b);
            break;
        case OP_IMM_32:
            if (funct3 != 0 && !(funct3 == 1 && funct7 == 0) && !(funct3 == 5 && is_operation(funct7, true)))
                return fault(p, done, NO_INSTRUCTION);
            value = narrow(funct3, funct3 == 5 && funct7, (uint32_t)a, (uint32_t)imm_i(w));
            break;
        case OP_32:
            if ((funct3 != 0 && funct3 != 1 && funct3 != 5) || !is_operation(funct7, funct3 != 1))
                return fault(p, done, NO_INSTRUCTION);
            value = narrow(funct3, funct7, (uint32_t)a, (uint32_t)b);
            break;
        case FENCE:
            if (funct3)
                return fault(p, done, NO_INSTRUCTION);
            pc += 4;
            continue;
        case SYSTEM:
            if (w != SYSTEM)
                return fault(p, done, w == 0x100073 ? BREAK : NO_INSTRUCTION);
            p->pc = pc;
            return done + (call(p) != WAITS);
        default: return fault(p, done, NO_INSTRUCTION);
        }
        if (rd)
            x[rd] = value;
        pc += 4;
    }
    p->pc = pc;
    return count;
}

/* ---- lines ---- */

static void run(uint64_t budget)
{
    uint64_t ran = 0;
    for (;;) {
        struct process *ready[PROCESSES];
        size_t live = 0, count = 0;
        for (size_t i = 0; i < process_count; i++)
            if (table[i]->window) {
                live++;
                if (!waits(table[i]))
                    ready[count++] = table[i];
            }
        if (count == 0 || ran >= budget) {
            printf("ran %llu %s\n", (unsigned long long)ran, !live ? "done" : !count ? "stalled" : "budget");
            return;
        }
        ran += slice(ready[turns++ % count], least(SLICE, budget - ran));
    }
}

static uint64_t number_at(const uint8_t *bytes)
{
    uint64_t found;
    memcpy(&found, bytes, 8);
    return found;
}

static void boot(const char *word)
{
    struct name *found = name_of((const uint8_t *)word, strlen(word));
    const struct file *f = found ? found->file : NULL;
    if (last_number || !f || f->len < 24 || memcmp(f->bytes, "ARNIMG01", 8) != 0)
        stop("there is no such image to boot");
    struct process *p = grown(NULL, sizeof *p);
    *p = (struct process){ .pc = number_at(f->bytes + 8), .number = ++last_number };
    p->window = memset(grown(NULL, WINDOW), 0, WINDOW);
    uint8_t *to = bytes_at(p, number_at(f->bytes + 16), f->len - 24);
    if (!to || p->pc % 4 || p->pc - WINDOW_AT >= WINDOW)
        stop("the image isn't within the window");
    memcpy(to, f->bytes + 24, f->len - 24);
    p->x[SP] = p->x[A0] = WINDOW_AT + WINDOW;
    p->open[0] = p->open[1] = p->open[2] = describe(CONSOLE, NULL, NULL);
    p->open[0]->holders = 3;
    table[process_count++] = p;
}

/* The bytes of a word in hex, in place; gives how many. */
static size_t unhex(char *word)
{
    size_t count = strcmp(word, "-") == 0 ? 0 : strlen(word) / 2;
    for (size_t i = 0; i < count; i++) {
        char digits[3] = { word[2 * i], word[2 * i + 1], 0 };
        word[i] = (char)strtoul(digits, NULL, 16);
    }
    return count;
}

static void add_file(const char *word, char *hex)
{
    size_t len = strlen(word);
    if (last_number || len == 0 || len > NAME_BYTES || name_of((const uint8_t *)word, len) || name_count == NAMES)
        stop("a file is refused");
    struct file *f = make_file((const uint8_t *)word, len);
    f->len = (uint32_t)unhex(hex);
    f->bytes = memcpy(grown(NULL, f->len + 1), hex, f->len);
}

static void type(char *hex)
{
    size_t count = unhex(hex);
    if (!last_number)
        stop("nothing is booted");
    if (typed.at + typed.len + count > typed.room)
        typed.bytes = grown(typed.bytes, typed.room = 2 * (typed.at + typed.len + count));
    memcpy(typed.bytes + typed.at + typed.len, hex, count);
    typed.len += count;
}

static void answer(char *line)
{
    char *word = strtok(line, " "), *first = strtok(NULL, " "), *second = strtok(NULL, " ");
    if (!word || *word == '#')
        return;
    if (first && strcmp(word, "run") == 0) {
        if (!last_number)
            stop("nothing is booted");
        run(strtoull(first, NULL, 10));
        return;
    }
    if (second && strcmp(word, "file") == 0)
        add_file(first, second);
    else if (first && strcmp(word, "boot") == 0)
        boot(first);
    else if (first && strcmp(word, "type") == 0)
        type(first);
    else
        stop("a line isn't one of file, boot, type and run");
    printf("event %llu\n", (unsigned long long)events++);
}

int main(void)
{
    char *line = NULL;
    size_t room = 0;
    ssize_t len;
    while ((len = getline(&line, &room, stdin)) > 0) {
        if (line[len - 1] == '\n')
            line[len - 1] = 0;
        answer(line);
    }
    free(line);
    return 0;
}
