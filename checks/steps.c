/* Runs a program step by step, and holds the frame tables of its functions against what calls really saved.

       steps PROGRAM FUNCTION ..

   At each call the frame address (where rsp was), the return address and the registers that calls keep are written down. Before each instruction of one of these
   functions the row that holds there is worked out from the bytes of `.eh_frame` (DWARF 5, section 6.4; psABI for AMD64, sections 3.6.2 and 4.2.4), and what it
   recovers is what was written down. Code outside `.text`, as that of the C library, runs through: it is left at the return address of its call. The program is
   one without -pie, and what it prints is not shown.

   Prints how many instructions were looked at, at how many places of how many functions, and a line for each place that is wrong; ends with 1 where there is one. */
#define _GNU_SOURCE
#include <elf.h>
#include <err.h>
#include <fcntl.h>
#include <stdbool.h>
#include <stdint.h>
#include <stdio.h>
#include <stdlib.h>
#include <string.h>
#include <sys/mman.h>
#include <sys/personality.h>
#include <sys/ptrace.h>
#include <sys/stat.h>
#include <sys/user.h>
#include <sys/wait.h>
#include <unistd.h>

enum { RBX = 3, RBP = 6, RSP = 7, R12 = 12, R13, R14, R15, RETURN, COUNT };  /* numbers in DWARF: psABI, figure 3.36 */
enum { MOST_FUNCTIONS = 4096, MOST_FRAMES = 1 << 16, MOST_REMEMBERED = 16, MOST_STEPS = 4000000, MOST_TOLD = 10 };

static const int kept[] = { RBX, RBP, R12, R13, R14, R15 };

/* The rule of a register: it has its value, or stands so far from the frame address, or has none. */
struct rule { enum { SAME, SLOT, UNDEFINED } how; int64_t offset; };
struct row { int from; int64_t offset; struct rule rules[COUNT]; };

/* A function with its entries: where their instructions are. */
struct function {
    const char *name;
    uint64_t begin, end;
    const uint8_t *common, *common_end, *code, *code_end;
    uint64_t unit;
    int64_t slot;
    uint8_t *seen;
};

/* What is written down at a call. */
struct frame { uint64_t address, returns, registers[COUNT]; };

static const uint8_t *file;
static struct function functions[MOST_FUNCTIONS];
static size_t function_count, frame_count;
static struct frame frames[MOST_FRAMES];
static uint64_t text_begin, text_end;
static pid_t child;
static unsigned long looked, wrong, steps;

/* THE FILE */

static const Elf64_Shdr *section(const char *name)
{
    const Elf64_Ehdr *header = (const void *)file;
    const Elf64_Shdr *all = (const void *)(file + header->e_shoff);
    for (int i = 1; i < header->e_shnum; i++)
        if (!strcmp((const char *)file + all[header->e_shstrndx].sh_offset + all[i].sh_name, name))
            return &all[i];
    errx(2, "no section %s", name);
}

/* The address of a function by its name, or 0. */
static uint64_t address_of(const char *name)
{
    const Elf64_Shdr *table = section(".symtab"), *names = section(".strtab");
    const Elf64_Sym *symbols = (const void *)(file + table->sh_offset);
    for (size_t i = 0; i < table->sh_size / sizeof *symbols; i++)
        if (ELF64_ST_TYPE(symbols[i].st_info) == STT_FUNC && !strcmp((const char *)file + names->sh_offset + symbols[i].st_name, name))
            return symbols[i].st_value;
    return 0;
}

/* NUMBERS OF THE TABLE */

static uint32_t word(const uint8_t *at)
{
    uint32_t made;
    memcpy(&made, at, sizeof made);
    return made;
}

static uint64_t unsigned_number(const uint8_t **at)
{
    uint64_t made = 0;
    for (int shift = 0;; shift += 7) {
        uint8_t byte = *(*at)++;
        if (shift < 64)
            made |= (uint64_t)(byte & 0x7f) << shift;
        if (byte < 0x80)
            return made;
    }
}

static int64_t signed_number(const uint8_t **at)
{
    uint64_t made = 0;
    for (int shift = 0;;) {
        uint8_t byte = *(*at)++;
        if (shift < 64)
            made |= (uint64_t)(byte & 0x7f) << shift;
        shift += 7;
        if (byte < 0x80)
            return (int64_t)(byte & 0x40 && shift < 64 ? made | ~0ull << shift : made);
    }
}

/* ENTRIES */

/* Reads the common entry of a function: version 1, and its pointers count in four bytes from their own place. */
static void read_common(struct function *f, const uint8_t *entry)
{
    const uint8_t *at = entry + 8;
    if (*at++ != 1 || strcmp((const char *)at, "zR"))
        errx(2, "%s: a common entry of another form", f->name);
    at += 3;
    f->unit = unsigned_number(&at);
    f->slot = signed_number(&at);
    if (*at++ != RETURN || unsigned_number(&at) != 1 || *at++ != 0x1b)
        errx(2, "%s: a common entry of another form", f->name);
    f->common = at;
    f->common_end = entry + 4 + word(entry);
}

/* Finds the entry of a function. */
static void read_entry(struct function *f)
{
    const Elf64_Shdr *table = section(".eh_frame");
    const uint8_t *begin = file + table->sh_offset, *entry = begin;
    for (; entry < begin + table->sh_size && word(entry); entry += 4 + word(entry)) {
        uint32_t back = word(entry + 4);
        if (!back || table->sh_addr + (entry + 8 - begin) + (int64_t)(int32_t)word(entry + 8) != f->begin)
            continue;
        const uint8_t *at = entry + 16;
        read_common(f, entry + 4 - back);
        f->end = f->begin + word(entry + 12);
        at += unsigned_number(&at);
        f->code = at;
        f->code_end = entry + 4 + word(entry);
        f->seen = calloc(f->end - f->begin, 1);
        return;
    }
    errx(1, "%s has no entry in .eh_frame", f->name);
}

/* ROWS */

static struct rule *rule_of(struct row *row, uint64_t number)
{
    if (number >= COUNT)
        errx(2, "a rule of register %lu", number);
    return &row->rules[number];
}

/* Runs instructions from this place on, up to the one that stands past the distance. */
static void run_rows(const struct function *f, const uint8_t *at, const uint8_t *end, uint64_t distance, const struct row *initial, struct row *row)
{
    static struct row remembered[MOST_REMEMBERED];
    size_t count = 0;
    uint64_t now = 0, number;
    while (at < end) {
        uint8_t op = *at++, low = op & 0x3f;
        uint64_t forward = 0;
        switch (op >> 6 ? op & 0xc0 : op) {
        case 0x40: forward = low; break;
        case 0x02: forward = *at++; break;
        case 0x03: forward = at[0] | at[1] << 8; at += 2; break;
        case 0x04: forward = word(at); at += 4; break;
        case 0x80: *rule_of(row, low) = (struct rule) { SLOT, (int64_t)unsigned_number(&at) * f->slot }; break;
        case 0x05: number = unsigned_number(&at); *rule_of(row, number) = (struct rule) { SLOT, (int64_t)unsigned_number(&at) * f->slot }; break;
        case 0x11: number = unsigned_number(&at); *rule_of(row, number) = (struct rule) { SLOT, signed_number(&at) * f->slot }; break;
        case 0xc0: *rule_of(row, low) = initial->rules[low]; break;
        case 0x06: number = unsigned_number(&at); *rule_of(row, number) = initial->rules[number]; break;
        case 0x07: *rule_of(row, unsigned_number(&at)) = (struct rule) { UNDEFINED, 0 }; break;
        case 0x08: *rule_of(row, unsigned_number(&at)) = (struct rule) { SAME, 0 }; break;
        case 0x0a: if (count == MOST_REMEMBERED) errx(2, "%s: too many rows are remembered", f->name); remembered[count++] = *row; break;
        case 0x0b: if (!count) errx(2, "%s: no row is remembered", f->name); *row = remembered[--count]; break;
        case 0x0c: row->from = (int)unsigned_number(&at); row->offset = (int64_t)unsigned_number(&at); break;
        case 0x0d: row->from = (int)unsigned_number(&at); break;
        case 0x0e: row->offset = (int64_t)unsigned_number(&at); break;
        case 0x12: row->from = (int)unsigned_number(&at); row->offset = signed_number(&at) * f->slot; break;
        case 0x13: row->offset = signed_number(&at) * f->slot; break;
        case 0x00: break;
        default: errx(2, "%s: no such instruction as %02x", f->name, op);
        }
        now += forward * f->unit;
        if (now > distance)
            return;
    }
}

/* The row that holds so far from the beginning of a function. */
static struct row row_at(const struct function *f, uint64_t distance)
{
    struct row initial = { 0 }, row;
    run_rows(f, f->common, f->common_end, 0, &initial, &initial);
    row = initial;
    run_rows(f, f->code, f->code_end, distance, &initial, &row);
    return row;
}

/* THE PROGRAM THAT RUNS */

static uint64_t read_word(uint64_t at)
{
    return (uint64_t)ptrace(PTRACE_PEEKDATA, child, (void *)at, NULL);
}

static struct user_regs_struct registers(void)
{
    struct user_regs_struct now;
    if (ptrace(PTRACE_GETREGS, child, NULL, &now))
        err(2, "registers");
    return now;
}

static uint64_t held(const struct user_regs_struct *now, int number)
{
    const uint64_t all[COUNT] = { now->rax, now->rdx, now->rcx, now->rbx, now->rsi, now->rdi, now->rbp, now->rsp, now->r8, now->r9, now->r10, now->r11, now->r12,
                                  now->r13, now->r14, now->r15, now->rip };
    return all[number];
}

/* Says what was looked at, and ends. */
static _Noreturn void finish(const char *how)
{
    unsigned long places = 0, some = 0;
    for (size_t i = 0; i < function_count; i++) {
        unsigned long here = 0;
        for (uint64_t k = 0; k < functions[i].end - functions[i].begin; k++)
            here += functions[i].seen[k];
        places += here;
        some += here != 0;
    }
    printf("%lu instructions at %lu places of %lu functions, %lu wrong; %s\n", looked, places, some, wrong, how);
    exit(wrong != 0);
}

/* Waits until the program stops; where it has ended, so do we. */
static void stopped(void)
{
    int status;
    char how[64];
    if (waitpid(child, &status, 0) != child)
        err(2, "waitpid");
    if (WIFEXITED(status)) {
        snprintf(how, sizeof how, "the program ended with status %d", WEXITSTATUS(status));
        finish(how);
    }
    if (WIFSIGNALED(status) || WSTOPSIG(status) != SIGTRAP) {
        snprintf(how, sizeof how, "the program got signal %d", WIFSIGNALED(status) ? WTERMSIG(status) : WSTOPSIG(status));
        kill(child, SIGKILL);
        finish(how);
    }
}

static void step(void)
{
    if (++steps > MOST_STEPS) {
        kill(child, SIGKILL);
        finish("it was stopped there");
    }
    if (ptrace(PTRACE_SINGLESTEP, child, NULL, NULL))
        err(2, "step");
    stopped();
}

/* Lets the program run up to an address, where its stack is not below this one. */
static void run_to(uint64_t address, uint64_t stack)
{
    for (;;) {
        uint64_t there = read_word(address);
        ptrace(PTRACE_POKEDATA, child, (void *)address, (void *)((there & ~0xffull) | 0xcc));
        if (ptrace(PTRACE_CONT, child, NULL, NULL))
            err(2, "run");
        stopped();
        ptrace(PTRACE_POKEDATA, child, (void *)address, (void *)there);
        struct user_regs_struct now = registers();
        if (now.rip != address + 1)
            errx(2, "stopped at %llx", now.rip);
        now.rip = address;
        if (ptrace(PTRACE_SETREGS, child, NULL, &now))
            err(2, "registers");
        if (now.rsp >= stack)
            return;
        step();
    }
}

/* Whether the instruction at this address is a call: e8, or ff with /2, behind prefixes. */
static bool is_call(uint64_t at)
{
    uint8_t code[16];
    uint64_t words[2] = { read_word(at), read_word(at + 8) };
    memcpy(code, words, sizeof code);
    int i = 0;
    while (i < 14 && memchr("\x66\x67\xf2\xf3\x2e\x36\x3e\x26\x64\x65", code[i], 10))
        i++;
    if (i < 14 && (code[i] & 0xf0) == 0x40)
        i++;
    return code[i] == 0xe8 || (code[i] == 0xff && (code[i + 1] >> 3 & 7) == 2);
}

/* Writes down what the caller has, where a function has just been called. */
static void called(const struct user_regs_struct *now)
{
    if (frame_count == MOST_FRAMES)
        finish("too many calls");
    struct frame *frame = &frames[frame_count++];
    frame->address = now->rsp + 8;
    frame->returns = read_word(now->rsp);
    for (int i = 0; i < COUNT; i++)
        frame->registers[i] = held(now, i);
}

/* WHAT IS COMPARED */

static void tell(const struct function *f, uint64_t at, const char *what, uint64_t found, uint64_t due)
{
    if (wrong++ < MOST_TOLD)
        printf("%s+%lx: the row gives %s %lx, and it is %lx\n", f->name, at - f->begin, what, found, due);
}

/* Holds the row of this place against what was written down. */
static void look(const struct function *f, const struct user_regs_struct *now)
{
    static const char *const names[COUNT] = { [RBX] = "rbx", [RBP] = "rbp", [R12] = "r12", [R13] = "r13", [R14] = "r14", [R15] = "r15" };
    const struct frame *due = &frames[frame_count - 1];
    struct row row = row_at(f, now->rip - f->begin);
    uint64_t address = held(now, row.from) + (uint64_t)row.offset;
    looked++;
    f->seen[now->rip - f->begin] = 1;
    if (address != due->address) {
        tell(f, now->rip, "the frame address", address, due->address);
        return;
    }
    uint64_t returns = row.rules[RETURN].how == SLOT ? read_word(address + (uint64_t)row.rules[RETURN].offset) : 0;
    if (returns != due->returns) {
        tell(f, now->rip, "the return address", returns, due->returns);
        return;
    }
    for (size_t i = 0; i < sizeof kept / sizeof *kept; i++) {
        struct rule rule = row.rules[kept[i]];
        uint64_t found = rule.how == SLOT ? read_word(address + (uint64_t)rule.offset) : rule.how == SAME ? held(now, kept[i]) : ~due->registers[kept[i]];
        if (found != due->registers[kept[i]]) {
            tell(f, now->rip, names[kept[i]], found, due->registers[kept[i]]);
            return;
        }
    }
}

static const struct function *function_at(uint64_t at)
{
    static const struct function *last;
    if (last && last->begin <= at && at < last->end)
        return last;
    for (size_t i = 0; i < function_count; i++)
        if (functions[i].begin <= at && at < functions[i].end)
            return last = &functions[i];
    return NULL;
}

int main(int count, char **words)
{
    if (count < 3)
        errx(2, "usage: steps PROGRAM FUNCTION ..");
    struct stat known;
    int opened = open(words[1], O_RDONLY);
    if (opened < 0 || fstat(opened, &known) || (file = mmap(NULL, (size_t)known.st_size, PROT_READ, MAP_PRIVATE, opened, 0)) == MAP_FAILED)
        err(2, "%s", words[1]);
    const Elf64_Shdr *text = section(".text");
    text_begin = text->sh_addr;
    text_end = text_begin + text->sh_size;
    for (int i = 2; i < count && function_count < MOST_FUNCTIONS; i++) {
        struct function *f = &functions[function_count];
        f->name = words[i];
        if (!(f->begin = address_of(words[i])))
            continue;  /* the linker left it out */
        read_entry(f);
        function_count++;
    }
    if (!(child = fork())) {
        int nothing = open("/dev/null", O_WRONLY);
        dup2(nothing, 1);
        personality(ADDR_NO_RANDOMIZE);
        ptrace(PTRACE_TRACEME, 0, NULL, NULL);
        execl(words[1], words[1], (char *)NULL);
        err(2, "%s", words[1]);
    }
    stopped();
    run_to(address_of("main"), 0);
    struct user_regs_struct now = registers();
    called(&now);
    while (frame_count) {
        const struct function *f = function_at(now.rip);
        if (f)
            look(f, &now);
        bool calls = is_call(now.rip);
        step();
        now = registers();
        if (calls)
            called(&now);
        if (now.rip < text_begin || text_end <= now.rip) {
            run_to(frames[frame_count - 1].returns, frames[frame_count - 1].address);
            now = registers();
        }
        while (frame_count && now.rsp >= frames[frame_count - 1].address)
            frame_count--;
    }
    kill(child, SIGKILL);
    finish("main returned");
}
