/*
 * Starts a host on a Cortex-M4 without an operating system, as qemu's board
 * mps2-an386 has it: memory from 0 on, the vector table first. Input and output
 * go through semihosting, which newlib's librdimon has; argv is that of qemu's
 * option -semihosting-config.
 */
#include <stddef.h>
#include <stdint.h>
#include <stdio.h>

#define STACK_TOP   UINT32_C(0x400000)
#define WORDS       8
#define GET_CMDLINE 0x15
#define EXIT        0x20
#define STOPPED     0x20026

int main(int argc, char **argv);
void start(void);
void fault(void);
void initialise_monitor_handles(void);
void _fini(void);

__attribute__((section(".vectors"), used)) static const struct {
    uint32_t stack_top;
    void (*handlers[15])(void);
} vectors = {STACK_TOP,
             {start, fault, fault, fault, fault, fault, fault, fault, fault, fault, fault, fault, fault, fault, fault}};

/* A request to the machine that runs qemu. */
static int semihosting(int request, void *block)
{
    register int r0 __asm__("r0") = request;
    register void *r1 __asm__("r1") = block;

    __asm__ volatile("bkpt 0xAB" : "+r"(r0) : "r"(r1) : "memory");
    return r0;
}

/* Splits the command line at its blanks. Returns the number of words. */
static int words_of(char *line, char **words)
{
    int count = 0;

    while (*line != 0 && count < WORDS) {
        words[count++] = line;
        while (*line != 0 && *line != ' ')
            line++;
        while (*line == ' ')
            *line++ = 0;
    }
    return count;
}

/* Ends qemu with an exit status. */
static void end(uint32_t status)
{
    uint32_t block[2] = {STOPPED, status};

    (void)semihosting(EXIT, block);
}

void start(void)
{
    static char line[512], *words[WORDS + 1];
    struct {
        char *line;
        size_t room;
    } asked = {line, sizeof line};
    int status;

    *(volatile uint32_t *)0xE000ED88 |= UINT32_C(0xF) << 20; /* the floating-point unit: CPACR */
    initialise_monitor_handles();
    (void)semihosting(GET_CMDLINE, &asked);
    status = main(words_of(line, words), words);
    (void)fflush(stdout);
    end((uint32_t)status);
}

void fault(void)
{
    end(5);
}

/* newlib calls it at the exit. */
void _fini(void)
{
}
