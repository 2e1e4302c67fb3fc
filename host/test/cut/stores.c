/*
 * The words that a call changes, in the order of its stores. The block's pages may not be written, so that a store
 * raises SIGSEGV. They may be written for that one instruction, the processor's trap flag raises SIGTRAP after it, and
 * what has changed by then is kept. So a call is cut at each of its stores, and no debugger is needed. Where one
 * instruction stores several words they are kept one by one, by ascending word.
 */
#define _GNU_SOURCE

#include <signal.h>
#include <stdio.h>
#include <stdlib.h>
#include <string.h>
#include <sys/mman.h>
#include <ucontext.h>

#include "cut.h"

enum { PAGE = 4096, PAGES = (KOOLVENT_WORDS * 8 + PAGE - 1) / PAGE, TRAP_FLAG = 0x100 };

static struct {
    char *pages;
    /* The page of the store that is being made. */
    char *page;
    /* The block as it was after the last store. */
    uint64_t kept[KOOLVENT_WORDS];
    struct changes *changes;
} watched;

static void allow(char *pages, size_t count, int protection)
{
    if (mprotect(pages, count * PAGE, protection) != 0)
        abort();
}

/* Two pages may be written, since a store may lie across their border; past the last one lies one that nobody uses. */
static void at_a_store(int signal_number, siginfo_t *info, void *context)
{
    ucontext_t *where = context;
    uintptr_t address = (uintptr_t)info->si_addr, pages = (uintptr_t)watched.pages;

    if (address < pages || address >= pages + PAGES * PAGE) {
        signal(signal_number, SIG_DFL);
        return;
    }
    watched.page = watched.pages + (address - pages) / PAGE * PAGE;
    allow(watched.page, 2, PROT_READ | PROT_WRITE);
    where->uc_mcontext.gregs[REG_EFL] |= TRAP_FLAG;
}

static void after_a_store(int signal_number, siginfo_t *info, void *context)
{
    const uint64_t *block = (uint64_t *)watched.pages;
    ucontext_t *where = context;

    (void)signal_number;
    (void)info;
    for (unsigned word = 0; word < KOOLVENT_WORDS; word++)
        if (block[word] != watched.kept[word]) {
            struct change change = {word, block[word]};
            watched.changes->of[watched.changes->count++] = change;
            watched.kept[word] = block[word];
        }
    allow(watched.page, 2, PROT_READ);
    where->uc_mcontext.gregs[REG_EFL] &= ~TRAP_FLAG;
}

static void handle(int signal_number, void (*handler)(int, siginfo_t *, void *))
{
    struct sigaction action;

    memset(&action, 0, sizeof action);
    action.sa_sigaction = handler;
    action.sa_flags = SA_SIGINFO;
    if (sigaction(signal_number, &action, NULL) != 0)
        abort();
}

static void make_pages(void)
{
    watched.pages = mmap(NULL, (PAGES + 1) * PAGE, PROT_READ | PROT_WRITE, MAP_PRIVATE | MAP_ANONYMOUS, -1, 0);
    if (watched.pages == MAP_FAILED) {
        perror("cut: no pages for a block");
        exit(1);
    }
    handle(SIGSEGV, at_a_store);
    handle(SIGTRAP, after_a_store);
}

void changes_as_stored(const uint64_t *block, const struct sizes *sizes, const struct call *call,
                       struct changes *changes)
{
    if (watched.pages == NULL)
        make_pages();
    memcpy(watched.kept, block, sizeof watched.kept);
    memcpy(watched.pages, block, sizeof watched.kept);
    watched.changes = changes;
    changes->count = 0;
    allow(watched.pages, PAGES + 1, PROT_READ);
    make((uint64_t *)watched.pages, sizes, call);
    allow(watched.pages, PAGES + 1, PROT_READ | PROT_WRITE);
    if (memcmp(watched.kept, watched.pages, sizeof watched.kept) != 0) {
        fprintf(stderr, "cut: stores are missed: SIGTRAP does not come after each\n");
        exit(1);
    }
}
