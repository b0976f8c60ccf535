/*
 * Sees every store into three rooms of memory. Each room has pages of its own, which may only be read while the rooms are closed. A store
 * into one raises SIGSEGV, which says where it goes. Then the one instruction is made with that room open, by the processor's trap flag,
 * and SIGTRAP closes it again. An instruction that stores repeatedly, as `rep movs`, is seen at each of its stores. This is for x86-64
 * Linux, as the library is.
 */
#define _GNU_SOURCE
#include "stores.h"

#include <signal.h>
#include <stdio.h>
#include <stdlib.h>
#include <sys/mman.h>
#include <ucontext.h>

enum { STACK = 1 << 18, TRAP_FLAG = 0x100, NONE = ROOMS };

uint8_t *rooms[ROOMS];
static size_t room_bytes, opened = NONE; /* the room that one instruction stores into */
static void (*before_store)(size_t room, size_t byte);

void die(const char *what)
{
    fprintf(stderr, "order: %s\n", what);
    exit(1);
}

static void protect(size_t room, int how)
{
    if (mprotect(rooms[room], room_bytes, how) != 0) {
        die("mprotect fails");
    }
}

static void on_store(int signal_number, siginfo_t *info, void *context)
{
    ucontext_t *const frame = (ucontext_t *)context;
    const uintptr_t at = (uintptr_t)info->si_addr;
    size_t room = 0;
    (void)signal_number;
    while (room < ROOMS && (at < (uintptr_t)rooms[room] || at >= (uintptr_t)rooms[room] + room_bytes)) {
        room++;
    }
    if (room == ROOMS || opened != NONE) {
        die("a fault outside of the images, or one instruction that stores into two of them");
    }
    before_store(room, at - (uintptr_t)rooms[room]);
    protect(room, PROT_READ | PROT_WRITE);
    opened = room;
    frame->uc_mcontext.gregs[REG_EFL] |= TRAP_FLAG;
}

static void on_step(int signal_number, siginfo_t *info, void *context)
{
    ucontext_t *const frame = (ucontext_t *)context;
    (void)signal_number, (void)info;
    if (opened == NONE) {
        die("a trap that no store has set");
    }
    protect(opened, PROT_READ);
    opened = NONE;
    frame->uc_mcontext.gregs[REG_EFL] &= ~TRAP_FLAG;
}

/* The handlers have a stack of their own, with room for the calls that `before` makes. */
void make_rooms(size_t bytes, void (*before)(size_t room, size_t byte))
{
    static uint8_t stack[STACK];
    const stack_t handlers = {.ss_sp = stack, .ss_size = sizeof stack};
    const struct sigaction stored = {.sa_sigaction = on_store, .sa_flags = SA_SIGINFO | SA_ONSTACK};
    const struct sigaction stepped = {.sa_sigaction = on_step, .sa_flags = SA_SIGINFO | SA_ONSTACK};
    size_t room;
    if (sigaltstack(&handlers, NULL) != 0 || sigaction(SIGSEGV, &stored, NULL) != 0 || sigaction(SIGTRAP, &stepped, NULL) != 0) {
        die("the signals cannot be handled");
    }
    for (room = 0; room < ROOMS; room++) {
        void *const made = mmap(NULL, bytes, PROT_READ | PROT_WRITE, MAP_PRIVATE | MAP_ANONYMOUS, -1, 0);
        if (made == MAP_FAILED) {
            die("mmap fails");
        }
        rooms[room] = (uint8_t *)made;
    }
    room_bytes = bytes;
    before_store = before;
}

void close_rooms(void)
{
    size_t room;
    for (room = 0; room < ROOMS; room++) {
        protect(room, PROT_READ);
    }
}

void open_rooms(void)
{
    size_t room;
    for (room = 0; room < ROOMS; room++) {
        protect(room, PROT_READ | PROT_WRITE);
    }
}
