#define _GNU_SOURCE
#include <signal.h>
#include <stdint.h>
#include <stdio.h>
#include <stdlib.h>
#include <string.h>
#include <sys/mman.h>
#include <ucontext.h>
#include <unistd.h>

#include "blocks.h"

#define MOST 65536

__attribute__((section("__libfuzzer_extra_counters"))) static uint8_t counters[MOST];

static uintptr_t places[MOST];
static uint8_t bytes[MOST];
static uint8_t reached[MOST];
static char *functions[MOST];
static size_t count;

static void trapped(int signal, siginfo_t *info, void *context) {
    (void)info;
    greg_t *registers = ((ucontext_t *)context)->uc_mcontext.gregs;
    uintptr_t place = (uintptr_t)registers[REG_RIP] - 1;
    size_t low = 0, high = count;
    while (low < high) {
        size_t middle = (low + high) / 2;
        if (places[middle] < place)
            low = middle + 1;
        else
            high = middle;
    }
    if (low == count || places[low] != place || *(uint8_t *)place != 0xcc) {
        /* no breakpoint of ours: die by it */
        struct sigaction plain = {.sa_handler = SIG_DFL};
        sigaction(signal, &plain, NULL);
        return;
    }
    *(uint8_t *)place = bytes[low];
    reached[low] = 1;
    counters[low] = 1;
    registers[REG_RIP] = (greg_t)place;
}

void watch_blocks(void) {
    const char *path = getenv("SIGLA_BLOCKS");
    if (path == NULL)
        return;
    FILE *list = fopen(path, "r");
    if (list == NULL) {
        perror(path);
        exit(2);
    }
    unsigned long place;
    char name[512];
    while (count < MOST && fscanf(list, "%lx %511s", &place, name) == 2) {
        places[count] = place;
        functions[count++] = strdup(name);
    }
    fclose(list);
    struct sigaction action = {.sa_sigaction = trapped, .sa_flags = SA_SIGINFO | SA_ONSTACK};
    sigaction(SIGTRAP, &action, NULL);
    uintptr_t page = (uintptr_t)sysconf(_SC_PAGESIZE);
    for (size_t i = 0; i < count; i++) {
        void *start = (void *)(places[i] & ~(page - 1));
        if (mprotect(start, page, PROT_READ | PROT_WRITE | PROT_EXEC) != 0) {
            perror("mprotect");
            exit(2);
        }
        bytes[i] = *(uint8_t *)places[i];
        *(uint8_t *)places[i] = 0xcc;
    }
}

void print_blocks(void) {
    size_t found = 0;
    for (size_t i = 0; i < count; i++)
        found += reached[i];
    fprintf(stderr, "blocks: %zu of %zu reached\n", found, count);
    for (size_t i = 0; i < count;) {
        size_t end = i, some = 0;
        for (; end < count && strcmp(functions[end], functions[i]) == 0; end++)
            some += reached[end];
        if (some < end - i)
            fprintf(stderr, "left: %zu of %zu in %s\n", end - i - some, end - i, functions[i]);
        i = end;
    }
    const char *path = getenv("SIGLA_LEFT");
    FILE *list = path == NULL ? NULL : fopen(path, "w");
    for (size_t i = 0; list != NULL && i < count; i++)
        if (!reached[i])
            fprintf(list, "%lx %s\n", (unsigned long)places[i], functions[i]);
    if (list != NULL)
        fclose(list);
}
