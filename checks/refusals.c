/* Preloaded into a program by checks/refusals.py: makes one of its requests for memory fail, and tells it the time. Both are
   asked of a board, a file that the script writes too: the moment in seconds, how often memory was asked for, and which of
   these requests is refused, counted from 1. A script that starts the program isn't counted: the board is only for the
   program that BOARD_PROGRAM names. */
#define _GNU_SOURCE
#include <errno.h>
#include <fcntl.h>
#include <stdatomic.h>
#include <stdlib.h>
#include <string.h>
#include <sys/mman.h>
#include <sys/syscall.h>
#include <time.h>
#include <unistd.h>

extern void *__libc_malloc(size_t size);
extern void *__libc_calloc(size_t count, size_t size);
extern void *__libc_realloc(void *at, size_t size);
extern void *__libc_memalign(size_t align, size_t size);

struct board {
    _Atomic long moment;
    _Atomic long asked;
    _Atomic long refused;
};

static struct board *board;

__attribute__((constructor)) static void find_board(void) {
    const char *path = getenv("BOARD"), *program = getenv("BOARD_PROGRAM");
    if (!program || strcmp(program, program_invocation_name))
        return;
    int file = path ? open(path, O_RDWR) : -1;
    void *at = mmap(NULL, sizeof(struct board), PROT_READ | PROT_WRITE, MAP_SHARED, file, 0);
    if (at == MAP_FAILED)
        _exit(125);
    close(file);
    board = at;
}

static int is_refused(void) {
    if (!board || atomic_fetch_add(&board->asked, 1) + 1 != board->refused)
        return 0;
    errno = ENOMEM;
    return 1;
}

void *malloc(size_t size) { return is_refused() ? NULL : __libc_malloc(size); }

void *calloc(size_t count, size_t size) { return is_refused() ? NULL : __libc_calloc(count, size); }

void *realloc(void *at, size_t size) { return is_refused() ? NULL : __libc_realloc(at, size); }

void *aligned_alloc(size_t align, size_t size) { return is_refused() ? NULL : __libc_memalign(align, size); }

int posix_memalign(void **at, size_t align, size_t size) {
    void *made = is_refused() ? NULL : __libc_memalign(align, size);
    if (!made)
        return ENOMEM;
    *at = made;
    return 0;
}

int clock_gettime(clockid_t clock, struct timespec *time) {
    if (board && clock == CLOCK_REALTIME) {
        time->tv_sec = board->moment;
        time->tv_nsec = 0;
        return 0;
    }
    return (int)syscall(SYS_clock_gettime, clock, time);
}
