/* Counts the threads of a program: all that it starts, and the most that are there at one time, its first one among them. A thread
 * that has ended counts until the system tells of that, which may be after the program has started another one.
 *
 *     count_threads COUNTS PROGRAM WORD..
 *
 * The program runs as it would alone, under ptrace, so that no thread is missed, however short it lives. COUNTS is a file, which gets
 * one line: the number of all threads, a space, and the greatest number at one time. The status is that of the program, or 125 if
 * it could not be traced, and 128 and the number of the signal if one ended it. tools/tests/test_work_done.py uses it. */
#include <errno.h>
#include <signal.h>
#include <stdio.h>
#include <stdlib.h>
#include <sys/ptrace.h>
#include <sys/types.h>
#include <sys/wait.h>
#include <unistd.h>

enum { NOT_TRACED = 125, MOST = 4096 };

/* Threads that have stopped for the first time, so that the stop is the start that ptrace makes and no signal of the program's. */
static pid_t begun[MOST];
static int beginning;

static int is_new(pid_t thread) {
    for (int i = 0; i < beginning; i++)
        if (begun[i] == thread)
            return 0;
    if (beginning < MOST)
        begun[beginning++] = thread;
    return 1;
}

static void give_up(const char *what) {
    perror(what);
    exit(NOT_TRACED);
}

/* What a thread that has stopped is to be sent as it goes on: a signal of its own, or none. */
static int passed_on(pid_t thread, int status) {
    int number = WSTOPSIG(status);
    if (status >> 16 || number == SIGTRAP)
        return 0;
    return number == SIGSTOP && is_new(thread) ? 0 : number;
}

int main(int count, char **words) {
    if (count < 3) {
        fprintf(stderr, "usage: count_threads COUNTS PROGRAM WORD..\n");
        return NOT_TRACED;
    }
    pid_t first = fork();
    if (first < 0)
        give_up("fork");
    if (first == 0) {
        if (ptrace(PTRACE_TRACEME, 0, 0, 0))
            give_up("ptrace");
        raise(SIGSTOP);
        execv(words[2], words + 2);
        give_up(words[2]);
    }
    int status;
    if (waitpid(first, &status, 0) != first || !WIFSTOPPED(status))
        return NOT_TRACED;
    is_new(first);
    if (ptrace(PTRACE_SETOPTIONS, first, 0, PTRACE_O_TRACECLONE | PTRACE_O_EXITKILL))
        give_up("ptrace");
    ptrace(PTRACE_CONT, first, 0, 0);
    int all = 1, now = 1, most = 1, ended = NOT_TRACED;
    for (;;) {
        pid_t thread = waitpid(-1, &status, __WALL);
        if (thread < 0 && errno == EINTR)
            continue;
        if (thread < 0)
            break;
        if (!WIFSTOPPED(status)) {
            now--;
            if (thread == first)
                ended = WIFEXITED(status) ? WEXITSTATUS(status) : 128 + WTERMSIG(status);
            continue;
        }
        if (status >> 8 == (SIGTRAP | PTRACE_EVENT_CLONE << 8)) {
            all++;
            if (++now > most)
                most = now;
        }
        ptrace(PTRACE_CONT, thread, 0, passed_on(thread, status));
    }
    FILE *counts = fopen(words[1], "w");
    if (!counts || fprintf(counts, "%d %d\n", all, most) < 0 || fclose(counts))
        give_up(words[1]);
    return ended;
}
