/* Refuses growths of memory, and fails reads and writes, of a program that it is preloaded into (LD_PRELOAD).

   scripts/checks/lib/refusals.py compiles it, and scripts/checks/refuse_growths.py and scripts/checks/failing_streams.py use it through that.

   A sweep runs the program once. At each call that is to be refused in turn the process forks: the child is refused, and goes
   on by itself to its end, with places of its own in the files that are read, and with memory for its output, which the process
   writes down with how it ended; the process itself makes the call and goes on. So what is refused is each call of one and the
   same run, and each way of going on from there is seen once.

   REFUSE says which calls: `growths` (rattle_alloc and rattle_realloc, by which a program of Rattle asks for memory: it
   is answered none), `reads` (they fail), `writes` (those to standard output fail), `empty_writes` (they take nothing),
   `interruptions` (reads and writes say once that they were interrupted). Calls are counted from 0.
   REPORT is the file that the records go to. EVERY says that every EVERYth call is refused, and CALLS, in its place, lists the
   calls, rising and with commas; AFTER_OPENED and AFTER_MARKS that none is before so many files were opened and so many
   calls of MARK had begun. With ALL=1 all calls behind the refused one are refused too. LIMIT is a number of seconds, after which a
   child is ended by SIGALRM.
   With ONE in place of REPORT the process itself is refused the call of that number, and nothing forks.
   MOST_READ and MOST_WRITE are the most bytes that a read and a write of the program move. A receive of a socket is never cut short:
   the program takes one that gives less than there was room for as a sign that the socket is empty.
   SOCKET=N with CALL=K and REFUSE=writes or REFUSE=reads: the Kth write to, or read of, the Nth socket that was accepted
   fails, and all later ones; CALL counts from 0, and SOCKET from 1.

   MARK is the name of a function in the program's table of symbols, without the types that it is made for: its calls are counted.

   A record is a line `CALL SIZE FILE OPENED MARKS OUT STATUS WRITTEN SAID WHERE`, and then the bytes that the child wrote to standard
   output (WRITTEN of them) and to standard error (SAID). SIZE is what was asked for, FILE the descriptor (-1 of a growth), OPENED
   how many files were opened before, MARKS how many calls of MARK had begun, OUT how much was on standard output before the
   fork, STATUS the wait status, and WHERE the places in the program that the call came from, innermost first, as far as its
   frames tell. The last line is `calls N` with the number of all such calls. */
#define _GNU_SOURCE
#include <dlfcn.h>
#include <elf.h>
#include <errno.h>
#include <fcntl.h>
#include <limits.h>
#include <link.h>
#include <signal.h>
#include <stdarg.h>
#include <stddef.h>
#include <stdint.h>
#include <stdio.h>
#include <stdlib.h>
#include <string.h>
#include <sys/mman.h>
#include <sys/socket.h>
#include <sys/stat.h>
#include <sys/syscall.h>
#include <sys/uio.h>
#include <sys/wait.h>
#include <ucontext.h>
#include <unistd.h>

enum { MOST_FILES = 16, PATCH = 14, MOST_PLACES = 40, PUSH_RBP = 0x55, INT3 = 0xcc, AT_ONCE = 4, FIRST_FILE = 200 };

typedef struct {
    uint64_t there;
    void *place;
} Given;

static const char *kind = "";
static int report = -1;
static int is_refused, refuses_all, has_started;
static size_t most_read, most_write;
static long calls, every = 1, one = -1, limit = 20, after_opened, after_marks;
static volatile long marks;
static long opened;
static uintptr_t base;
static long sockets, socket_rank, socket_call, socket_calls;
static int failing_socket = -1;
static char nothing;

/* A process that was refused a call and goes on, if there is one: its output, and what its record begins and ends with. */
typedef struct {
    pid_t process;
    int output, errors;
    char front[160], places[1024];
} Child;

static const char *wanted;
static Child children[AT_ONCE];
static int running;

static void give_up(const char *why) {
    dprintf(2, "refusals: %s\n", why);
    _exit(99);
}

static long number(const char *name, long otherwise) {
    const char *word = getenv(name);
    return word ? atol(word) : otherwise;
}

static int is_kind(const char *name) {
    return strcmp(kind, name) == 0;
}

static long place(int file) {
    return lseek(file, 0, SEEK_CUR);
}

static void put(const char *bytes, long size) {
    while (size > 0) {
        ssize_t count = syscall(SYS_write, report, bytes, size);
        if (count <= 0)
            give_up("the report can't be written");
        bytes += count;
        size -= count;
    }
}

/* All of a file in memory, behind the report. */
static void copy(int from, long size) {
    char part[65536];
    for (long done = 0; done < size;) {
        ssize_t count = pread(from, part, sizeof part, done);
        if (count <= 0)
            give_up("what was written can't be read");
        put(part, count);
        done += count;
    }
}

/* Gives the child places of its own in the files that are read, where they were at the fork, and in what it writes. */
static void part_ways(Child *child, const long *at) {
    for (int file = 0; file < MOST_FILES; file++) {
        struct stat what;
        if (at[file] < 0 || fstat(file, &what) || !S_ISREG(what.st_mode))
            continue;
        char path[64];
        snprintf(path, sizeof path, "/proc/self/fd/%d", file);
        int again = open(path, O_RDONLY | O_CLOEXEC);
        if (again < 0 || lseek(again, at[file], SEEK_SET) != at[file] || dup2(again, file) != file)
            give_up("a file can't be opened again");
        close(again);
    }
    if (dup2(child->output, 1) != 1 || dup2(child->errors, 2) != 2)
        give_up("no place for what is written");
}

/* Where this call comes from: the return addresses of the frames that keep the last one's place, as the program's do. */
static void write_places(char *into, int room) {
    uintptr_t *frame = __builtin_frame_address(0);
    int done = 0;
    for (int it = 0; it < MOST_PLACES && room - done > 32; it++) {
        uintptr_t *last = (uintptr_t *)frame[0];
        done += sprintf(into + done, "%c%lx", it ? ',' : ' ', frame[1] - base);
        if (last <= frame || last > frame + (1 << 20))
            break;
        frame = last;
    }
}

/* Waits for a child that was refused, and writes down what became of it. */
static void finish_one(void) {
    int status = 0;
    pid_t ended;
    while ((ended = waitpid(-1, &status, 0)) < 0)
        if (errno != EINTR)
            give_up("no wait");
    for (int it = 0; it < AT_ONCE; it++) {
        Child *child = &children[it];
        if (child->process != ended)
            continue;
        struct stat written, said;
        if (fstat(child->output, &written) || fstat(child->errors, &said))
            give_up("no size");
        char line[2048];
        put(line, sprintf(line, "%s%d %ld %ld%s\n", child->front, status, (long)written.st_size, (long)said.st_size, child->places));
        copy(child->output, written.st_size);
        copy(child->errors, said.st_size);
        child->process = 0;
        running--;
    }
}

/* Forks, and is true in the child. */
static int goes_on_refused(long call, size_t size, int file) {
    if (running == AT_ONCE)
        finish_one();
    Child *child = children;
    while (child->process)
        child++;
    if (ftruncate(child->output, 0) || ftruncate(child->errors, 0) || lseek(child->output, 0, SEEK_SET) || lseek(child->errors, 0, SEEK_SET))
        give_up("no place for what is written");
    sprintf(child->front, "%ld %zu %d %ld %ld %ld ", call, size, file, opened, marks, place(1));
    write_places(child->places, sizeof child->places);
    long at[MOST_FILES];
    for (int it = 0; it < MOST_FILES; it++)
        at[it] = it == 1 || it == 2 ? -1 : place(it);
    // Not by the library, whose preparations for threads would take most of the time.
    pid_t process = syscall(SYS_fork);
    if (process < 0)
        give_up("no fork");
    if (process == 0) {
        is_refused = 1;
        alarm(limit);
        part_ways(child, at);
        return 1;
    }
    child->process = process;
    running++;
    return 0;
}

/* Whether this is one of the calls that are to be refused. */
static int is_wanted(long call) {
    if (report < 0 || opened < after_opened || marks < after_marks)
        return 0;
    if (!wanted)
        return call % every == 0;
    long next = strtol(wanted, NULL, 10);
    if (next != call)
        return 0;
    const char *comma = strchr(wanted, ',');
    wanted = comma ? comma + 1 : "-1";
    return 1;
}

/* Whether this call is refused: here, or in a child. */
static int refuses(size_t size, int file) {
    long call = calls++;
    if (is_refused)
        return refuses_all;
    if (one >= 0) {
        is_refused = call == one;
        return is_refused;
    }
    return is_wanted(call) && goes_on_refused(call, size, file);
}

static Given given(void *place) {
    Given it = {place != NULL, place ? place : &nothing};
    return it;
}

/* In place of the program's own: a size of 0 asks for what the second word says, and so there is always a place. */
static Given alloc(size_t size, size_t align) {
    if (is_kind("growths") && refuses(size, -1))
        return given(NULL);
    return given(malloc(size ? size : align));
}

static Given grow(void *from, size_t old, size_t size, size_t align) {
    (void)old;
    if (is_kind("growths") && refuses(size, -1))
        return given(NULL);
    return given(realloc(from, size ? size : align));
}

static int base_of(struct dl_phdr_info *info, size_t size, void *base) {
    (void)size;
    *(uintptr_t *)base = info->dlpi_addr;
    return 1; /* the first is the program */
}

static void change(uintptr_t at, const void *bytes, size_t count) {
    uintptr_t size = sysconf(_SC_PAGESIZE), page = at & ~(size - 1);
    if (mprotect((void *)page, at + count - page, PROT_READ | PROT_WRITE | PROT_EXEC))
        give_up("the program can't be changed");
    memcpy((void *)at, bytes, count);
    if (mprotect((void *)page, at + count - page, PROT_READ | PROT_EXEC))
        give_up("the program can't be changed");
}

/* Has the function begin with a jump to another one. */
static void redirect(uintptr_t at, void *to) {
    unsigned char jump[PATCH] = {0xff, 0x25, 0, 0, 0, 0};
    memcpy(jump + 6, &to, 8);
    change(at, jump, PATCH);
}

/* The function that is counted begins with a trap in place of its `push %rbp`. */
static void count_mark(int number, siginfo_t *info, void *context) {
    (void)number;
    (void)info;
    greg_t *registers = ((ucontext_t *)context)->uc_mcontext.gregs;
    registers[REG_RSP] -= 8;
    *(greg_t *)registers[REG_RSP] = registers[REG_RBP];
    marks++;
}

static void mark(uintptr_t at) {
    unsigned char trap = INT3;
    struct sigaction how = {.sa_flags = SA_SIGINFO | SA_RESTART};
    how.sa_sigaction = count_mark;
    if (*(unsigned char *)at != PUSH_RBP)
        give_up("the function that is to be counted begins otherwise");
    if (sigaction(SIGTRAP, &how, NULL))
        give_up("no trap");
    change(at, &trap, 1);
}

/* A function that is made for several types has what it is made for behind its name. */
static int is_named(const char *symbol, const char *name) {
    size_t length = strlen(name);
    return strncmp(symbol, name, length) == 0 && (!symbol[length] || strncmp(symbol + length, "::<", 3) == 0);
}

/* Finds the functions by the program's own table of symbols. */
static void take_over(void) {
    int file = open("/proc/self/exe", O_RDONLY | O_CLOEXEC);
    struct stat what;
    if (file < 0 || fstat(file, &what))
        give_up("the program can't be read");
    char *all = mmap(NULL, what.st_size, PROT_READ, MAP_PRIVATE, file, 0);
    if (all == MAP_FAILED)
        give_up("the program can't be read");
    close(file);
    const char *counted = getenv("MARK");
    Elf64_Ehdr *head = (Elf64_Ehdr *)all;
    Elf64_Shdr *sections = (Elf64_Shdr *)(all + head->e_shoff);
    int found = 0, is_marked = 0;
    for (int it = 0; it < head->e_shnum; it++) {
        if (sections[it].sh_type != SHT_SYMTAB)
            continue;
        const char *names = all + sections[sections[it].sh_link].sh_offset;
        Elf64_Sym *symbols = (Elf64_Sym *)(all + sections[it].sh_offset);
        for (size_t at = 0; at < sections[it].sh_size / sizeof *symbols; at++) {
            const char *name = names + symbols[at].st_name;
            if (ELF64_ST_TYPE(symbols[at].st_info) != STT_FUNC || symbols[at].st_size < PATCH)
                continue;
            if (counted && is_named(name, counted))
                mark(base + symbols[at].st_value), is_marked = 1;
            if (!is_kind("growths"))
                continue;
            if (strcmp(name, "rattle_alloc") == 0)
                redirect(base + symbols[at].st_value, alloc), found++;
            else if (strcmp(name, "rattle_realloc") == 0)
                redirect(base + symbols[at].st_value, grow), found++;
        }
    }
    munmap(all, what.st_size);
    if (is_kind("growths") && found != 2)
        give_up("the program has no rattle_alloc and rattle_realloc");
    if (counted && !is_marked)
        give_up("the program has no function of the name that is to be counted");
}

__attribute__((constructor)) static void start(void) {
    kind = getenv("REFUSE") ? getenv("REFUSE") : "";
    wanted = getenv("CALLS");
    refuses_all = number("ALL", 0);
    every = number("EVERY", 1);
    one = number("ONE", -1);
    after_opened = number("AFTER_OPENED", 0);
    after_marks = number("AFTER_MARKS", 0);
    limit = number("LIMIT", 20);
    most_read = number("MOST_READ", LONG_MAX);
    most_write = number("MOST_WRITE", LONG_MAX);
    socket_rank = number("SOCKET", 0);
    socket_call = number("CALL", 0);
    if (getenv("REPORT")) {
        int file = open(getenv("REPORT"), O_WRONLY | O_CREAT | O_TRUNC | O_APPEND | O_CLOEXEC, 0600);
        report = fcntl(file, F_DUPFD_CLOEXEC, FIRST_FILE);
        if (report < 0)
            give_up("no report");
        close(file);
    }
    for (int it = 0; it < AT_ONCE && report >= 0; it++) {
        int output = memfd_create("output", MFD_CLOEXEC), errors = memfd_create("errors", MFD_CLOEXEC);
        children[it].output = fcntl(output, F_DUPFD_CLOEXEC, FIRST_FILE);
        children[it].errors = fcntl(errors, F_DUPFD_CLOEXEC, FIRST_FILE);
        if (children[it].output < 0 || children[it].errors < 0)
            give_up("no place for what is written");
        close(output);
        close(errors);
    }
    dl_iterate_phdr(base_of, &base);
    if (is_kind("growths") || getenv("MARK"))
        take_over();
    has_started = 1;
}

__attribute__((destructor)) static void stop(void) {
    if (report < 0 || is_refused)
        return;
    while (running)
        finish_one();
    dprintf(report, "calls %ld\n", calls);
}

/* The system's own function of this name, behind this library. */
#define NEXT(name) \
    static __typeof__(name) *next; \
    if (!next) \
        next = (__typeof__(name) *)dlsym(RTLD_NEXT, #name)

/* Whether the call on this socket fails: of one socket all do from one on. */
static int fails_on_socket(int file) {
    return socket_rank && file == failing_socket && socket_calls++ >= socket_call;
}

static int is_of_program(int file) {
    return has_started && file < FIRST_FILE;
}

/* What a read answers in place of the system: -2 where it is the system's to answer. */
static ssize_t fails_to_read(int file, size_t size) {
    if (!is_of_program(file) || file == 1 || file == 2)
        return -2;
    if (socket_rank) {
        if (is_kind("reads") && fails_on_socket(file)) {
            errno = EIO;
            return -1;
        }
        return -2;
    }
    if ((is_kind("reads") || is_kind("interruptions")) && refuses(size, file)) {
        errno = is_kind("reads") ? EIO : EINTR;
        return -1;
    }
    return -2;
}

static ssize_t fails_to_write(int file, size_t size) {
    if (!is_of_program(file))
        return -2;
    if (socket_rank) {
        if (is_kind("writes") && fails_on_socket(file)) {
            errno = EIO;
            return -1;
        }
        return -2;
    }
    if (file != 1)
        return -2;
    if (is_kind("empty_writes") && refuses(size, file))
        return 0;
    if ((is_kind("writes") || is_kind("interruptions")) && refuses(size, file)) {
        errno = is_kind("writes") ? EIO : EINTR;
        return -1;
    }
    return -2;
}

ssize_t read(int file, void *into, size_t size) {
    NEXT(read);
    ssize_t answer = fails_to_read(file, size);
    if (answer != -2)
        return answer;
    return next(file, into, is_of_program(file) && size > most_read ? most_read : size);
}

ssize_t write(int file, const void *from, size_t size) {
    NEXT(write);
    ssize_t answer = fails_to_write(file, size);
    if (answer != -2)
        return answer;
    return next(file, from, is_of_program(file) && size > most_write ? most_write : size);
}

static size_t sum(const struct iovec *parts, int count) {
    size_t size = 0;
    for (int it = 0; it < count; it++)
        size += parts[it].iov_len;
    return size;
}

ssize_t writev(int file, const struct iovec *parts, int count) {
    NEXT(writev);
    ssize_t answer = fails_to_write(file, sum(parts, count));
    if (answer != -2)
        return answer;
    for (int it = 0; it < count && most_write < LONG_MAX && is_of_program(file); it++)
        if (parts[it].iov_len)
            return write(file, parts[it].iov_base, parts[it].iov_len);
    return next(file, parts, count);
}

ssize_t readv(int file, const struct iovec *parts, int count) {
    NEXT(readv);
    ssize_t answer = fails_to_read(file, sum(parts, count));
    return answer != -2 ? answer : next(file, parts, count);
}

ssize_t sendmsg(int file, const struct msghdr *what, int flags) {
    NEXT(sendmsg);
    ssize_t answer = fails_to_write(file, sum(what->msg_iov, what->msg_iovlen));
    return answer != -2 ? answer : next(file, what, flags);
}

ssize_t send(int file, const void *from, size_t size, int flags) {
    NEXT(send);
    ssize_t answer = fails_to_write(file, size);
    return answer != -2 ? answer : next(file, from, size, flags);
}

ssize_t recv(int file, void *into, size_t size, int flags) {
    NEXT(recv);
    ssize_t answer = fails_to_read(file, size);
    return answer != -2 ? answer : next(file, into, size, flags);
}

/* Files that are opened are counted, so that a sweep can tell what came before one was read. */
int open(const char *path, int how, ...) {
    NEXT(open);
    va_list rest;
    va_start(rest, how);
    mode_t mode = va_arg(rest, int);
    va_end(rest);
    opened += has_started && !is_refused;
    return next(path, how, mode);
}

int openat(int folder, const char *path, int how, ...) {
    NEXT(openat);
    va_list rest;
    va_start(rest, how);
    mode_t mode = va_arg(rest, int);
    va_end(rest);
    opened += has_started && !is_refused;
    return next(folder, path, how, mode);
}

static int accepted(int file) {
    if (file >= 0 && ++sockets == socket_rank)
        failing_socket = file;
    return file;
}

/* The next one that is accepted may get the same descriptor. */
int close(int file) {
    NEXT(close);
    if (file == failing_socket)
        failing_socket = -1;
    return next(file);
}

int accept4(int file, struct sockaddr *from, socklen_t *size, int flags) {
    NEXT(accept4);
    return accepted(next(file, from, size, flags));
}

int accept(int file, struct sockaddr *from, socklen_t *size) {
    NEXT(accept);
    return accepted(next(file, from, size));
}
