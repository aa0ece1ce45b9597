// Counts, records and disturbs the calls that a program makes on a database file, on its log and
// its folder, and on standard input and output. Loaded by LD_PRELOAD; built by sendings.py.
//
//   FAULTS_FILE=PATH    the file, by its path without links; its log is PATH-wal
//   FAULTS_CALLS=wst1   the calls that are counted, from 1 on: w write, s sync, t truncation, o opening,
//                       r read (all on the file, the log and the folder), 1 write to standard output,
//                       0 read of standard input
//   FAULTS_COUNT=PATH   gets the number of counted calls at the end of the program
//   FAULTS_RECORD=PATH  gets each creation, write, truncation, sync, line and reply (see "struct entry")
//   FAULTS_AT=N         at the Nth counted call happens what FAULTS_WHAT says:
//     kill              the program is killed before the call
//     torn              the program is killed after FAULTS_BYTES bytes of a write, or after another call
//     fail              the call fails with the error FAULTS_ERROR (a number of errno.h)
//     fail-on           the same, and so does each later counted call
//     short             the call moves half of its bytes
//     ignore            the call does nothing, and reports success
//     ignore-on         the same, and so does each later counted call
//   FAULTS_AGAIN=K      what happens at the Nth counted call happens at the (N+K)th too
//   FAULTS_ROOM=N       the file and its log may grow by N bytes; then their disk is full
#define _GNU_SOURCE
#include <errno.h>
#include <fcntl.h>
#include <signal.h>
#include <stdarg.h>
#include <stdint.h>
#include <stdio.h>
#include <stdlib.h>
#include <string.h>
#include <sys/stat.h>
#include <sys/syscall.h>
#include <unistd.h>

enum { MAX_FD = 4096, RECORD_FD = 900 };
enum what { NOTHING, KILL, TORN, FAIL, SHORT, IGNORE };

// the record: an entry, and then "bytes" bytes of a write, a line or a reply
struct __attribute__((packed)) entry {
    char call; // o creation, w write, t truncation, s sync, x sync that failed, 1 line, n bytes to a socket
    char kind; // d the file, w its log, f its folder, 1 standard output, n a socket
    int64_t number; // of the counted calls so far
    int64_t at;
    int64_t bytes;
};

static int is_ready, record_fd = -1, error_number = EIO, goes_on;
static long calls, disturbed_at, again, torn_bytes, room = -1;
static enum what what;
static char file_path[4096], log_path[4104], folder_path[4096];
static const char *counted = "wst1", *count_path;
static char kinds[MAX_FD];

static long number(const char *name, long otherwise) {
    const char *text = getenv(name);
    return text ? atol(text) : otherwise;
}

static enum what what_of(const char *text) {
    if (!text || !strncmp(text, "fail", 4)) return FAIL;
    if (!strcmp(text, "kill")) return KILL;
    if (!strcmp(text, "torn")) return TORN;
    if (!strcmp(text, "short")) return SHORT;
    return IGNORE;
}

static void begin(void) {
    if (is_ready) return;
    is_ready = 1;
    const char *file = getenv("FAULTS_FILE"), *text = getenv("FAULTS_WHAT"), *record = getenv("FAULTS_RECORD");
    snprintf(file_path, sizeof file_path, "%s", file ? file : "");
    snprintf(log_path, sizeof log_path, "%s-wal", file_path);
    snprintf(folder_path, sizeof folder_path, "%s", file_path);
    if (strrchr(folder_path, '/')) *strrchr(folder_path, '/') = 0;
    if (getenv("FAULTS_CALLS")) counted = getenv("FAULTS_CALLS");
    count_path = getenv("FAULTS_COUNT");
    disturbed_at = number("FAULTS_AT", 0);
    again = number("FAULTS_AGAIN", 0);
    torn_bytes = number("FAULTS_BYTES", 0);
    error_number = (int)number("FAULTS_ERROR", EIO);
    room = number("FAULTS_ROOM", -1);
    what = what_of(text);
    goes_on = text && strlen(text) > 3 && !strcmp(text + strlen(text) - 3, "-on");
    if (record) {
        int fd = (int)syscall(SYS_openat, AT_FDCWD, record, O_WRONLY | O_CREAT | O_TRUNC | O_CLOEXEC, 0600);
        record_fd = (int)syscall(SYS_fcntl, fd, F_DUPFD_CLOEXEC, RECORD_FD);
        syscall(SYS_close, fd);
    }
}

static char kind_of_path(const char *path) {
    if (!strcmp(path, file_path)) return 'd';
    if (!strcmp(path, log_path)) return 'w';
    return strcmp(path, folder_path) ? 0 : 'f';
}

static char kind_of(int fd) {
    begin();
    return fd >= 0 && fd < MAX_FD ? kinds[fd] : 0;
}

static void put_all(int fd, const void *data, int64_t length) {
    for (int64_t done = 0; done < length;) {
        long put = syscall(SYS_write, fd, (const char *)data + done, length - done);
        if (put <= 0) abort();
        done += put;
    }
}

static void record(char call, char kind, int64_t at, int64_t bytes, const void *data) {
    if (record_fd < 0) return;
    struct entry entry = {call, kind, calls, at, bytes};
    put_all(record_fd, &entry, sizeof entry);
    if (data) put_all(record_fd, data, bytes);
}

static void die(void) {
    for (;;) syscall(SYS_kill, syscall(SYS_getpid), SIGKILL);
}

// What happens at this call. A kill happens here.
static enum what disturbance(char call) {
    begin();
    if (!strchr(counted, call)) return NOTHING;
    calls++;
    long after = calls - disturbed_at;
    int is_now = disturbed_at && (after == 0 || (after > 0 && (goes_on || after == again)));
    if (is_now && what == KILL) die();
    return is_now ? what : NOTHING;
}

static long failed(int number) {
    errno = number;
    return -1;
}

static long ended(long result, enum what now) {
    if (now == TORN) die();
    return result;
}

__attribute__((destructor)) static void end(void) {
    char text[32];
    if (!count_path) return;
    int fd = (int)syscall(SYS_openat, AT_FDCWD, count_path, O_WRONLY | O_CREAT | O_TRUNC, 0600);
    put_all(fd, text, snprintf(text, sizeof text, "%ld\n", calls));
    syscall(SYS_close, fd);
}

static int opened(const char *path, int flags, mode_t mode) {
    begin();
    char kind = kind_of_path(path);
    enum what now = kind ? disturbance('o') : NOTHING;
    if (now == FAIL) return (int)failed(error_number);
    int fd = (int)syscall(SYS_openat, AT_FDCWD, path, flags, mode);
    if (fd >= 0 && fd < MAX_FD) {
        kinds[fd] = kind;
        if (kind && kind != 'f' && (flags & O_CREAT)) record('o', kind, 0, 0, NULL);
    }
    return (int)ended(fd, now);
}

int open(const char *path, int flags, ...) {
    mode_t mode = 0;
    if (flags & O_CREAT) {
        va_list rest;
        va_start(rest, flags);
        mode = (mode_t)va_arg(rest, int);
        va_end(rest);
    }
    return opened(path, flags, mode);
}

int close(int fd) {
    char kind = kind_of(fd);
    if (fd == record_fd) return 0;
    if (kind) kinds[fd] = 0;
    return (int)syscall(SYS_close, fd);
}

static int64_t size_of(int fd) {
    struct stat found;
    return syscall(SYS_fstat, fd, &found) ? 0 : found.st_size;
}

// How many of the bytes the disk has room for.
static size_t fitting(int fd, size_t bytes, int64_t at) {
    if (room < 0) return bytes;
    int64_t size = size_of(fd), most = size + room;
    if (at >= most) return 0;
    size_t fit = bytes < (size_t)(most - at) ? bytes : (size_t)(most - at);
    if (at + (int64_t)fit > size) room -= at + (int64_t)fit - size;
    return fit;
}

ssize_t pwrite(int fd, const void *data, size_t bytes, off_t at) {
    char kind = kind_of(fd);
    if (!kind) return syscall(SYS_pwrite64, fd, data, bytes, at);
    enum what now = disturbance('w');
    if (now == FAIL) return failed(error_number);
    if (now == IGNORE) return (ssize_t)bytes;
    if (now == SHORT && bytes > 1) bytes /= 2;
    if (now == TORN && (size_t)torn_bytes < bytes) bytes = torn_bytes;
    size_t fit = fitting(fd, bytes, at);
    if (bytes && !fit) return failed(ENOSPC);
    ssize_t put = syscall(SYS_pwrite64, fd, data, fit, at);
    if (put > 0) record('w', kind, at, put, data);
    return ended(put, now);
}

static int synced(int fd, long call) {
    char kind = kind_of(fd);
    if (!kind) return (int)syscall(call, fd);
    enum what now = disturbance('s');
    if (now == FAIL) {
        record('x', kind, 0, 0, NULL);
        return (int)failed(error_number);
    }
    if (now == IGNORE) return 0;
    int result = (int)syscall(call, fd);
    record(result ? 'x' : 's', kind, 0, 0, NULL);
    return (int)ended(result, now);
}

int fsync(int fd) { return synced(fd, SYS_fsync); }

int fdatasync(int fd) { return synced(fd, SYS_fdatasync); }

int ftruncate(int fd, off_t length) {
    char kind = kind_of(fd);
    if (!kind) return (int)syscall(SYS_ftruncate, fd, length);
    enum what now = disturbance('t');
    if (now == FAIL) return (int)failed(error_number);
    if (now == IGNORE) return 0;
    int64_t before = size_of(fd);
    int result = (int)syscall(SYS_ftruncate, fd, length);
    if (!result) record('t', kind, length, 0, NULL);
    if (!result && room >= 0 && length < before) room += before - length;
    return (int)ended(result, now);
}

ssize_t pread(int fd, void *data, size_t bytes, off_t at) {
    enum what now = kind_of(fd) ? disturbance('r') : NOTHING;
    if (now == FAIL) return failed(error_number);
    if (now == SHORT && bytes > 1) bytes /= 2;
    return ended(syscall(SYS_pread64, fd, data, bytes, at), now);
}

static int is_socket(int fd) {
    struct stat found;
    return record_fd >= 0 && !syscall(SYS_fstat, fd, &found) && S_ISSOCK(found.st_mode);
}

ssize_t write(int fd, const void *data, size_t bytes) {
    begin();
    enum what now = fd == 1 ? disturbance('1') : NOTHING;
    if (now == FAIL) return failed(error_number);
    if (now == SHORT && bytes > 1) bytes /= 2;
    ssize_t put = syscall(SYS_write, fd, data, bytes);
    if (put > 0 && fd == 1) record('1', '1', 0, put, data);
    if (put > 0 && fd != 1 && is_socket(fd)) record('n', 'n', 0, put, data);
    return ended(put, now);
}

ssize_t send(int fd, const void *data, size_t bytes, int flags) {
    begin();
    ssize_t put = syscall(SYS_sendto, fd, data, bytes, flags, NULL, 0);
    if (put > 0) record('n', 'n', 0, put, data);
    return put;
}

ssize_t read(int fd, void *data, size_t bytes) {
    begin();
    enum what now = fd == 0 ? disturbance('0') : NOTHING;
    if (now == FAIL) return failed(error_number);
    if (now == SHORT && bytes > 1) bytes /= 2;
    return ended(syscall(SYS_read, fd, data, bytes), now);
}

// the names of programs that are compiled with 64-bit offsets
int open64(const char *path, int flags, ...) __attribute__((alias("open")));
ssize_t pwrite64(int fd, const void *data, size_t bytes, off_t at) __attribute__((alias("pwrite")));
ssize_t pread64(int fd, void *data, size_t bytes, off_t at) __attribute__((alias("pread")));
int ftruncate64(int fd, off_t length) __attribute__((alias("ftruncate")));
