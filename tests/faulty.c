/* Makes one request of a program that it is preloaded into fail, and says what it saw.
 *
 * Where they are set, these variables say which:
 *   FAIL_ALLOCATION=N  the N-th allocation is refused, counted from 1
 *   FAIL_MARKED=1      allocations count only between two opens of the path /brl/mark
 *   FAIL_READ=N        reads of the N-th file that the program opens fail, counted from 1
 *   FAIL_INPUT=N       standard input has N bytes, and then fails
 *   FAIL_OUTPUT=N      standard output takes N bytes, and then fails
 *   FAIL_FILE=N        other files take N bytes, and then fail
 *   KILL_FILE=N        other files take N bytes, and then the program is killed
 *   FAIL_RENAME=1      no file can be renamed
 *   FAIL_CREATE=N      the N-th file that may be made can't be opened, counted from 1
 *   FAIL_FOLDERS=1     no folder can be made
 *   FAULTY_LOG=PATH    the file that gets, at the end, four numbers: how many allocations there were,
 *                      how many were refused, how many files were opened before that, and how many
 *                      other requests failed
 */
#define _GNU_SOURCE
#include <errno.h>
#include <fcntl.h>
#include <limits.h>
#include <signal.h>
#include <stdarg.h>
#include <stdio.h>
#include <stdlib.h>
#include <string.h>
#include <sys/stat.h>
#include <sys/syscall.h>
#include <unistd.h>

void *__libc_malloc(size_t);
void *__libc_realloc(void *, size_t);

static long refuse, is_marked, is_counting = 1, fail_read, fail_rename, fail_create, fail_folders;
static long input_room, output_room, file_room, life;
static long allocations, refused, opened, opened_before, created, failed;
static int failing_file = -1;

static long number(const char *name, long otherwise)
{
    const char *text = getenv(name);
    return text ? atol(text) : otherwise;
}

__attribute__((constructor)) static void begin(void)
{
    refuse = number("FAIL_ALLOCATION", 0);
    is_marked = number("FAIL_MARKED", 0);
    is_counting = !is_marked;
    fail_read = number("FAIL_READ", 0);
    input_room = number("FAIL_INPUT", LONG_MAX);
    output_room = number("FAIL_OUTPUT", LONG_MAX);
    file_room = number("FAIL_FILE", LONG_MAX);
    life = number("KILL_FILE", LONG_MAX);
    fail_rename = number("FAIL_RENAME", 0);
    fail_create = number("FAIL_CREATE", 0);
    fail_folders = number("FAIL_FOLDERS", 0);
}

static ssize_t fail(void)
{
    failed++;
    errno = EIO;
    return -1;
}

static int is_refused(void)
{
    if (!is_counting || ++allocations != refuse)
        return 0;
    refused++;
    opened_before = opened;
    errno = ENOMEM;
    return 1;
}

void *malloc(size_t size)
{
    return is_refused() ? NULL : __libc_malloc(size);
}

void *realloc(void *old, size_t size)
{
    return is_refused() ? NULL : __libc_realloc(old, size);
}

int open(const char *path, int flags, ...)
{
    int mode = 0, file;

    if (is_marked && strcmp(path, "/brl/mark") == 0)
        is_counting = !is_counting;
    if (flags & O_CREAT) {
        va_list rest;
        va_start(rest, flags);
        mode = va_arg(rest, int);
        va_end(rest);
        if (++created == fail_create)
            return (int)fail();
    }
    file = (int)syscall(SYS_openat, AT_FDCWD, path, flags, mode);
    if (++opened == fail_read)
        failing_file = file;
    return file;
}

int close(int file)
{
    if (file == failing_file)
        failing_file = -1;
    return (int)syscall(SYS_close, file);
}

ssize_t read(int file, void *buffer, size_t size)
{
    ssize_t count;

    if (file == failing_file || (file == 0 && input_room == 0))
        return fail();
    if (file == 0 && size > (size_t)input_room)
        size = (size_t)input_room;
    count = syscall(SYS_read, file, buffer, size);
    if (file == 0 && count > 0)
        input_room -= count;
    return count;
}

ssize_t write(int file, const void *buffer, size_t size)
{
    long any = LONG_MAX, *room = file == 1 ? &output_room : file == 2 ? &any : &file_room;
    ssize_t count;

    if (room == &file_room && life == 0)
        raise(SIGKILL);
    if (*room == 0 && size > 0)
        return fail();
    if (size > (size_t)*room)
        size = (size_t)*room;
    if (room == &file_room && size > (size_t)life)
        size = (size_t)life;
    count = syscall(SYS_write, file, buffer, size);
    if (count > 0)
        *room -= count;
    if (room == &file_room && count > 0)
        life -= count;
    return count;
}

int rename(const char *old, const char *new)
{
    return fail_rename ? (int)fail() : (int)syscall(SYS_renameat2, AT_FDCWD, old, AT_FDCWD, new, 0);
}

int mkdir(const char *path, mode_t mode)
{
    return fail_folders ? (int)fail() : (int)syscall(SYS_mkdirat, AT_FDCWD, path, mode);
}

ssize_t __write(int file, const void *buffer, size_t size)
{
    return write(file, buffer, size);
}

__attribute__((destructor)) static void end(void)
{
    char line[96];
    const char *path = getenv("FAULTY_LOG");
    int length, file;

    if (!path)
        return;
    length = snprintf(line, sizeof line, "%ld %ld %ld %ld\n", allocations, refused, opened_before, failed);
    file = (int)syscall(SYS_openat, AT_FDCWD, path, O_WRONLY | O_CREAT | O_TRUNC, 0600);
    if (file < 0 || syscall(SYS_write, file, line, length) != length)
        _exit(99);
    syscall(SYS_close, file);
}
