/* Counts calls of the program that it is loaded into, and does something at one of them. Its words are in variables of the
   environment:

   FAULT_CALLS which calls are counted, from 1:
     changes  those that change files: opening a file for writing, writing to one, syncing a file or a folder, renaming,
              removing a file and making a folder
     store    those of the program's store, see below
     rights   those that give a file its group or its mode
     memory   allocations; with FAULT_LEAST those of at least so many bytes, and with FAULT_MARKED those between two writes
              to standard error: the first write begins, the second one ends, and so on
     random   those that ask the system for random bytes
   FAULT_AT    the number of one call
   FAULT       what comes of it: `kill`, it isn't made and the program gets SIGKILL; `fail`, it fails, with EIO or for
               want of memory; `on`, so do all later ones; or `FROM TO`, a space, and so on: before it these files are
               renamed over others, as another program may do. A write that is stopped takes half of its bytes first.
   FAULT_TELL  a descriptor. It is told at the end how many calls were counted, and of allocations the largest and the sum;
               with FAULT_CALLS `log` it is told the process first, and each folder that was made, each file or folder that was
               synced and each file that was renamed, once it is done: `process ID`, `mkdir PATH`, `sync PATH` or
               `rename FROM TO`

   A call of the store reads a file, and begins with opening it, whether it is there or not; or it replaces a file, and
   begins with opening a temporary file for writing, which is opened once more if its folders had to be made; or it asks
   whether a file is there, by `statx`, as `follow` does of the files of sequences, which it never writes. One that is
   asked for right before it is opened is looked at, whether it is a pipe: that belongs to the opening. Of a file that
   stays open each further block is a call too, which begins with a seek, or with a read after one that came to the end;
   a seek before the first read belongs to the opening. While such a file is open, each write of a temporary file and its
   sync are calls of their own. Folders that are opened, or are asked for and aren't there, locks, and names that begin
   with a slash are no files of the store. The file FAULT_SPOILED is opened once more after the run, to see for the message
   what it looks like: that isn't counted. A program that is killed at a call of the store says on standard error at which. */
#define _GNU_SOURCE
#include <dlfcn.h>
#include <errno.h>
#include <fcntl.h>
#include <limits.h>
#include <signal.h>
#include <stdarg.h>
#include <stdio.h>
#include <stdlib.h>
#include <string.h>
#include <sys/stat.h>
#include <sys/syscall.h>
#include <unistd.h>

enum calls { NOTHING, CHANGES, STORE, RIGHTS, MEMORY, RANDOM, LOG };
static const char *const names[] = {"", "changes", "store", "rights", "memory", "random", "log"};

static enum calls counted;
static long at, count, least;
static const char *fault = "";
static int told = -1, is_marked, marks;
static size_t largest, sum;

static long number_in(const char *name, long otherwise) {
    const char *number = getenv(name);
    return number ? atol(number) : otherwise;
}

__attribute__((constructor)) static void begin(void) {
    const char *calls = getenv("FAULT_CALLS");
    at = number_in("FAULT_AT", 0);
    least = number_in("FAULT_LEAST", 0);
    told = number_in("FAULT_TELL", -1);
    is_marked = getenv("FAULT_MARKED") != NULL;
    if (getenv("FAULT")) fault = getenv("FAULT");
    for (enum calls each = CHANGES; calls && each <= LOG; each++)
        if (strcmp(calls, names[each]) == 0) counted = each;
    if (counted == LOG) dprintf(told, "process %d\n", getpid());
}

__attribute__((destructor)) static void end(void) {
    if (told >= 0 && counted != LOG) dprintf(told, "%ld %zu %zu\n", count, largest, sum);
}

/* The function of that name in the C library. */
#define REAL(name) ((__typeof__(&name))dlsym(RTLD_NEXT, #name))

static int is(const char *what) { return strcmp(fault, what) == 0; }

/* Whether something comes of the call that is counted next, or of the one with that number. */
static int is_due(long number) { return at && (number == at || (number > at && is("on"))); }

static void rename_others(void) {
    const char *rest = fault;
    char from[256], to[256];
    for (int length; sscanf(rest, "%255s %255s%n", from, to, &length) == 2; rest += length) REAL(rename)(from, to);
}

/* Counts a call, and says whether it fails. It doesn't come back if the program is killed. */
static int stops(enum calls calls, const char *path, const char *what) {
    if (calls != counted || !is_due(++count)) return 0;
    if (is("fail") || is("on")) {
        errno = EIO;
        return 1;
    }
    if (!is("kill")) {
        rename_others();
        return 0;
    }
    if (path) dprintf(2, "%s: %s\n", path, what);
    kill(getpid(), SIGKILL);
    return 1;
}

/* ---- the store */

static int is_folder(const char *path) {
    struct stat found;
    return stat(path, &found) == 0 && S_ISDIR(found.st_mode);
}

static int is_lock(const char *path) {
    size_t length = strlen(path);
    return length >= 4 && strcmp(path + length - 4, "lock") == 0;
}

/* How often the file FAULT_SPOILED was opened to be read. */
static int looks;

static int is_spoiled(const char *path) {
    const char *spoiled = getenv("FAULT_SPOILED");
    return spoiled && strcmp(path, spoiled) == 0;
}

/* Whether a name that is opened for writing differs from the last one. */
static int is_new(const char *path) {
    static char last[PATH_MAX];
    if (strcmp(path, last) == 0) return 0;
    snprintf(last, sizeof last, "%s", path);
    return 1;
}

/* Whether the program's word is `follow`. */
static int follows(void) {
    char words[4096] = "";
    int file = syscall(SYS_open, "/proc/self/cmdline", O_RDONLY);
    long length = syscall(SYS_read, file, words, sizeof words - 1);
    syscall(SYS_close, file);
    const char *word = words + strlen(words) + 1;
    return length > 0 && word < words + length && strcmp(word, "follow") == 0;
}

static int is_of_store(const char *path) { return counted == STORE && path[0] != '/'; }

static int is_file(const char *path, int flags) {
    return is_of_store(path) && !is_lock(path) && !(flags & O_DIRECTORY) && !is_folder(path);
}

static int is_read(int flags) { return (flags & O_ACCMODE) == O_RDONLY; }

/* The file that was asked for last, if no other call came after that. */
static char asked[PATH_MAX];

/* Whether the opening of a file fails. */
static int stops_opening(const char *path, int flags) {
    int was_asked = strcmp(path, asked) == 0;
    asked[0] = 0;
    if (!is_read(flags) && stops(CHANGES, NULL, NULL)) return 1;
    if (!is_file(path, flags)) return 0;
    if (!is_read(flags)) return is_new(path) && stops(STORE, path, "write");
    return !(is_spoiled(path) && looks++ > 0) && !was_asked && stops(STORE, path, "read");
}

/* The files of the store that are open, by their descriptors. */
enum { MOST = 64 };
enum state { CLOSED, OPENED, READ, AT_END, WRITTEN, WRITTEN_IN_PARTS };
static struct {
    char path[PATH_MAX];
    enum state state;
} files[MOST];

static enum state state_of(int file) { return file >= 0 && file < MOST ? files[file].state : CLOSED; }

static int is_being_read(int file) { return state_of(file) >= OPENED && state_of(file) <= AT_END; }

static void enter(int file, enum state state) {
    if (file >= 0 && file < MOST) files[file].state = state;
}

/* Keeps what was opened. A file is written in parts while another one is open to be read. */
static int opened(int file, const char *path, int flags) {
    if (file < 0 || file >= MOST || !is_file(path, flags)) return enter(file, CLOSED), file;
    enum state state = is_read(flags) ? OPENED : WRITTEN;
    for (int other = 0; !is_read(flags) && other < MOST; other++)
        if (is_being_read(other)) state = WRITTEN_IN_PARTS;
    enter(file, state);
    snprintf(files[file].path, PATH_MAX, "%s", path);
    return file;
}

static int stops_writing(int file) {
    return state_of(file) == WRITTEN_IN_PARTS && stops(STORE, files[file].path, "write");
}

/* ---- the calls */

/* A C library has this call under its own name and under a private one, and a program may use either. A mode is passed
   only if a file may be made; otherwise this reads a value that no one uses. */
#define OPEN(name, real, PLACE, place) \
    int name(PLACE const char *path, int flags, ...) { \
        va_list rest; \
        va_start(rest, flags); \
        int mode = (flags & O_CREAT) ? va_arg(rest, int) : 0; \
        va_end(rest); \
        return stops_opening(path, flags) ? -1 : opened(REAL(real)(place path, flags, mode), path, flags); \
    }
#define COMMA ,

OPEN(open, open, , )
OPEN(open64, open64, , )
OPEN(__open, open, , )
OPEN(__open64, open64, , )
OPEN(openat, openat, int folder COMMA, folder COMMA)
OPEN(openat64, openat64, int folder COMMA, folder COMMA)

int statx(int folder, const char *restrict path, int flags, unsigned mask, struct statx *restrict found) {
    if (is_of_store(path) && strstr(path, "/000/") && follows() && !(is_spoiled(path) && looks > 0)) {
        if (stops(STORE, path, "read")) return -1;
        snprintf(asked, sizeof asked, "%s", path);
    }
    return REAL(statx)(folder, path, flags, mask, found);
}

ssize_t read(int file, void *bytes, size_t most) {
    if (state_of(file) == AT_END && stops(STORE, files[file].path, "read")) return -1;
    ssize_t length = REAL(read)(file, bytes, most);
    if (is_being_read(file)) enter(file, length == 0 ? AT_END : READ);
    return length;
}

off_t lseek(int file, off_t place, int from) {
    if (is_being_read(file)) {
        if (state_of(file) != OPENED && stops(STORE, files[file].path, "read")) return -1;
        enter(file, READ);
    }
    return REAL(lseek)(file, place, from);
}

/* Writes to files count; what is printed doesn't. */
static ssize_t writes(int file, const void *bytes, size_t length) {
    if (file == 2) marks++;
    if (file > 2 && counted == CHANGES) {
        if (is_due(count + 1)) REAL(write)(file, bytes, length / 2);
        if (stops(CHANGES, NULL, NULL)) return -1;
    }
    return stops_writing(file) ? -1 : REAL(write)(file, bytes, length);
}

ssize_t write(int file, const void *bytes, size_t length) { return writes(file, bytes, length); }

ssize_t __write(int file, const void *bytes, size_t length) { return writes(file, bytes, length); }

static int syncs(int (*real)(int), int file) {
    if (stops(CHANGES, NULL, NULL) || stops_writing(file)) return -1;
    char link[64], path[PATH_MAX];
    snprintf(link, sizeof link, "/proc/self/fd/%d", file);
    ssize_t length = counted == LOG ? readlink(link, path, sizeof path) : 0;
    int answer = real(file);
    if (answer == 0 && counted == LOG) dprintf(told, "sync %.*s\n", (int)length, path);
    return answer;
}

int fsync(int file) { return syncs(REAL(fsync), file); }

int fdatasync(int file) { return syncs(REAL(fdatasync), file); }

int rename(const char *from, const char *to) {
    int answer = stops(CHANGES, NULL, NULL) ? -1 : REAL(rename)(from, to);
    if (answer == 0 && counted == LOG) dprintf(told, "rename %s %s\n", from, to);
    return answer;
}

int mkdir(const char *path, mode_t mode) {
    int answer = stops(CHANGES, NULL, NULL) ? -1 : REAL(mkdir)(path, mode);
    if (answer == 0 && counted == LOG) dprintf(told, "mkdir %s\n", path);
    return answer;
}

int unlink(const char *path) { return stops(CHANGES, NULL, NULL) ? -1 : REAL(unlink)(path); }

int close(int file) {
    enter(file, CLOSED);
    return REAL(close)(file);
}

int chown(const char *path, uid_t owner, gid_t group) {
    return stops(RIGHTS, NULL, NULL) ? -1 : REAL(chown)(path, owner, group);
}

int fchmod(int file, mode_t mode) { return stops(RIGHTS, NULL, NULL) ? -1 : REAL(fchmod)(file, mode); }

int getentropy(void *bytes, size_t length) {
    return stops(RANDOM, NULL, NULL) ? -1 : REAL(getentropy)(bytes, length);
}

/* ---- allocations */

static int refuses(size_t size) {
    if (size < (size_t)least || (is_marked && marks % 2 == 0)) return 0;
    if (size > largest) largest = size;
    sum += size;
    return stops(MEMORY, NULL, NULL);
}

void *malloc(size_t size) {
    static void *(*real)(size_t);
    if (!real) real = REAL(malloc);
    return refuses(size) ? NULL : real(size);
}

void *realloc(void *place, size_t size) {
    static void *(*real)(void *, size_t);
    if (!real) real = REAL(realloc);
    return refuses(size) ? NULL : real(place, size);
}
