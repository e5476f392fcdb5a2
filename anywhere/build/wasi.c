// What a program of the machine asks of its host, by WASI (preview 1), in place of the kit's C library on Linux: its words
// and environment, files, the clock, and errors by their numbers on Linux. (WASI preview 1, "Functions" and "Types".) No
// proof covers this file: it is trusted, as a C library is.
//
// The module has pointers of 64 bits below 4 GiB, and WASI's are 32 bits: WASI is passed the low half.
typedef unsigned char u8;
typedef unsigned short u16;
typedef unsigned u32;
typedef unsigned long u64;
typedef long i64;

#define WASI(name) __attribute__((import_module("wasi_snapshot_preview1"), import_name(#name)))
WASI(args_sizes_get) int args_sizes_get(u32 count, u32 bytes);
WASI(args_get) int args_get(u32 places, u32 bytes);
WASI(environ_sizes_get) int environ_sizes_get(u32 count, u32 bytes);
WASI(environ_get) int environ_get(u32 places, u32 bytes);
WASI(fd_read) int fd_read(u32 fd, u32 parts, u32 count, u32 got);
WASI(fd_write) int fd_write(u32 fd, u32 parts, u32 count, u32 got);
WASI(fd_close) int fd_close(u32 fd);
WASI(fd_seek) int fd_seek(u32 fd, i64 offset, u32 whence, u32 at);
WASI(fd_filestat_get) int fd_filestat_get(u32 fd, u32 stat);
WASI(fd_filestat_set_size) int fd_filestat_set_size(u32 fd, i64 bytes);
WASI(fd_prestat_get) int fd_prestat_get(u32 fd, u32 stat);
WASI(fd_prestat_dir_name) int fd_prestat_dir_name(u32 fd, u32 name, u32 bytes);
WASI(path_filestat_get) int path_filestat_get(u32 fd, u32 look, u32 path, u32 bytes, u32 stat);
WASI(path_open) int path_open(u32 fd, u32 look, u32 path, u32 bytes, u32 how, u64 base, u64 inheriting, u32 flags, u32 opened);
WASI(clock_time_get) int clock_time_get(u32 id, u64 precision, u32 time);
WASI(poll_oneoff) int poll_oneoff(u32 wanted, u32 happened, u32 count, u32 told);
WASI(proc_exit) _Noreturn void proc_exit(u32 status);

static u32 low(const void *at) {
    return (u32)(u64)at;
}

// The main function of the program, which the compiler names so.
extern int program(int, u64) __asm__("main");
void start(void) __asm__("_start");
void start(void) {
    proc_exit(program(0, 0));
}

// Errors. A number of WASI is that of Linux in this table, by its place.
static const u8 on_linux[] = {
    0, 7, 13, 98, 99, 97, 11, 114, 9, 74, 16, 125, 10, 103, 111, 104, 35, 89, 33, 122, 17, 14, 27, 113, 43, 84,
    115, 4, 22, 5, 106, 21, 40, 24, 31, 90, 72, 36, 100, 102, 101, 23, 105, 19, 2, 8, 37, 67, 12, 42, 92, 28,
    38, 107, 20, 39, 131, 88, 95, 25, 6, 75, 130, 1, 32, 71, 93, 91, 34, 30, 29, 3, 116, 110, 26, 18, 76,
};
enum { NO_ENTRY = 2, INPUT_OUTPUT = 5, TOO_LONG = 36, NO_CALL = 38 };
static int last_error;

int rattle_errno(void) {
    return last_error;
}

void rattle_set_errno(int error) {
    last_error = error;
}

// The answer of a call that WASI answered with this error.
static i64 answer(int error, i64 value) {
    if (error == 0) return value;
    last_error = error < (int)sizeof on_linux ? on_linux[error] : INPUT_OUTPUT;
    return -1;
}

// The text of an error. No program shows it: each names its own.
int __xpg_strerror_r(int error, u8 *to, u64 room) {
    static const u8 text[] = "an error of the host";
    (void)error;
    for (u64 k = 0; k < sizeof text && k < room; k++) to[k] = text[k];
    return 0;
}

// Words and environment: WASI gives all of them at once, and they are fetched once.
enum { MOST_TEXTS = 1 << 16, MOST_BYTES = 1 << 21 };
typedef struct {
    int is_there;
    u32 count;
    u32 places[MOST_TEXTS];
    u8 bytes[MOST_BYTES];
} Texts;
static Texts words, environment;

static int fetch(Texts *to, int (*sizes)(u32, u32), int (*get)(u32, u32)) {
    u32 count = 0, bytes = 0;
    if (to->is_there) return 1;
    if (sizes(low(&count), low(&bytes)) || count > MOST_TEXTS || bytes > MOST_BYTES) return 0;
    if (get(low(to->places), low(to->bytes))) return 0;
    to->count = count;
    to->is_there = 1;
    return 1;
}

// Copies a text without its end, and gives its length; -2 if there is less room.
static i64 copied(const u8 *from, u8 *to, u64 room) {
    u64 length = 0;
    for (; from[length]; length++) {
        if (length == room) return -2;
        to[length] = from[length];
    }
    return (i64)length;
}

static i64 text_at(Texts *texts, int is_there, u64 place, u8 *to, u64 room) {
    if (!is_there || place >= texts->count) return -1;
    return copied((u8 *)(u64)texts->places[place], to, room);
}

i64 rattle_arg(u64 place, u8 *to, u64 room) {
    return text_at(&words, fetch(&words, args_sizes_get, args_get), place, to, room);
}

i64 rattle_env_at(u64 place, u8 *to, u64 room) {
    return text_at(&environment, fetch(&environment, environ_sizes_get, environ_get), place, to, room);
}

// The value of a variable, or 0.
static const u8 *variable(const char *name) {
    if (!fetch(&environment, environ_sizes_get, environ_get)) return 0;
    for (u32 place = 0; place < environment.count; place++) {
        const u8 *text = (u8 *)(u64)environment.places[place];
        u64 k = 0;
        while (name[k] && text[k] == (u8)name[k]) k++;
        if (!name[k] && text[k] == '=') return text + k + 1;
    }
    return 0;
}

i64 rattle_env(const u8 *name, u8 *to, u64 room) {
    const u8 *value = variable((const char *)name);
    return value ? copied(value, to, room) : -1;
}

// Paths. WASI opens a path from a folder that the host gives under a name: `/`, or a drive as `C:`. So a path is made whole
// by the variable PWD, without `.` and `..`. If there is no PWD, a path that isn't whole begins at the folder `.`.
enum { PATH_ROOM = 8192, FIRST_FOLDER = 3 };
typedef struct {
    int is_from_here;
    i64 length;
    u8 text[PATH_ROOM];
} Path;

static int is_whole(const u8 *path) {
    return path[0] == '/' || (path[0] && path[1] == ':');
}

// Adds the parts of a text, each with a `/` before it; 0 if there is no room.
static int add_parts(Path *to, const u8 *from) {
    while (*from) {
        i64 bytes = 0;
        while (*from == '/') from++;
        while (from[bytes] && from[bytes] != '/') bytes++;
        if (bytes == 2 && from[0] == '.' && from[1] == '.') {
            while (to->length && to->text[to->length - 1] != '/') to->length--;
            if (to->length) to->length--;
        } else if (bytes && !(bytes == 1 && from[0] == '.')) {
            if (to->length + bytes + 2 > PATH_ROOM) return 0;
            to->text[to->length++] = '/';
            for (i64 k = 0; k < bytes; k++) to->text[to->length++] = from[k];
        }
        from += bytes;
    }
    to->text[to->length] = 0;
    return 1;
}

static int make_whole(Path *to, const u8 *path) {
    const u8 *folder = is_whole(path) ? (const u8 *)"" : variable("PWD");
    to->length = 0;
    to->is_from_here = !folder;
    return (!folder || add_parts(to, folder)) && add_parts(to, path);
}

// How many bytes of a path the name of a folder stands for, or -1 if the folder doesn't hold the path.
static i64 held(const Path *path, const u8 *name, u32 bytes) {
    while (bytes && !name[bytes - 1]) bytes--;
    if (bytes == 1 && name[0] == '.') return path->is_from_here ? 0 : -1;
    if (path->is_from_here) return -1;
    while (bytes && name[bytes - 1] == '/') bytes--;
    // A drive is the first part of a path, after its `/`.
    u32 before = bytes && name[0] != '/';
    for (u32 k = 0; k < bytes; k++) {
        if (path->text[before + k] != name[k]) return -1;
    }
    u8 next = path->text[before + bytes];
    return !next || next == '/' ? (i64)(before + bytes) : -1;
}

// The folder that holds the path, by the longest name, and the path from there; 0 if there is none.
static u32 folder_of(const Path *path, const u8 **rest) {
    static u8 name[PATH_ROOM];
    u32 found = 0;
    i64 longest = -1;
    for (u32 fd = FIRST_FOLDER;; fd++) {
        struct {
            u32 tag, bytes;
        } stat = {0, 0};
        if (fd_prestat_get(fd, low(&stat))) return found;
        if (stat.bytes > PATH_ROOM || fd_prestat_dir_name(fd, low(name), stat.bytes)) continue;
        i64 bytes = held(path, name, stat.bytes);
        if (bytes <= longest) continue;
        found = fd;
        longest = bytes;
        *rest = path->text + bytes;
        while (**rest == '/') (*rest)++;
        if (!**rest) *rest = (const u8 *)".";
    }
}

// Files. The flags are those of open(2) on Linux.
enum { WRITE_ONLY = 1, READ_WRITE = 2, CREATE = 0100, EXCLUSIVE = 0200, TRUNCATE = 01000, APPEND = 02000 };
enum { TO_READ = 1 << 1, TO_SEEK = 1 << 2, TO_WRITE = 1 << 6, TO_STAT = 1 << 21, TO_CUT = 1 << 22 };
typedef struct {
    u32 at, bytes;
} Part;

// A path as WASI takes it: the folder that holds it, and its bytes from there.
typedef struct {
    u32 folder, bytes;
    const u8 *rest;
} Place;

// Where a path leads. 0 if it is too long, or no folder holds it.
static int find_place(Place *place, const u8 *path) {
    static Path whole;
    if (!make_whole(&whole, path)) {
        last_error = TOO_LONG;
        return 0;
    }
    place->folder = path[0] ? folder_of(&whole, &place->rest) : 0;
    if (!place->folder) {
        last_error = NO_ENTRY;
        return 0;
    }
    place->bytes = 0;
    while (place->rest[place->bytes]) place->bytes++;
    return 1;
}

int open(const u8 *path, int flags, ...) {
    Place place = {0, 0, 0};
    if (!find_place(&place, path)) return -1;
    u32 how = (flags & CREATE ? 1 : 0) | (flags & EXCLUSIVE ? 4 : 0) | (flags & TRUNCATE ? 8 : 0);
    u64 rights = TO_SEEK | TO_STAT | (flags & WRITE_ONLY ? TO_WRITE | TO_CUT : flags & READ_WRITE ? TO_READ | TO_WRITE | TO_CUT : TO_READ);
    u32 fd = 0;
    int error = path_open(place.folder, 1, low(place.rest), place.bytes, how, rights, 0, flags & APPEND ? 1 : 0, low(&fd));
    return (int)answer(error, fd);
}

i64 read(int fd, u8 *to, u64 bytes) {
    Part part = {low(to), (u32)bytes};
    u32 got = 0;
    int error = fd_read((u32)fd, low(&part), 1, low(&got));
    return answer(error, got);
}

i64 write(int fd, const u8 *from, u64 bytes) {
    Part part = {low(from), (u32)bytes};
    u32 got = 0;
    int error = fd_write((u32)fd, low(&part), 1, low(&got));
    return answer(error, got);
}

i64 __write(int fd, const u8 *from, u64 bytes) {
    return write(fd, from, bytes);
}

int close(int fd) {
    return (int)answer(fd_close((u32)fd), 0);
}

i64 lseek(int fd, i64 offset, int whence) {
    i64 at = 0;
    int error = fd_seek((u32)fd, offset, (u32)whence, low(&at));
    return answer(error, at);
}

int ftruncate(int fd, i64 bytes) {
    return (int)answer(fd_filestat_set_size((u32)fd, bytes), 0);
}

// What else std's function asks for that cuts a file. No program does.
static int no_call(void) {
    last_error = NO_CALL;
    return -1;
}

int fchmod(int fd, u32 mode) {
    (void)fd, (void)mode;
    return no_call();
}

int fsync(int fd) {
    (void)fd;
    return no_call();
}

int fdatasync(int fd) {
    (void)fd;
    return no_call();
}

int flock(int fd, int how) {
    (void)fd, (void)how;
    return no_call();
}

// statx(2): what a file is, its length, and that its owner may read and write it.
// With NO_FOLLOW it tells of a link itself, and opens nothing: so a pipe that nobody writes isn't waited for.
enum { NO_FOLLOW = 0x100 };
enum { LENGTH_AND_KIND = 0x7ff, OWNER_WRITES = 0644, STATX_BYTES = 256, KIND = 2, LENGTH = 4, MODE_AT = 28, LENGTH_AT = 40 };
int statx(int folder, const u8 *path, int flags, u32 mask, u8 *to) {
    static const u16 kinds[] = {0, 0060000, 0020000, 0040000, 0100000, 0140000, 0140000, 0120000};
    u64 stat[8] = {0};
    Place place = {0, 0, 0};
    int error;
    (void)mask;
    if (path[0] && flags & NO_FOLLOW) {
        if (!find_place(&place, path)) return -1;
        error = path_filestat_get(place.folder, 0, low(place.rest), place.bytes, low(stat));
    } else {
        int fd = path[0] ? open(path, 0) : folder;
        if (fd < 0) return -1;
        error = fd_filestat_get((u32)fd, low(stat));
        if (path[0]) close(fd);
    }
    if (error) return (int)answer(error, 0);
    for (int k = 0; k < STATX_BYTES; k++) to[k] = 0;
    u8 kind = (u8)stat[KIND];
    *(u32 *)to = LENGTH_AND_KIND;
    *(u16 *)(to + MODE_AT) = (u16)((kind < sizeof kinds / sizeof *kinds ? kinds[kind] : 0) | OWNER_WRITES);
    *(u64 *)(to + LENGTH_AT) = stat[LENGTH];
    return 0;
}

// The clock. A time is seconds and nanoseconds, as Linux has it.
enum { MONOTONIC = 1 };
static const u64 second = 1000000000;

int clock_gettime(int id, i64 *to) {
    u64 time = 0;
    int error = clock_time_get(id == MONOTONIC, 1, low(&time));
    to[0] = (i64)(time / second);
    to[1] = (i64)(time % second);
    return (int)answer(error, 0);
}

// A subscription to the monotonic clock, which WASI tells of when the time has passed.
int nanosleep(const i64 *wanted, i64 *left) {
    struct {
        u64 user, tag;
        u64 clock, time, precision, flags;
    } clock = {0, 0, MONOTONIC, (u64)wanted[0] * second + (u64)wanted[1], 1, 0};
    u64 happened[4];
    u32 told = 0;
    (void)left;
    return (int)answer(poll_oneoff(low(&clock), low(happened), 1, low(&told)), 0);
}

// WASI has no signals, so there is none to be ignored.
i64 __sysv_signal(int signal, i64 what) {
    (void)signal, (void)what;
    return 0;
}

// A program asks the processor for what it has, at its start. The module has no code for one processor alone, so the answer
// makes no difference.
void *__x86_get_cpuid_feature_leaf(u32 leaf) {
    static u64 all[8] = {-1ul, -1ul, -1ul, -1ul, -1ul, -1ul, -1ul, -1ul};
    (void)leaf;
    return all;
}
