/* What the program calls of a system, over Windows: the functions of Linux' C library, and of the kit's C code, by Linux'
 * numbers of flags and errors. Each is called sys_NAME (tools/build_targets). Not proved.
 *
 * Names are bytes: UTF-8 for what Windows has in 16-bit units, and three bytes for a unit that has no other half, so that any
 * name goes there and back. In a word of the command line a `\` between folders becomes `/`, as the program reads it. What
 * Windows hasn't, or has otherwise, fails as on a Linux without it: locks, lists of folders. Rights aren't set; a file that
 * takes the place of another gets its by ReplaceFile. */
#define _WIN32_WINNT 0x0600
#define WIN32_LEAN_AND_MEAN
#include <windows.h>
#include <stdint.h>
#include <stdlib.h>
#include <string.h>
#include <wchar.h>

/* The runtime library puts all names of a word with `*` or `?` into its place, as a shell does on Linux. */
int _dowildcard = -1;

/* Linux' numbers of errors. */
enum { NO_FILE = 2, IO_ERROR = 5, NO_DESCRIPTOR = 9, NO_MEMORY = 12, NO_RIGHT = 13, THERE = 17, NO_FOLDER = 20, A_FOLDER = 21,
       INVALID = 22, TOO_MANY = 24, NO_TERMINAL = 25, TOO_LARGE = 27, NO_ROOM = 28, NO_SEEK = 29, READ_ONLY = 30, NO_READER = 32,
       TOO_LONG = 36, NO_CALL = 38, A_LINK = 40 };
/* Of flags of open, of statx, and numbers of fcntl. */
enum { ACCESS = 3, CREATE = 0x40, NEW = 0x80, TRUNCATE = 0x200, DIRECTORY = 0x10000, NO_FOLLOW = 0x20000 };
enum { LINK_ITSELF = 0x100, BY_DESCRIPTOR = 0x1000, DUPLICATE = 1030 };
enum { SHARED = FILE_SHARE_READ | FILE_SHARE_WRITE | FILE_SHARE_DELETE };
enum { PIPE = 0010000, DEVICE = 0020000, FOLDER = 0040000, REGULAR = 0100000, LINK = 0120000 };

static int last_error;

static int failed(int error)
{
    last_error = error;
    return -1;
}

int sys_rattle_errno(void)
{
    return last_error;
}

void sys_rattle_set_errno(int number)
{
    last_error = number;
}

/* Fails for the reason that Windows gave. */
static int failed_here(void)
{
    switch (GetLastError()) {
    case ERROR_FILE_NOT_FOUND: case ERROR_PATH_NOT_FOUND: case ERROR_INVALID_NAME: case ERROR_BAD_NETPATH:
    case ERROR_BAD_NET_NAME: case ERROR_INVALID_DRIVE: case ERROR_BAD_PATHNAME: return failed(NO_FILE);
    case ERROR_FILE_EXISTS: case ERROR_ALREADY_EXISTS: return failed(THERE);
    case ERROR_ACCESS_DENIED: case ERROR_SHARING_VIOLATION: case ERROR_LOCK_VIOLATION: return failed(NO_RIGHT);
    case ERROR_WRITE_PROTECT: return failed(READ_ONLY);
    case ERROR_NOT_ENOUGH_MEMORY: case ERROR_OUTOFMEMORY: return failed(NO_MEMORY);
    case ERROR_TOO_MANY_OPEN_FILES: return failed(TOO_MANY);
    case ERROR_INVALID_HANDLE: return failed(NO_DESCRIPTOR);
    case ERROR_DIRECTORY: return failed(NO_FOLDER);
    case ERROR_DISK_FULL: case ERROR_HANDLE_DISK_FULL: return failed(NO_ROOM);
    case ERROR_FILE_TOO_LARGE: return failed(TOO_LARGE);
    case ERROR_BROKEN_PIPE: case ERROR_NO_DATA: case ERROR_PIPE_NOT_CONNECTED: return failed(NO_READER);
    case ERROR_FILENAME_EXCED_RANGE: return failed(TOO_LONG);
    case ERROR_INVALID_PARAMETER: return failed(INVALID);
    default: return failed(IO_ERROR);
    }
}

/* The bytes of a name, which the caller frees. */
static char *bytes_of(const wchar_t *wide)
{
    char *name = malloc(3 * wcslen(wide) + 1), *to = name;
    for (; name != NULL && *wide != 0; wide++) {
        uint32_t code = *wide;
        if (code >> 10 == 0x36 && wide[1] >> 10 == 0x37)
            code = 0x10000 + ((code & 0x3ff) << 10 | (*++wide & 0x3ff));
        if (code < 0x80) {
            *to++ = (char)code;
        } else if (code < 0x800) {
            *to++ = (char)(0xc0 | code >> 6);
            *to++ = (char)(0x80 | (code & 0x3f));
        } else {
            if (code < 0x10000) {
                *to++ = (char)(0xe0 | code >> 12);
            } else {
                *to++ = (char)(0xf0 | code >> 18);
                *to++ = (char)(0x80 | (code >> 12 & 0x3f));
            }
            *to++ = (char)(0x80 | (code >> 6 & 0x3f));
            *to++ = (char)(0x80 | (code & 0x3f));
        }
    }
    if (name != NULL)
        *to = 0;
    return name;
}

/* Puts the units of a name; NULL where its bytes are none of bytes_of. Else the place behind them. */
static wchar_t *put_units(const unsigned char *name, wchar_t *to)
{
    while (*name != 0) {
        int more = *name < 0x80 ? 0 : *name >> 5 == 6 ? 1 : *name >> 4 == 14 ? 2 : *name >> 3 == 30 ? 3 : -1;
        uint32_t code = more <= 0 ? *name : *name & (0x3f >> more);
        if (more < 0)
            return NULL;
        for (name++; more > 0; more--, name++) {
            if (*name >> 6 != 2)
                return NULL;
            code = code << 6 | (*name & 0x3f);
        }
        if (code > 0x10ffff)
            return NULL;
        if (code >= 0x10000) {
            *to++ = (wchar_t)(0xd800 | (code - 0x10000) >> 10);
            code = 0xdc00 | (code & 0x3ff);
        }
        *to++ = (wchar_t)code;
    }
    *to = 0;
    return to;
}

/* What stands before a name that is longer than Windows takes as it is: of a share, and of any other. */
static const wchar_t OF_SHARE[] = L"\\\\?\\UNC\\", OF_LONG[] = L"\\\\?\\";
enum { LONGEST_USUAL = 240, FRONT = 8, LONGEST = 32767 };

/* A name as Windows takes it, whatever its length, which the caller frees. */
static wchar_t *wide_of(const char *name)
{
    wchar_t *wide = malloc((strlen(name) + 1) * sizeof *wide), *whole;
    if (wide == NULL || put_units((const unsigned char *)name, wide) == NULL) {
        failed(wide == NULL ? NO_MEMORY : NO_FILE);
        free(wide);
        return NULL;
    }
    if (wcscmp(wide, L"/dev/null") == 0)
        return wcscpy(wide, L"NUL");
    DWORD length = GetFullPathNameW(wide, 0, NULL, NULL);
    if (length < LONGEST_USUAL || wcsncmp(wide, OF_LONG, 4) == 0 || wcsncmp(wide, L"\\\\.\\", 4) == 0)
        return wide;
    whole = malloc((FRONT + (size_t)length) * sizeof *whole);
    if (whole == NULL || length > LONGEST) {
        failed(whole == NULL ? NO_MEMORY : TOO_LONG);
        free(whole);
        free(wide);
        return NULL;
    }
    length = GetFullPathNameW(wide, length, whole + FRONT, NULL);
    free(wide);
    const wchar_t *path = whole + FRONT, *front = OF_LONG;
    if (wcsncmp(path, L"\\\\", 2) == 0) {
        path += 2;
        front = OF_SHARE;
    }
    size_t before = wcslen(front);
    memmove(whole + before, path, (wcslen(path) + 1) * sizeof *whole);
    memcpy(whole, front, before * sizeof *whole);
    return whole;
}

/* Open files by their number, the lowest that is free first. */
enum { MOST_OPEN = 4096 };
static struct {
    HANDLE handle;
    int is_open;
} descriptors[MOST_OPEN];

static int is_open(int number)
{
    return number >= 0 && number < MOST_OPEN && descriptors[number].is_open;
}

static int descriptor_of(HANDLE handle, int least)
{
    for (int number = least; number < MOST_OPEN; number++)
        if (!descriptors[number].is_open) {
            descriptors[number].handle = handle;
            descriptors[number].is_open = 1;
            return number;
        }
    CloseHandle(handle);
    return failed(TOO_MANY);
}

int sys_close(int number)
{
    if (!is_open(number))
        return failed(NO_DESCRIPTOR);
    descriptors[number].is_open = 0;
    return CloseHandle(descriptors[number].handle) ? 0 : failed_here();
}

int sys_fcntl(int number, int command, ...)
{
    HANDLE copy, here = GetCurrentProcess();
    if (!is_open(number))
        return failed(NO_DESCRIPTOR);
    if (command != DUPLICATE)
        return failed(INVALID);
    if (!DuplicateHandle(here, descriptors[number].handle, here, &copy, 0, FALSE, DUPLICATE_SAME_ACCESS))
        return failed_here();
    return descriptor_of(copy, 3);
}

/* Opens a file that others may read, write, rename and take away meanwhile, as on Linux. */
int sys_open(const char *name, int flags, ...)
{
    static const DWORD wanted[] = {GENERIC_READ, GENERIC_WRITE, GENERIC_READ | GENERIC_WRITE, 0};
    DWORD how = flags & CREATE ? flags & NEW ? CREATE_NEW : flags & TRUNCATE ? CREATE_ALWAYS : OPEN_ALWAYS
                : flags & TRUNCATE ? TRUNCATE_EXISTING : OPEN_EXISTING;
    DWORD more = flags & NO_FOLLOW ? FILE_FLAG_OPEN_REPARSE_POINT : 0;
    if (flags & DIRECTORY)
        return failed(NO_CALL);
    wchar_t *wide = wide_of(name);
    if (wide == NULL)
        return -1;
    HANDLE handle = CreateFileW(wide, wanted[flags & ACCESS], SHARED, NULL, how, FILE_ATTRIBUTE_NORMAL | more, NULL);
    free(wide);
    return handle == INVALID_HANDLE_VALUE ? failed_here() : descriptor_of(handle, 0);
}

int sys_rattle_open_dir_at(int folder, const char *name)
{
    (void)folder, (void)name;
    return failed(NO_CALL);
}

int64_t sys_getdents64(int number, void *out, uint64_t room)
{
    (void)number, (void)out, (void)room;
    return failed(NO_CALL);
}

/* Where there are no locks, the program takes nothing away that an earlier run left. */
int sys_flock(int number, int how)
{
    (void)number, (void)how;
    return failed(NO_CALL);
}

/* At most so many bytes at once. */
static DWORD at_once(uint64_t many)
{
    return many > 1 << 30 ? 1 << 30 : (DWORD)many;
}

static int is_file(int number)
{
    return GetFileType(descriptors[number].handle) == FILE_TYPE_DISK;
}

/* Reads where the file is read next, or at a place. A pipe whose writer has gone is at its end. */
static int64_t read_into(int number, void *out, uint64_t room, OVERLAPPED *at)
{
    DWORD many = 0;
    if (ReadFile(descriptors[number].handle, out, at_once(room), &many, at))
        return many;
    DWORD error = GetLastError();
    return error == ERROR_HANDLE_EOF || error == ERROR_BROKEN_PIPE ? 0 : failed_here();
}

int64_t sys_read(int number, void *out, uint64_t room)
{
    return is_open(number) ? read_into(number, out, room, NULL) : failed(NO_DESCRIPTOR);
}

int64_t sys_lseek(int number, int64_t place, int from)
{
    LARGE_INTEGER to = {.QuadPart = place}, then;
    if (!is_open(number))
        return failed(NO_DESCRIPTOR);
    if (!is_file(number))
        return failed(NO_SEEK);
    return SetFilePointerEx(descriptors[number].handle, to, &then, (DWORD)from) ? then.QuadPart : failed_here();
}

/* Windows moves the place of the next read, which is then put back. */
int64_t sys_pread(int number, void *out, uint64_t room, int64_t place)
{
    OVERLAPPED at = {.Offset = (DWORD)place, .OffsetHigh = (DWORD)(place >> 32)};
    int64_t before = sys_lseek(number, 0, FILE_CURRENT);
    if (before < 0)
        return -1;
    int64_t many = read_into(number, out, room, &at);
    return sys_lseek(number, before, FILE_BEGIN) < 0 ? -1 : many;
}

int sys_isatty(int number)
{
    DWORD mode;
    if (!is_open(number) || !GetConsoleMode(descriptors[number].handle, &mode)) {
        last_error = is_open(number) ? NO_TERMINAL : NO_DESCRIPTOR;
        return 0;
    }
    return 1;
}

/* What a console takes is UTF-16: whole characters, at most so many bytes at once. Bytes of one that isn't whole wait. */
enum { PIECE = 4096 };

static int64_t write_console(HANDLE console, const unsigned char *bytes, uint64_t many)
{
    static unsigned char held[PIECE + 4];
    static int waiting;
    wchar_t units[PIECE + 4];
    int now = (int)(many < PIECE ? many : PIECE), rest = 0;
    memcpy(held + waiting, bytes, now);
    int have = waiting + now;
    for (int back = 1; back <= 3 && back <= have; back++) {
        unsigned char first = held[have - back];
        if (first < 0x80)
            break;
        if (first >= 0xc0) {
            rest = back < (first < 0xe0 ? 2 : first < 0xf0 ? 3 : 4) ? back : 0;
            break;
        }
    }
    int count = MultiByteToWideChar(CP_UTF8, 0, (char *)held, have - rest, units, PIECE + 4);
    DWORD put;
    if (count > 0 && !WriteConsoleW(console, units, (DWORD)count, &put, NULL))
        return failed_here();
    memmove(held, held + have - rest, rest);
    waiting = rest;
    return now;
}

int64_t sys_write(int number, const void *bytes, uint64_t many)
{
    DWORD put = 0;
    if (!is_open(number))
        return failed(NO_DESCRIPTOR);
    HANDLE handle = descriptors[number].handle;
    DWORD mode;
    if (GetConsoleMode(handle, &mode))
        return write_console(handle, bytes, many);
    return WriteFile(handle, bytes, at_once(many), &put, NULL) ? (int64_t)put : failed_here();
}

int sys_fsync(int number)
{
    if (!is_open(number))
        return failed(NO_DESCRIPTOR);
    return FlushFileBuffers(descriptors[number].handle) ? 0 : failed_here();
}

int sys_fdatasync(int number)
{
    return sys_fsync(number);
}

int sys_ftruncate(int number, int64_t length)
{
    int64_t before = sys_lseek(number, 0, FILE_CURRENT);
    if (before < 0 || sys_lseek(number, length, FILE_BEGIN) < 0)
        return -1;
    int is_cut = SetEndOfFile(descriptors[number].handle) ? 0 : failed_here();
    return sys_lseek(number, before, FILE_BEGIN) < 0 ? -1 : is_cut;
}

/* Rights and owners: those of the folder, or of the file whose place is taken. */
int sys_fchmod(int number, int rights)
{
    (void)rights;
    return is_open(number) ? 0 : failed(NO_DESCRIPTOR);
}

int sys_fchown(int number, int user, int group)
{
    (void)user, (void)group;
    return is_open(number) ? 0 : failed(NO_DESCRIPTOR);
}

int sys_unlink(const char *name)
{
    wchar_t *wide = wide_of(name);
    if (wide == NULL)
        return -1;
    int is_gone = DeleteFileW(wide) ? 0 : failed_here();
    free(wide);
    return is_gone;
}

/* The descriptor of a file that is open and has this name, or -1. */
static int descriptor_with(const wchar_t *name)
{
    BY_HANDLE_FILE_INFORMATION file, other;
    HANDLE handle = CreateFileW(name, FILE_READ_ATTRIBUTES, SHARED, NULL, OPEN_EXISTING, 0, NULL);
    BOOL is_known = handle != INVALID_HANDLE_VALUE && GetFileInformationByHandle(handle, &file);
    if (handle != INVALID_HANDLE_VALUE)
        CloseHandle(handle);
    for (int number = 3; is_known && number < MOST_OPEN; number++)
        if (is_open(number) && is_file(number) && GetFileInformationByHandle(descriptors[number].handle, &other) &&
            other.nFileIndexHigh == file.nFileIndexHigh && other.nFileIndexLow == file.nFileIndexLow &&
            other.dwVolumeSerialNumber == file.dwVolumeSerialNumber)
            return number;
    return -1;
}

/* Gives a file the name of one that is open and can't be replaced: that one first gets another name, by which it goes once
 * nobody has it open. */
static BOOL put_in_place_of_open(const wchar_t *made, const wchar_t *name)
{
    BOOL is_put = FALSE;
    size_t room = wcslen(name) + 40;
    wchar_t *old = malloc(room * sizeof *old);
    if (old == NULL)
        return FALSE;
    swprintf(old, room, L"%ls.mp4norm-old-%u", name, (unsigned)GetCurrentProcessId());
    if (MoveFileExW(name, old, 0)) {
        is_put = MoveFileExW(made, name, MOVEFILE_WRITE_THROUGH);
        if (!is_put)
            MoveFileExW(old, name, 0);
        else
            DeleteFileW(old);
    }
    free(old);
    return is_put;
}

/* Gives a file the name of another, with that one's rights, or a new name. ReplaceFile does so even where the other is open,
 * and keeps its rights, but wants the new one closed; what a file system, or Wine, hasn't of it is done by renaming. */
int sys_rename(const char *from, const char *to)
{
    wchar_t *made = wide_of(from), *name = made == NULL ? NULL : wide_of(to);
    int is_put = -1;
    if (name != NULL) {
        int number = descriptor_with(made);
        if (number >= 0)
            CloseHandle(descriptors[number].handle);
        is_put = ReplaceFileW(name, made, NULL, REPLACEFILE_IGNORE_MERGE_ERRORS, NULL, NULL) ||
                         MoveFileExW(made, name, MOVEFILE_REPLACE_EXISTING | MOVEFILE_WRITE_THROUGH) ||
                         put_in_place_of_open(made, name)
                     ? 0
                     : failed_here();
        if (number >= 0)
            descriptors[number].handle = CreateFileW(is_put == 0 ? name : made, GENERIC_READ, SHARED, NULL, OPEN_EXISTING, 0,
                                                     NULL);
    }
    free(made);
    free(name);
    return is_put;
}

/* Seconds since 1970, and billionths, of Windows' count of tenths of a microsecond since 1601. */
static void put_time(unsigned char *out, int64_t count)
{
    int64_t since = count - 116444736000000000, seconds = since / 10000000 - (since % 10000000 < 0);
    uint32_t parts = (uint32_t)(since - seconds * 10000000) * 100;
    memcpy(out, &seconds, 8);
    memcpy(out + 8, &parts, 4);
}

static void put_number(unsigned char *out, uint64_t number, int size)
{
    memcpy(out, &number, size);
}

/* Fills Linux' struct statx with what Windows says of a file. */
static int put_state(HANDLE handle, unsigned char *out)
{
    BY_HANDLE_FILE_INFORMATION file;
    FILE_BASIC_INFO times;
    FILE_ATTRIBUTE_TAG_INFO tag;
    DWORD type = GetFileType(handle);
    memset(out, 0, 256);
    put_number(out, 0x7ff, 4);
    put_number(out + 4, 4096, 4);
    put_number(out + 16, 1, 4);
    if (type != FILE_TYPE_DISK) {
        put_number(out + 28, type == FILE_TYPE_PIPE ? PIPE | 0600 : DEVICE | 0666, 2);
        return type == FILE_TYPE_UNKNOWN ? failed(NO_DESCRIPTOR) : 0;
    }
    if (!GetFileInformationByHandle(handle, &file) ||
        !GetFileInformationByHandleEx(handle, FileBasicInfo, &times, sizeof times))
        return failed_here();
    uint32_t rights = file.dwFileAttributes & FILE_ATTRIBUTE_READONLY ? 0444 : 0666;
    uint32_t kind = REGULAR;
    if (file.dwFileAttributes & FILE_ATTRIBUTE_REPARSE_POINT &&
        GetFileInformationByHandleEx(handle, FileAttributeTagInfo, &tag, sizeof tag) &&
        (tag.ReparseTag == IO_REPARSE_TAG_SYMLINK || tag.ReparseTag == IO_REPARSE_TAG_MOUNT_POINT))
        kind = LINK;
    else if (file.dwFileAttributes & FILE_ATTRIBUTE_DIRECTORY)
        kind = FOLDER;
    put_number(out + 16, file.nNumberOfLinks, 4);
    put_number(out + 28, kind | rights, 2);
    put_number(out + 32, (uint64_t)file.nFileIndexHigh << 32 | file.nFileIndexLow, 8);
    put_number(out + 40, (uint64_t)file.nFileSizeHigh << 32 | file.nFileSizeLow, 8);
    put_time(out + 64, times.LastAccessTime.QuadPart);
    put_time(out + 80, times.CreationTime.QuadPart);
    put_time(out + 96, times.ChangeTime.QuadPart);
    put_time(out + 112, times.LastWriteTime.QuadPart);
    put_number(out + 140, file.dwVolumeSerialNumber, 4);
    return 0;
}

int sys_statx(int folder, const char *name, int flags, unsigned mask, unsigned char *out)
{
    (void)mask;
    if (flags & BY_DESCRIPTOR && *name == 0)
        return is_open(folder) ? put_state(descriptors[folder].handle, out) : failed(NO_DESCRIPTOR);
    wchar_t *wide = wide_of(name);
    if (wide == NULL)
        return -1;
    DWORD how = FILE_FLAG_BACKUP_SEMANTICS | (flags & LINK_ITSELF ? FILE_FLAG_OPEN_REPARSE_POINT : 0);
    HANDLE handle = CreateFileW(wide, FILE_READ_ATTRIBUTES, SHARED, NULL, OPEN_EXISTING, how, NULL);
    free(wide);
    if (handle == INVALID_HANDLE_VALUE)
        return failed_here();
    int is_put = put_state(handle, out);
    CloseHandle(handle);
    return is_put;
}

int sys_getpid(void)
{
    return (int)GetCurrentProcessId();
}

/* The time of day (0), or one that only grows. */
int sys_clock_gettime(int clock, int64_t *out)
{
    LARGE_INTEGER ticks, each;
    FILETIME now;
    if (clock == 0) {
        GetSystemTimeAsFileTime(&now);
        out[1] = 0;
        put_time((unsigned char *)out, (int64_t)((uint64_t)now.dwHighDateTime << 32 | now.dwLowDateTime));
        return 0;
    }
    QueryPerformanceCounter(&ticks);
    QueryPerformanceFrequency(&each);
    out[0] = ticks.QuadPart / each.QuadPart;
    out[1] = ticks.QuadPart % each.QuadPart * 1000000000 / each.QuadPart;
    return 0;
}

/* There are no signals: a write to a pipe that nobody reads fails. */
int64_t sys___sysv_signal(int number, int64_t does)
{
    (void)number, (void)does;
    return 0;
}

static int count;
static char **words;

int64_t sys_rattle_arg(uint64_t number, char *out, uint64_t room)
{
    if (number >= (uint64_t)count)
        return -1;
    size_t length = strlen(words[number]);
    memcpy(out, words[number], length < room ? length : room);
    return length > room ? -2 : (int64_t)length;
}

/* A word of the command line. What begins with two of `\` is a share, or has a form in which `/` is no other word for `\`. */
static char *word_of(const wchar_t *wide)
{
    char *word = bytes_of(wide);
    if (word != NULL && strncmp(word, "\\\\", 2) != 0)
        for (char *at = word; *at != 0; at++)
            if (*at == '\\')
                *at = '/';
    return word;
}

int sys_main(void);

int wmain(int given, wchar_t **list)
{
    static const DWORD standard[] = {STD_INPUT_HANDLE, STD_OUTPUT_HANDLE, STD_ERROR_HANDLE};
    words = calloc((size_t)given + 1, sizeof *words);
    for (int at = 0; words != NULL && at < given; at++) {
        words[at] = word_of(list[at]);
        if (words[at] == NULL)
            return 2;
        count++;
    }
    for (int number = 0; number < 3; number++) {
        descriptors[number].handle = GetStdHandle(standard[number]);
        descriptors[number].is_open = descriptors[number].handle != NULL &&
                                      descriptors[number].handle != INVALID_HANDLE_VALUE;
    }
    SetErrorMode(SEM_FAILCRITICALERRORS);
    return sys_main();
}
