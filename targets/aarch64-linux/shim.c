/* What the program calls of the kit's C code for the system, which the kit has for x86-64 alone, again for other machines with
 * Linux and glibc. Not proved. What it calls for memory is in ../global.c. */
#include <errno.h>
#include <fcntl.h>
#include <stddef.h>
#include <stdint.h>

/* The words of the command line, the program's name first: glibc gives them to a constructor. */
static int count;
static char **words;

__attribute__((constructor)) static void keep(int given, char **list)
{
    count = given;
    words = list;
}

/* Copies word `number`, without the zero byte at its end. Its length; -1 where there is no such word, -2 where it has more than
 * `room` bytes, of which so many are copied. */
int64_t rattle_arg(uint64_t number, char *out, uint64_t room)
{
    if (count < 0 || number >= (uint64_t)count || words[number] == NULL)
        return -1;
    uint64_t length = 0;
    for (const char *word = words[number]; word[length] != 0; length++) {
        if (length == room)
            return -2;
        out[length] = word[length];
    }
    return (int64_t)length;
}

/* The number of the system's last error. */
int rattle_errno(void)
{
    return errno;
}

void rattle_set_errno(int number)
{
    errno = number;
}

/* Opens a folder below another, but no link to one. The numbers of these flags differ between machines. */
int rattle_open_dir_at(int folder, const char *path)
{
    return openat(folder, path, O_RDONLY | O_DIRECTORY | O_NOFOLLOW | O_CLOEXEC);
}
