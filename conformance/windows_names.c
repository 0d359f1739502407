/* Whether each name that Windows has goes to bytes and back in the program for Windows: all units of 16 bits alone, halves of two
 * among them, and pairs of each 61st; and whether other bytes are refused. The status is 0 if so. */
#include "../targets/x86_64-windows/shim.c"

/* Whether a name comes back. */
static int is_back(const wchar_t *name)
{
    wchar_t units[16];
    char *bytes = bytes_of(name);
    int is_same = bytes != NULL && put_units((unsigned char *)bytes, units) != NULL && wcscmp(units, name) == 0;
    free(bytes);
    return is_same;
}

int sys_main(void)
{
    static const char *const WRONG[] = {"\x80", "\xc3", "\xc3(", "\xe3\x81", "\xf0\x9d\x84", "\xf8\x88\x80\x80\x80", "\xff",
                                        "\xf4\x90\x80\x80"};
    wchar_t units[16], name[] = {0, 'a', 0};
    for (unsigned unit = 1; unit < 0x10000; unit++) {
        name[0] = (wchar_t)unit;
        if (!is_back(name))
            return 1;
    }
    for (unsigned one = 1; one < 0x10000; one += 61)
        for (unsigned next = 1; next < 0x10000; next += 61) {
            name[0] = (wchar_t)one;
            name[1] = (wchar_t)next;
            if (!is_back(name))
                return 2;
        }
    for (size_t at = 0; at < sizeof WRONG / sizeof *WRONG; at++)
        if (put_units((const unsigned char *)WRONG[at], units) != NULL)
            return 3;
    return 0;
}
