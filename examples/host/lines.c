/* Reading lines and numbers. */
#include "lines.h"

int line_read(FILE *from, char line[LINE_BYTES])
{
    size_t length = 0;
    int byte = getc(from);
    if (byte == EOF)
        return 0;
    for (; byte != EOF && byte != '\n'; byte = getc(from)) {
        if (length == LINE_BYTES - 1)
            line[length - 1] = '?';
        else
            line[length++] = byte == '\0' ? '?' : (char)byte;
    }
    line[length] = '\0';
    return 1;
}

enum numeral number_read(const char **at, uint32_t *number)
{
    uint64_t sum = 0;
    const char *start = *at;
    for (; **at >= '0' && **at <= '9'; ++*at)
        sum = sum > UINT32_MAX ? sum : sum * 10 + (uint64_t)(**at - '0');
    *number = (uint32_t)sum;
    if (*at == start)
        return NO_NUMBER;
    return sum > UINT32_MAX ? LARGE_NUMBER : NUMBER;
}
