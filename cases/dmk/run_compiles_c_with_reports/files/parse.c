#include "parse.h"

int parse(const char *text)
{
    int number = 0;
    if (*text == '\0')
        return -1;
    for (; *text != '\0'; text++) {
        if (*text < '0' || *text > '9' || number > 100000000)
            return -1;
        number = 10 * number + (*text - '0');
    }
    return number;
}
