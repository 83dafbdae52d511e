#include "parse.h"

#include <stdio.h>

int main(int count, char **words)
{
    int sum = 0;
    for (int i = 1; i < count; i++) {
        int number = parse(words[i]);
        if (number < 0)
            return 2;
        sum += number;
    }
    printf("hello, %d\n", sum);
    return 0;
}
