#include <stdio.h>
#include "parse.h"
int main(int argc, char **argv)
{
    int sum = 0;
    for (int i = 1; i < argc; i++) sum += parse(argv[i]);
    printf("%d\n", sum);
    return 0;
}
