#include <stdio.h>

int main(void)
{
    puts("prog");
    return 0;
}
