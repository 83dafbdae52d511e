#include "one.h"
#include "both.h"

int main(void)
{
    printf("%d\n", 1 + two());
    return 0;
}
