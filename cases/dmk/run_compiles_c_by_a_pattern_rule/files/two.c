#include "both.h"

int two(void)
{
    return 2;
}
