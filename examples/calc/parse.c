#include <stdlib.h>
#include "ops.h"
#include "parse.h"
int parse(const char *text) { return strtol(text, NULL, BASE); }
