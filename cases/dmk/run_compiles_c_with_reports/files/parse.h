/* The number that a text spells in decimal digits, or -1 where it spells none. */
int parse(const char *text);
