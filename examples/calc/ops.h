#define BASE 10
