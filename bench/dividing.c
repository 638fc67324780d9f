/* The decoding evaluator with a pass that divides. */
#define DIVIDING
#include "decoded.c"
