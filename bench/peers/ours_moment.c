/* The proved queue under a mutex, and a taking thread that keeps the moment that it read. */
#define MOMENT_KEPT
#include "ours.c"
