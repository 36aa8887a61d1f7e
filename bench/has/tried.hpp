// What a program of this folder tells: a line for each thing that was tried. The first that isn't so ends it.
#pragma once
#include <cstdio>
#include <cstdlib>

inline void tried(const char *what, bool is_so) {
    printf("%s: %s\n", is_so ? "so" : "NOT SO", what);
    if (!is_so) exit(1);
}
