/* What has to hold for a figure to mean anything: if it does not, the benchmark ends. */
#pragma once

#include <cstdint>
#include <cstdio>
#include <cstdlib>

[[noreturn]] inline void stop(const char *what) {
    std::fprintf(stderr, "bench: FAILED: %s\n", what);
    std::exit(1);
}

/* A call was accepted. */
inline void must(uint32_t code) {
    if (code != 0)
        stop("a call was refused");
}
