/* A clock that never goes back. */
#include "loader.h"

int64_t clock_us(void) {
    struct timespec now;
    clock_gettime(CLOCK_MONOTONIC, &now);
    return now.tv_sec * INT64_C(1000000) + now.tv_nsec / 1000;
}

void clock_until(int64_t us) {
    struct timespec then = {us / 1000000, us % 1000000 * 1000};
    while (clock_nanosleep(CLOCK_MONOTONIC, TIMER_ABSTIME, &then, NULL) == EINTR) continue;
}

int64_t clock_later(int64_t a, int64_t b) {
    return a < b ? b : a;
}
