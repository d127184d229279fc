// Nanoseconds a table and a row of Orocos KDL's trapezoidal profile, for the job 'one axis, long'
// of the benchmark: rest to rest over 185,900 units at speed limit 100 and acceleration limit 1,
// position, velocity and acceleration at 2,000 ticks, in floats. The profile is set anew for each
// table. Debian's package liborocos-kdl-dev has the library.
//
//     g++ -O3 kdl.cpp -o kdl -I/usr/include/eigen3 -lorocos-kdl && ./kdl
#include <kdl/velocityprofile_trap.hpp>

#include <cstdio>
#include <ctime>
#include <vector>

// The processor time of this thread, as in the benchmark.
static double now() {
    timespec time;
    clock_gettime(CLOCK_THREAD_CPUTIME_ID, &time);
    return time.tv_sec * 1e9 + time.tv_nsec;
}

int main() {
    const int last = 1999, tables = 20, batches = 200;
    std::vector<double> cells(3 * (last + 1));
    double least = 1e18;
    for (int batch = 0; batch < batches; batch++) {
        const double start = now();
        for (int table = 0; table < tables; table++) {
            KDL::VelocityProfile_Trap profile(100, 1);
            profile.SetProfile(0, 185900);
            const double tick = profile.Duration() / last;
            for (int k = 0; k <= last; k++) {
                cells[3 * k] = profile.Pos(k * tick);
                cells[3 * k + 1] = profile.Vel(k * tick);
                cells[3 * k + 2] = profile.Acc(k * tick);
            }
            asm volatile("" : : "r"(cells.data()) : "memory");
        }
        const double took = (now() - start) / tables;
        if (took < least) least = took;
    }
    std::printf("%.0f ns a table of %d rows, %.1f ns a row\n", least, last + 1, least / (last + 1));
}
