// Criticals in templates, around exceptions that are caught inside, and around objects with destructors.
#include <cstdio>
#include <cstdlib>
#include <omp.h>
#include <stdexcept>
#include <string>

static unsigned alive;

struct guest {
    guest() { alive++; }
    ~guest() { alive--; }
};

template <class T> struct table {
    T sum = 0;
    unsigned thrown = 0;

    void seat(T by)
    {
        #pragma omp critical(seat)
        {
            guest here;
            try {
                if (by % 3 == 0)
                    throw std::runtime_error(std::to_string(by));
                sum = sum * 31 + by;
            } catch (const std::exception &told) {
                thrown += std::string(told.what()).size();
            }
        }
    }
};

template <class T> static void play(table<T> &at, T rounds)
{
    for (T round = 0; round < rounds; round++) {
        #pragma omp single
        at.seat(round);
        #pragma omp master
        [&] { at.seat(round + 7); }();
        #pragma omp barrier
    }
}

int main(int count, char **words)
{
    int team = count > 1 ? std::atoi(words[1]) : 4;
    table<unsigned> small;
    table<unsigned long> large;
    omp_set_dynamic(0);
    #pragma omp parallel num_threads(team)
    {
        play(small, 50u);
        play(large, 60ul);
    }
    std::printf("%u %u %lu %u %u\n", small.sum, small.thrown, large.sum, large.thrown, alive);
    return 0;
}
