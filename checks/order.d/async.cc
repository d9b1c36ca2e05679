// Four tasks of std::async that take work from one another, and tell how much each had.
#include <atomic>
#include <cstdio>
#include <future>
#include <vector>

static std::atomic<int> taken;

static long work(int size) {
    long done = 0;
    for (int i; (i = taken++) < 400; done++)
        for (volatile int j = 0; j < size * 20; j++) {}
    return done;
}

int main() {
    std::vector<std::future<long>> all;
    for (int i = 1; i <= 4; i++) all.push_back(std::async(std::launch::async, work, i));
    for (auto &one : all) std::printf("%ld\n", one.get());
}
