// Uses headers of C by both of their names, and the C++ library: containers, streams, exceptions, threads.
#include <assert.h>
#include <atomic>
#include <cassert>
#include <cerrno>
#include <cinttypes>
#include <climits>
#include <cmath>
#include <cstdint>
#include <cstdio>
#include <cstdlib>
#include <cstring>
#include <ctime>
#include <iostream>
#include <map>
#include <math.h>
#include <memory>
#include <stdexcept>
#include <stdint.h>
#include <stdio.h>
#include <stdlib.h>
#include <string.h>
#include <string>
#include <thread>
#include <vector>

namespace {

struct Told {
    explicit Told(std::string what) : what(std::move(what)) {}
    ~Told() { std::cout << what << " ended\n"; }
    std::string what;
};

const Told whole("the program");

void fail(int number)
{
    const auto told = std::make_unique<Told>("a function");

    if (number > 0)
        throw std::runtime_error("number " + std::to_string(number));
}

} // namespace

int main(int argc, char **)
{
    std::map<std::string, std::vector<int>> lists;
    std::string line;
    std::atomic<int> sum(0);

    assert(argc == 1);
    try {
        fail(7);
    } catch (const std::exception &caught) {
        std::cout << "caught " << caught.what() << "\n";
    }
    try {
        lists["empty"].at(3) = 1;
    } catch (const std::out_of_range &) {
        std::cout << "out of range\n";
    }
    std::thread([&sum] { sum += 42; }).join();
    std::cout << sum << " " << std::strlen("four") << " " << std::sqrt(16.0 * argc) << std::endl;
    while (std::getline(std::cin, line))
        std::cout << "read " << line << "\n";
    std::cout.flush();
    std::printf("%" PRId64 " %d\n", static_cast<std::int64_t>(-1), INT_MAX);
    return 3;
}
