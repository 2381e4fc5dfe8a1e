// Gives aligned objects and arrays back with their own sizes, throws, and has a small signal stack; nothing is wrong.
#include <csignal>
#include <cstdlib>
#include <new>
#include <stdexcept>
#include <string>
#include <vector>

struct alignas(64) Line {
    char bytes[192];
};

static volatile std::sig_atomic_t came;

static void handle(int)
{
    came = came + 1;
}

static int thrown(int turn)
{
    try {
        if (turn % 3 == 0)
            throw std::runtime_error(std::string(turn % 200, 'x'));
    } catch (const std::exception &) {
        return 1;
    }
    return 0;
}

// Sizes that are no multiple of the alignment, for which the C++ library may ask for the next one.
static void give_rounded(std::size_t size, std::align_val_t align)
{
    void *block = ::operator new(size, align);
    ::operator delete(block, size, align);
}

static void give_objects()
{
    for (int turn = 0; turn < 1000; turn++) {
        delete new Line;
        delete[] new Line[3];
        delete new std::string(100, 'a');
        std::vector<Line> lines(turn % 5);
        thrown(turn);
        give_rounded(turn % 300, std::align_val_t(8 << turn % 10));
    }
    give_rounded(200000, std::align_val_t(4096));
}

int main()
{
    stack_t small = {};
    small.ss_size = 16384;
    small.ss_sp = std::malloc(small.ss_size);
    sigaltstack(&small, nullptr);
    struct sigaction action = {};
    action.sa_handler = handle;
    action.sa_flags = SA_ONSTACK;
    sigaction(SIGUSR1, &action, nullptr);
    for (int turn = 0; turn < 100; turn++)
        raise(SIGUSR1);
    give_objects();
    small.ss_flags = SS_DISABLE;
    sigaltstack(&small, nullptr);
    std::free(small.ss_sp);
    return came == 100 ? 0 : 1;
}
