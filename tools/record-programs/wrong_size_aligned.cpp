// Deletes an aligned block of 100 bytes as one of 300, and then one with its own size. @stops wrong size 192 320
#include <new>

static const std::align_val_t line = std::align_val_t(64);

int main()
{
    void *block = ::operator new(100, line); // @allocated
    ::operator delete(block, 300, line); // @here
    void *other = ::operator new(100, line);
    ::operator delete(other, 100, line);
    return 0;
}
