// Deletes a block of 100 bytes as one of 200, and then one with its own size. @stops wrong size 112 224
#include <new>

int main()
{
    void *block = ::operator new(100); // @allocated
    ::operator delete(block, std::size_t(200)); // @here
    void *other = ::operator new(100);
    ::operator delete(other, std::size_t(100));
    return 0;
}
