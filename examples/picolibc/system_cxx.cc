// What a C++ program wants beside picolibc, where there is no libstdc++.

#include <stdlib.h>

void *__dso_handle = nullptr;

extern "C" void __cxa_pure_virtual()
{
    abort();
}

void *operator new(size_t size)
{
    void *room = malloc(size > 0 ? size : 1);
    if (room == nullptr)
        abort();
    return room;
}

void *operator new[](size_t size)
{
    return operator new(size);
}

void operator delete(void *room) noexcept
{
    free(room);
}

void operator delete[](void *room) noexcept
{
    free(room);
}

void operator delete(void *room, size_t) noexcept
{
    free(room);
}

void operator delete[](void *room, size_t) noexcept
{
    free(room);
}
