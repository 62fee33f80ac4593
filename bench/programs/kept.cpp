// The library that shelves.cpp opens. It keeps what it allocates to its end.
#include <string>
#include <vector>

namespace {
std::vector<std::string> *kept;

inline __attribute__((always_inline)) void keep(int number)
{
    kept->push_back("what the library keeps to its end, number " + std::to_string(number));
}
}

extern "C" size_t keep_all(int many)
{
    kept = new std::vector<std::string>;
    for (int number = 0; number < many; number++)
        keep(number);
    return kept->size();
}
