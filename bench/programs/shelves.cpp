// A program whose frames are inlined, nameless outside it, templates, lambdas and those of a library that it opens: the one that
// its first argument names. All that it allocates in forget() leaks.
#include <cstdio>
#include <cstdlib>
#include <cstring>
#include <dlfcn.h>
#include <memory>
#include <string>
#include <vector>

namespace {
struct Shelf {
    std::vector<std::unique_ptr<char[]>> pages;
    inline __attribute__((always_inline)) void add(int bytes) { pages.emplace_back(new char[bytes]()); }
};

inline __attribute__((always_inline)) char *reserve(int bytes)
{
    return static_cast<char *>(malloc(bytes));
}

inline __attribute__((always_inline)) char *filled(int bytes)
{
    char *text = reserve(bytes);
    memset(text, bytes, bytes);
    return text;
}

__attribute__((noinline)) char *forget(int bytes)
{
    return filled(bytes + 1);
}

template <typename Value>
__attribute__((noinline)) size_t fill(int many)
{
    std::vector<Value> values;
    for (int number = 0; number < many; number++)
        values.push_back(Value(20 + number, 'a'));
    return values.size();
}
}

namespace library {
class Reader {
public:
    virtual ~Reader() = default;
    virtual std::string read(int volume) const;
};

std::string Reader::read(int volume) const
{
    auto line = [volume](const char *text) { return std::string(text) + std::to_string(volume); };
    return line("a line that is read from a volume of a long row ") + line("and another one, longer than its string ");
}
}

static size_t opened(const char *path)
{
    void *handle = dlopen(path, RTLD_NOW);
    if (!handle) {
        std::fprintf(stderr, "%s\n", dlerror());
        std::exit(1);
    }
    return reinterpret_cast<size_t (*)(int)>(dlsym(handle, "keep_all"))(40);
}

int main(int, char **arguments)
{
    size_t sum = opened(arguments[1]);
    Shelf shelf;
    for (int number = 1; number < 30; number++)
        shelf.add(number * 16);
    for (int number = 0; number < 8; number++)
        sum += forget(100 * number)[0];
    sum += fill<std::string>(20) + fill<std::vector<int>>(20);
    library::Reader reader;
    for (int number = 0; number < 10; number++)
        sum += reader.read(number).size();
    std::printf("%zu\n", sum);
}
