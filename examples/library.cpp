// A program with a leak, a peak and a function that allocates for a moment only. With -DRETURNED it doesn't leak.
#include <cstdio>
#include <string>
#include <vector>

struct Book {
    std::string title;
    char *pages;
};

static Book *borrow(int number)
{
    Book *book = new Book;
    book->title = "the collected letters, volume " + std::to_string(number);
    book->pages = new char[4096]();
    return book;
}

static void give_back(Book *book)
{
#ifdef RETURNED
    delete[] book->pages;
#endif
    delete book;
}

static size_t label(int number)
{
    std::string text = "a label that is too long for the string itself, number " + std::to_string(number);
    return text.size();
}

static size_t catalogue(int entries)
{
    std::vector<std::string> lines;
    for (int number = 0; number < entries; number++)
        lines.push_back("an entry of the catalogue about book " + std::to_string(number));
    return lines.size();
}

int main()
{
    size_t sum = catalogue(1000);
    for (int number = 0; number < 16; number++)
        give_back(borrow(number));
    for (int number = 0; number < 200; number++)
        sum += label(number);
    std::printf("%zu\n", sum);
}
