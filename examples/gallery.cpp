// Shows pictures. Those that are too small to be shown are loaded, and never freed.
#include <cstdio>

struct Picture {
    int width;
    unsigned char *pixels;
};

static Picture *load(int width)
{
    Picture *picture = new Picture;
    picture->width = width;
    picture->pixels = new unsigned char[width * width]();
    return picture;
}

static void forget(Picture *picture)
{
    delete[] picture->pixels;
    delete picture;
}

static bool show(int width)
{
    Picture *picture = load(width);
    if (picture->width < 64)
        return false;
    forget(picture);
    return true;
}

int main()
{
    int shown = 0;
    for (int number = 1; number <= 50; number++)
        shown += show(4 * number);
    std::printf("%d pictures shown\n", shown);
}
