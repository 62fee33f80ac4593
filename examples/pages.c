#include <stdlib.h>
#include <string.h>

static char *read_page(size_t size)
{
    char *page = malloc(size);
    memset(page, 1, size);
    return page;
}

static void use_scratch(void)
{
    volatile char *scratch = malloc(512);
    scratch[0] = 1;
    free((void *)scratch);
}

int main(void)
{
    char *pages[8];
    for (int i = 0; i < 8; i++)
        pages[i] = read_page(4096 * (i + 1));
    for (int i = 0; i < 20; i++)
        use_scratch();
    for (int i = 0; i < 7; i++)
        free(pages[i]);
    return 0;
}
