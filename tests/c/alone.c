// What the library asks of a firmware without a C library: memset, and nothing else (include/swellbinnacle.h).
void *memset(void *p, int v, __SIZE_TYPE__ n)
{
    unsigned char *q = p;
    while (n--) *q++ = (unsigned char)v;
    return p;
}

void _start(void) {}
