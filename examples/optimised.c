#include <stdio.h>
int main(void) {
    int y = getchar();
    int x = 0;
    int z = 0;
    x = y;
    z = x + 1;
    putchar(z);
    y = 7;
    putchar(y);
    return 0;
}
