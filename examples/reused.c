#include <stdio.h>
int main(void) {
    int first = getchar();
    putchar(first);
    int second = getchar();
    putchar(second);
    return 0;
}
