#include <stdio.h>
int main(void) {
    int x = 2;
    x = x + 3;
    putchar(60 + x);
    return x;
}
