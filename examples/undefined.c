#include <stdio.h>

/* The sum in line 7 is greater than any int. C says nothing of what a program does from there on, and nothing is promised of it. */
int main(void) {
    int x = 2147483647;
    int y = 1;
    x = x + y;
    putchar('?');
    return x < 0;
}
