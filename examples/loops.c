#include <stdio.h>

/* Counts the digits and the other characters of the input, and puts out as many stars as there were digits. */
int main(void) {
    int digits = 0, others = 0;
    int c = getchar();
    while (c != EOF) {
        if ('0' <= c && c <= '9')
            digits++;
        else
            others++;
        c = getchar();
    }
    for (int i = 0; i < digits; i++)
        putchar('*');
    int n = others;
    do {
        if (n % 2 == 1)
            break;
        n = n / 2;
    } while (n > 0);
    switch (n) {
    case 0:
        putchar('0');
    case 1:
        putchar('1');
        break;
    default:
        putchar('n');
    }
    return digits + others;
}
