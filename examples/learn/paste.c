#include <stdio.h>
void put_text(char *text) {
    for (; *text != 0; text++)
        putchar(*text);
}
void put_digits(unsigned n) {
    if (n > 9)
        put_digits(n / 10);
    putchar('0' + n % 10);
}
void put_number(int n) {
    if (n < 0)
        putchar('-');
    put_digits(n < 0 ? 0 - (unsigned)n : (unsigned)n);
}
/* The next number of the input; 0 where there is none. It takes the byte after the number too. */
int get_number(void) {
    int c = getchar();
    while (c == ' ' || c == '\n')
        c = getchar();
    int sign = c == '-' ? -1 : 1;
    if (c == '-')
        c = getchar();
    int n = 0;
    for (; c >= '0' && c <= '9'; c = getchar())
        n = 10 * n + sign * (c - '0');
    return n;
}
