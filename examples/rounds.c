#include <stdio.h>
int scale(int value, int by) {
    int result = value * by;
    return result + 1;
}
int main(void) {
    int n = getchar();
    int total = 0;
    int last = n;
    int i = 0;
    while (i < 3) {
        int wide = n * 2;
        last = wide;
        total = total + scale(wide, i);
        i = i + 1;
    }
    last = total;
    putchar(65 + total % 26);
    unsigned char small = 300;
    return small;
}
