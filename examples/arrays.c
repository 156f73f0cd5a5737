#include <stdio.h>

short table[6] = {40, 10, 30, 20};

/* Sorts the elements from first up to behind, by exchanging neighbours. */
void sort(short *first, short *behind) {
    for (short *end = behind; end - first > 1; end--)
        for (short *p = first; p + 1 < end; p++)
            if (p[0] > p[1]) {
                short kept = *p;
                *p = p[1];
                p[1] = kept;
            }
}

int main(void) {
    int lengths[2] = {3, 4};
    int *length = &lengths[1];
    unsigned char *none = 0;
    sort(table, table + *length);
    length--;
    return table[0] + table[*length] + (none == 0);
}
