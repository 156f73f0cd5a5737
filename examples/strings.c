#include <stdio.h>

char greeting[] = "Moin";
char *names[2] = {"Ada", "Emmy"};

void put(char *text) {
    while (*text)
        putchar(*text++);
}

int main(void) {
    char line[8] = "\t\"hi\"\n";
    put(greeting);
    for (int i = 0; i < 2; i++) {
        put(", ");
        put(names[i]);
    }
    put(line);
    return sizeof greeting;
}
