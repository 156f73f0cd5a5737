int next[3] = {-1, 0, 1};
int reverse(int n) {
    int previous = -1;
    while (n != -1) {
        int after = next[n];
        next[n] = previous;
        previous = n;
        n = after;
    }
    return previous;
}
int main(void) {
    return reverse(2);
}
