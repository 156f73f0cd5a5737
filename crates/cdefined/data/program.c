int main(void) {
    int sum = 0;
    for (int n = 3; n >= 0; n--)
        sum += 12 / n;
    return sum;
}
