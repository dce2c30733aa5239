/* Prints, for each number from 1 to 20, how many Collatz steps lead from it to 1. */
int putchar(int c);

static void print_number(unsigned n) {
    unsigned place = 1;
    while (n / place >= 10)
        place *= 10;
    for (; place > 0; place /= 10)
        putchar((int)('0' + n / place % 10));
}

static unsigned steps_to_one(unsigned n) {
    unsigned steps = 0;
    while (n != 1) {
        n = n % 2 == 0 ? n / 2 : 3 * n + 1;
        steps++;
    }
    return steps;
}

int main(void) {
    for (unsigned n = 1; n <= 20; n++) {
        print_number(steps_to_one(n));
        putchar(n < 20 ? ' ' : '\n');
    }
    return 0;
}
