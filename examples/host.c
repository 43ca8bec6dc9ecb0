// Rifflerleek in a C program: does an index that is partly unknown stay inside its array?
//   cc -I include examples/host.c target/staticlib/librifflerleek.a
#include "table.h"

static const char text[] = "edition\t3\n"
                           "row\tlocked\t0000XXXX\n" // 0: index, 0 to 15
                           "row\tlocked\t01000000\n" // 1: start of the array
                           "row\tlocked\t10000000\n" // 2: its end
                           "row\topen\t00000000\n"   // 3: address
                           "row\topen\t0\n"          // 4: inside
                           "op\tshl\t3\t0\t0\t2\t0\n"
                           "op\tadd\t3\t3\t1\t0\t0\n"
                           "op\tult\t4\t3\t2\t0\t0\n";

static void run(void)
{
    if (run_all())
        print();
}

static void count(size_t row)
{
    rifflerleek_answer a = rifflerleek_count(width, rows, lock, rows, mask, rows, value, rows, row);
    if (!refused("count", a.refusal, a.place))
        printf("row %zu: %zu unknown bits, %llu numbers\n", row, a.result, (unsigned long long)a.second_result);
}

// The product of two bare vectors of width 4, bit by bit: this needs no table.
static void product(void)
{
    char letters[] = "????";
    for (uint32_t bit = 0; bit < 4; bit++) {
        rifflerleek_answer a = rifflerleek_product_bit(4, 0, 3, 2, 1, bit);
        if (refused("product_bit", a.refusal, a.place))
            return;
        letters[3 - bit] = a.result == RIFFLERLEEK_UNKNOWN_BIT ? 'X' : a.result == 1 ? '1' : '0';
    }
    printf("0011 times 00X1: %s\n", letters);
}

// Why a bit of a sum of two bare vectors of width 3 is X: two plain sums that differ in it.
static void explain(void)
{
    rifflerleek_four_numbers n = rifflerleek_witnesses(RIFFLERLEEK_KIND_ADD, 3, 2, 0, 0, 3, 2);
    if (!refused("witnesses", n.refusal, n.place))
        printf("bit 2 of 0X0 + 011: 0 from %u + %u, 1 from %u + %u\n", n.first, n.second, n.third, n.fourth);
}

// A fader's converter of width 8 delivers counts between 37 and 47, and its lowest bit is 0: what is known of the count?
static void fader(void)
{
    rifflerleek_four_numbers n = rifflerleek_range(8, 0xfe, 0, 37, 47);
    if (!refused("range", n.refusal, n.place))
        printf("XXXXXXX0 between 37 and 47: mask %02x, value %02x, smallest %u, largest %u\n", n.first, n.second, n.third, n.fourth);
}

static const char reset[] = "edition\t3\n"
                            "row\topen\t00010000\n"   // 0: base, at reset
                            "row\topen\t00000001\n"   // 1: index, at reset
                            "row\tlocked\t00000100\n" // 2: stride, a constant
                            "row\topen\t00000000\n"   // 3: address
                            "op\tmul\t3\t1\t2\t0\t0\n"
                            "op\tadd\t3\t0\t3\t0\t0\n";

// Which resets of base and index the top bit of the address needs: the others become X.
static void resets(void)
{
    rifflerleek_answer a = rifflerleek_reset_bits(width, rows, lock, rows, mask, rows, value, rows, words, WORDS * records, 3, 7);
    if (refused("reset_bits", a.refusal, a.place))
        return;
    printf("bit 7 of row 3 is %zu by these start bits:\n", a.result);
    print();
}

int main(void)
{
    if (!load(text))
        return 1;
    run(); // row 4 is 1: every index that row 0 covers stays inside
    count(3);

    mask[0] = 0xff; // an index that is wholly unknown
    value[0] = 0;
    run(); // row 4 is X: some stay inside, some do not
    count(4);

    words[WORDS * 1 + 1] = 1; // add, into the locked row 1
    run();

    if (load("edition\t3\nrow\topen\t0X\nop\tadd\t0\t0\t00\t0\t0\n")) // 0 is written with one digit
        return 1;

    product(); // 3 or 9
    explain(); // 3 or 5
    fader();   // 0010XXX0

    if (!load(reset))
        return 1;
    resets(); // 00XXXXXX and XX00XXXX: four resets of twenty-four
    return 0;
}
