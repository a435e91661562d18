/* The known functions of store_rows, made with the C package BuDDy (Debian: libbdd-dev).
 *
 * usage: buddy CASE NODES TIMES CACHE
 * It prints a line as store_rows does with these words: the microseconds that opening and making took, and the nodes that were made, with
 * the two constants. Every result is referenced and nothing is freed, so both packages keep the same nodes.
 */
#include <bdd.h>
#include <stdio.h>
#include <stdlib.h>
#include <string.h>
#include <time.h>

static double now(void)
{
    struct timespec t;
    clock_gettime(CLOCK_MONOTONIC, &t);
    return t.tv_sec * 1e6 + t.tv_nsec * 1e-3;
}

static BDD and_(BDD f, BDD g) { return bdd_addref(bdd_and(f, g)); }
static BDD or_(BDD f, BDD g) { return bdd_addref(bdd_or(f, g)); }
static BDD xor_(BDD f, BDD g) { return bdd_addref(bdd_xor(f, g)); }
static BDD not_(BDD f) { return bdd_addref(bdd_not(f)); }
static BDD bit(int var) { return bdd_ithvar(var); }

static BDD and_or(int step, int apart)
{
    BDD sum = bddfalse;
    for (int i = 0; i < 17; i++)
        sum = or_(sum, and_(bit(i * step), bit(i * step + apart)));
    return sum;
}

static int attacks(int one, int other)
{
    int rows = abs(one / 8 - other / 8), columns = abs(one % 8 - other % 8);
    return one != other && (rows == 0 || columns == 0 || rows == columns);
}

static BDD queens(void)
{
    BDD all = bddtrue;
    for (int row = 0; row < 8; row++) {
        BDD some = bddfalse;
        for (int column = 0; column < 8; column++)
            some = or_(some, bit(row * 8 + column));
        all = and_(all, some);
    }
    for (int one = 0; one < 64; one++) {
        BDD alone = bddtrue;
        for (int other = 0; other < 64; other++)
            if (attacks(one, other))
                alone = and_(alone, or_(not_(bit(one)), not_(bit(other))));
        all = and_(all, alone);
    }
    return all;
}

static BDD add(BDD x, BDD y, BDD *carry)
{
    BDD half = xor_(x, y), sum = xor_(half, *carry);
    *carry = or_(and_(x, y), and_(half, *carry));
    return sum;
}

static BDD multiplier(void)
{
    BDD sums[20] = {0};
    for (int i = 0; i < 10; i++) {
        BDD carry = bddfalse;
        for (int j = 0; j < 10; j++)
            sums[i + j] = add(sums[i + j], and_(bit(2 * i), bit(2 * j + 1)), &carry);
        sums[i + 10] = carry;
    }
    return sums[9];
}

static BDD adder(void)
{
    BDD carry = bddfalse;
    for (int i = 0; i < 32; i++)
        add(bit(2 * i), bit(2 * i + 1), &carry);
    return carry;
}

static BDD nor(void)
{
    BDD sum = bddfalse;
    for (int i = 0; i < 200; i++)
        sum = or_(sum, bit(i));
    return not_(sum);
}

static BDD parity(void)
{
    BDD odd = bddfalse;
    for (int i = 0; i < 1000; i++)
        odd = xor_(odd, bit(i));
    return odd;
}

static BDD row(int devices)
{
    static BDD words[1001];
    words[0] = bddtrue;
    for (int i = 1; i <= devices; i++)
        words[i] = bddfalse;
    for (int round = 0; round < devices; round++)
        for (int i = devices; i > 0; i--)
            words[i] = or_(words[i], and_(bit(i - 1), words[i - 1]));
    return words[devices];
}

static BDD make(const char *name)
{
    if (!strcmp(name, "andor-bad"))
        return and_or(1, 17);
    if (!strcmp(name, "andor-good"))
        return and_or(2, 1);
    if (!strcmp(name, "queens"))
        return queens();
    if (!strcmp(name, "multiplier"))
        return multiplier();
    if (!strcmp(name, "adder"))
        return adder();
    if (!strcmp(name, "nor"))
        return nor();
    if (!strcmp(name, "row-400"))
        return row(400);
    if (!strcmp(name, "row-1000"))
        return row(1000);
    return parity();
}

int main(int count, char **words)
{
    if (count < 5)
        return 2;
    int times = atoi(words[3]);
    double start = now();
    bdd_init(atoi(words[2]), atoi(words[4]));
    bdd_setvarnum(1000);
    bdd_gbc_hook(0);
    double opened = now();
    for (int i = 0; i < times; i++)
        make(words[1]);
    double made = now();
    bddStat stat;
    bdd_stats(&stat);
    printf("%s open %.0f made %.0f count %ld\n", words[1], opened - start, made - opened, (long)stat.produced + 2);
    return 0;
}
