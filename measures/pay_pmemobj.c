/* The payments of pay.c on libpmemobj. It makes a pool of the given size in the given file, reads
   the `call` lines of a script from its input, runs each as one transaction, and writes each value,
   or `aborted`, on a line. A `pay` moves first and tests last: where the giver has too little, the
   library's transaction is aborted, which puts its undo records back. A `give` tests first. */
#include <errno.h>
#include <libpmemobj.h>
#include <stdint.h>
#include <stdio.h>
#include <stdlib.h>
#include <string.h>

struct bank {
    int64_t paid, last[3], balance[64];
};

static PMEMobjpool *pool;
static struct bank *bank;

static void fail(const char *what) {
    fprintf(stderr, "%s: %s\n", what, pmemobj_errormsg());
    exit(1);
}

static void keep(int64_t *words, size_t count) {
    pmemobj_tx_add_range_direct(words, count * sizeof *words);
}

static int64_t move(int64_t from, int64_t to, int64_t amount) {
    keep(&bank->balance[from], 1);
    bank->balance[from] -= amount;
    keep(&bank->balance[to], 1);
    bank->balance[to] += amount;
    keep(&bank->paid, 4);
    bank->paid += amount;
    bank->last[0] = from;
    bank->last[1] = to;
    bank->last[2] = amount;
    return bank->balance[from];
}

static int pay(int64_t from, int64_t to, int64_t amount, int64_t *value) {
    int done = 0;
    TX_BEGIN(pool) {
        *value = move(from, to, amount);
        if (*value < 0) pmemobj_tx_abort(ECANCELED);
    } TX_ONCOMMIT { done = 1; } TX_END
    return done;
}

static int64_t give(int64_t from, int64_t to, int64_t amount) {
    int64_t value = -1;
    if (bank->balance[from] < amount) return value;
    TX_BEGIN(pool) { value = move(from, to, amount); } TX_ONABORT { fail("give"); } TX_END
    return value;
}

static int64_t fill(int64_t amount) {
    TX_BEGIN(pool) {
        keep(bank->balance, 64);
        for (int i = 0; i < 64; i++) bank->balance[i] = amount;
    } TX_ONABORT { fail("fill"); } TX_END
    return amount;
}

int main(int count, char **words) {
    if (count != 3) return fprintf(stderr, "usage: pay_pmemobj FILE MEGABYTES\n"), 2;
    pool = pmemobj_create(words[1], "pay", (size_t)atoi(words[2]) << 20, 0600);
    if (!pool) fail(words[1]);
    bank = pmemobj_direct(pmemobj_root(pool, sizeof *bank));
    if (!bank) fail("root");
    char line[128], name[16];
    while (fgets(line, sizeof line, stdin)) {
        long long from = 0, to = 0, amount = 0;
        int64_t value = 0;
        if (sscanf(line, "call %15s %lld %lld %lld", name, &from, &to, &amount) < 2) continue;
        int done = 1;
        if (!strcmp(name, "pay")) done = pay(from, to, amount, &value);
        else value = !strcmp(name, "give") ? give(from, to, amount) : fill(from);
        if (done) printf("= %lld\n", (long long)value);
        else puts("aborted");
    }
    pmemobj_close(pool);
    return 0;
}
