// A store of numbers under keys of 24 bytes, each key as three words.
#include <stdint.h>

enum { BUCKETS = 256 };

struct Pair {
    int64_t a;
    int64_t b;
    int64_t c;
    int64_t value;
    struct Pair *next;
};

struct Store {
    int64_t count;
    struct Pair *bucket[BUCKETS];
};

persistent struct Store root;

int64_t place(int64_t a, int64_t b, int64_t c) {
    int64_t mixed = (a * 31 + b) * 31 + c;
    mixed *= 2654435761;
    return (mixed ^ (mixed >> 29)) & (BUCKETS - 1);
}

struct Pair *find(int64_t a, int64_t b, int64_t c) {
    struct Pair *pair = root.bucket[place(a, b, c)];
    while (pair != NULL && (pair->a != a || pair->b != b || pair->c != c)) {
        pair = pair->next;
    }
    return pair;
}

// Gives a key its value. It is rolled back where no slot is free.
tx abort int64_t put(int64_t a, int64_t b, int64_t c, int64_t value) {
    struct Pair *pair = find(a, b, c);
    if (pair == NULL) {
        pair = pm_new(struct Pair);
        pair->a = a;
        pair->b = b;
        pair->c = c;
        pair->next = root.bucket[place(a, b, c)];
        root.bucket[place(a, b, c)] = pair;
        root.count += 1;
    }
    pair->value = value;
    return value;
}

// Gives the key's value, or traps where there is none. It only looks, so nothing is lost then.
tx const int64_t get(int64_t a, int64_t b, int64_t c) {
    return find(a, b, c)->value;
}

// Gives 1 where the key was there, else 0.
tx int64_t del(int64_t a, int64_t b, int64_t c) {
    int64_t at = place(a, b, c);
    struct Pair *before = NULL;
    struct Pair *pair = root.bucket[at];
    while (pair != NULL && (pair->a != a || pair->b != b || pair->c != c)) {
        before = pair;
        pair = pair->next;
    }
    if (pair == NULL) {
        return 0;
    }
    if (before == NULL) {
        root.bucket[at] = pair->next;
    } else {
        before->next = pair->next;
    }
    pm_free(pair);
    root.count -= 1;
    return 1;
}

// Moves an amount between two keys. It is rolled back where one isn't there, or the first has too
// little.
tx abort int64_t move(int64_t a, int64_t b, int64_t c, int64_t d, int64_t e, int64_t f,
                      int64_t amount) {
    struct Pair *giver = find(a, b, c);
    struct Pair *taker = find(d, e, f);
    giver->value -= amount;
    if (amount < 0 || giver->value < 0) {
        abort();
    }
    taker->value += amount;
    return giver->value;
}

tx const int64_t count() {
    return root.count;
}
