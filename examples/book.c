// A book of amounts whose sum never falls below 0.
#include <stdint.h>

struct Entry { int64_t amount; struct Entry *next; };
struct Book { int64_t sum, count; struct Entry *first; };
persistent struct Book root;

int64_t allowed(int64_t amount) {
    return amount != 0 && root.sum + amount >= 0;
}

// Gives the new sum, -1 where the amount isn't allowed, or -2 where no slot is free.
tx int64_t enter(int64_t amount) {
    if (!allowed(amount)) { return -1; }
    struct Entry *entry = pm_new(struct Entry);
    if (entry == NULL) { return -2; }
    entry->amount = amount;
    entry->next = root.first;
    root.first = entry;
    root.sum += amount;
    root.count++;
    return root.sum;
}

// Gives the number of entries, and ends the pool where the sum or the count isn't theirs.
tx int64_t check() {
    int64_t sum = 0;
    int64_t count = 0;
    for (struct Entry *entry = root.first; entry != NULL; entry = entry->next) {
        sum += entry->amount;
        count++;
    }
    if (sum != root.sum || count != root.count) { abort(); }
    return count;
}
