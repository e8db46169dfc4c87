// Transactions that roll back where they trap: every trap of the source after stores, in called functions too, and
// after objects were made and freed.
#include <stdint.h>

struct Part {
    int64_t value;
    int64_t room[3];
    struct Part *next;
};

struct Other {
    int64_t value;
};

struct Store {
    struct Part *first;
    struct Other *other;
    int64_t parts;
    int64_t sum;
    int64_t at[4];
};

persistent struct Store root;

// Null, where no slot is free.
struct Part *add(int64_t value) {
    struct Part *part = pm_new(struct Part);
    part->value = value;
    part->next = root.first;
    root.first = part;
    root.parts++;
    root.sum += value;
    return part;
}

// Null, where there is no part.
void drop() {
    struct Part *part = root.first;
    root.first = part->next;
    root.parts--;
    root.sum -= part->value;
    pm_free(part);
}

void insist() {
    if (root.sum < 0) {
        abort();
    }
}

// Abort in a called function, after an object was made.
tx abort int64_t put(int64_t value) {
    add(value);
    insist();
    return root.sum;
}

tx abort int64_t fill(int64_t n) {
    for (int64_t i = 0; i < n; i++) {
        add(i);
    }
    return root.parts;
}

// Null after parts were freed, where there are fewer.
tx abort int64_t take(int64_t n) {
    for (int64_t i = 0; i < n; i++) {
        drop();
    }
    return root.parts;
}

// Abort after a slot was freed and taken again.
tx abort int64_t exchange(int64_t value) {
    drop();
    struct Part *part = add(value);
    part->room[value & 1] += value;
    add(part->room[1]);
    insist();
    return root.sum;
}

// Stale, since the slot holds another struct.
tx abort int64_t late(int64_t value) {
    struct Part *part = add(value);
    drop();
    root.other = pm_new(struct Other);
    root.other->value = value;
    part->value = value;
    return value;
}

// Index, after the same words were stored several times.
tx abort int64_t spread(int64_t from, int64_t n) {
    for (int64_t i = from; i < from + n; i++) {
        root.at[i] += n;
        root.at[i + 1] -= n;
    }
    return root.at[from];
}

// Divide after two stores, of which the first is read.
tx abort int64_t share(int64_t among) {
    root.at[3] = root.sum;
    root.sum -= root.at[3];
    root.at[2] = root.at[3] / among;
    return root.at[2];
}

// Steps, where it turns too often.
tx abort int64_t turn(int64_t n) {
    root.at[0] += 1;
    for (int64_t i = 0; i < n; i++) {
    }
    root.at[1] = n;
    return root.at[0];
}

int64_t sum_to(int64_t n) {
    if (n == 0) {
        return 0;
    }
    return n + sum_to(n - 1);
}

// Depth, from 255 on.
tx abort int64_t deep(int64_t n) {
    root.at[1] = 1;
    root.at[1] = sum_to(n);
    return root.at[1];
}

// Abort without a store.
tx abort int64_t quit() {
    abort();
    return 0;
}

// The same without the mark.
tx int64_t plain(int64_t value) {
    add(value);
    insist();
    return root.sum;
}

tx abort int64_t eight(int64_t a, int64_t b, int64_t c, int64_t d, int64_t e, int64_t f, int64_t g, int64_t h) {
    root.at[2] = a - b + c - d + e - f + g - h;
    root.other->value = h;
    return root.at[2];
}
