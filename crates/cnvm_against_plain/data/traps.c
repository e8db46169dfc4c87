// Every trap of the source, most after stores that it leaves in the pool, and long argument lists.
#include <stdint.h>

struct Box {
    int64_t value;
    int64_t room[4];
    struct Box *next;
};

struct Other {
    int64_t value;
};

struct Shelf {
    struct Box *first;
    struct Other *other;
    int64_t count;
    int64_t at[4];
};

persistent struct Shelf root;

struct Box *add(int64_t value) {
    struct Box *box = pm_new(struct Box);
    if (box != NULL) {
        box->value = value;
        box->next = root.first;
        root.first = box;
        root.count += 1;
    }
    return box;
}

void take(struct Box *box) {
    root.first = box->next;
    root.count -= 1;
    pm_free(box);
}

tx int64_t push(int64_t value) { return add(value) != NULL; }

// Null, where there is no box.
tx int64_t pop() {
    int64_t value = root.first->value;
    take(root.first);
    return value;
}

// Null after a store.
tx int64_t follow(int64_t value) {
    struct Box *box = add(value);
    box->next->value += value;
    box->next->next->value += value;
    return root.count;
}

// Stale, since the box is freed.
tx int64_t late(int64_t value) {
    struct Box *box = add(value);
    take(box);
    box->value = value;
    return value;
}

// Stale, since the slot holds another struct.
tx int64_t exchanged(int64_t value) {
    struct Box *box = add(value);
    take(box);
    root.other = pm_new(struct Other);
    root.other->value = value;
    return box->value;
}

// Stale, since it is freed already.
tx int64_t freed_twice() {
    struct Box *box = root.first;
    take(box);
    pm_free(box);
    return root.count;
}

// Index, outside 0 to 3.
tx int64_t put(int64_t i, int64_t value) {
    root.count += 1;
    root.at[i] = value;
    root.first->room[i + 1] += value;
    return root.count;
}

// Divide, among nobody.
tx int64_t share(int64_t among) {
    int64_t sum = 0;
    for (struct Box *box = root.first; box != NULL; box = box->next) {
        sum += box->value;
        box->value = 0;
    }
    root.count += sum / among;
    return sum % among;
}

// Steps, where it turns too often.
tx int64_t turn(int64_t n) {
    root.at[0] += 1;
    for (int64_t i = 0; i < n; i++) {
    }
    root.at[1] = n;
    return root.at[0];
}

// Abort, where the count is another.
tx int64_t insist(int64_t count) {
    root.at[3] += 1;
    root.at[3] += 1;
    if (root.count != count) {
        abort();
    }
    return root.at[3];
}

int64_t sum_to(int64_t n) {
    if (n == 0) {
        return 0;
    }
    return n + sum_to(n - 1);
}

// Depth, from 255 on.
tx int64_t deep(int64_t n) {
    root.count += 1;
    root.count += sum_to(n);
    return root.count;
}

tx int64_t eight(int64_t a, int64_t b, int64_t c, int64_t d, int64_t e, int64_t f, int64_t g, int64_t h) {
    root.at[2] += a - b + c - d + e - f + g - h;
    return root.at[2];
}

tx int64_t many(int64_t a, int64_t b, int64_t c, int64_t d, int64_t e, int64_t f, int64_t g, int64_t h, int64_t i,
                int64_t j, int64_t k, int64_t l, int64_t m, int64_t n, int64_t o, int64_t p, int64_t q, int64_t r,
                int64_t s, int64_t t, int64_t u, int64_t v) {
    root.at[2] = root.at[2] * 2 + a + b + c + d + e + f + g + h + i + j + k;
    root.at[2] += l + m + n + o + p + q + r + s + t + u + v;
    return root.at[2];
}
