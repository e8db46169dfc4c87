// A list of numbers that is sorted in place by recursion: nodes are linked anew, none is copied.
#include <stdint.h>

struct Item {
    int64_t value;
    int64_t order;
    struct Item *next;
};

struct List {
    struct Item *first;
    int64_t length;
    int64_t given;
};

persistent struct List root;

tx int64_t add(int64_t value) {
    struct Item *item = pm_new(struct Item);
    if (item == NULL) {
        return -1;
    }
    item->value = value;
    item->order = root.given;
    item->next = root.first;
    root.first = item;
    root.given += 1;
    root.length += 1;
    return root.length;
}

// An item stands before another by its value, and by its order where the values are the same.
int64_t before(struct Item *a, struct Item *b) {
    return a->value < b->value || (a->value == b->value && a->order < b->order);
}

struct Item *merge(struct Item *a, struct Item *b) {
    if (a == NULL) {
        return b;
    }
    if (b == NULL) {
        return a;
    }
    struct Item *first = NULL;
    if (before(a, b)) {
        first = a;
        a = a->next;
    } else {
        first = b;
        b = b->next;
    }
    struct Item *last = first;
    while (a != NULL && b != NULL) {
        if (before(a, b)) {
            last->next = a;
            a = a->next;
        } else {
            last->next = b;
            b = b->next;
        }
        last = last->next;
    }
    if (a == NULL) {
        last->next = b;
    } else {
        last->next = a;
    }
    return first;
}

// Cuts a list after its first n items, and gives the rest.
struct Item *cut(struct Item *list, int64_t n) {
    for (int64_t i = 1; i < n; i++) {
        list = list->next;
    }
    struct Item *rest = list->next;
    list->next = NULL;
    return rest;
}

struct Item *sorted(struct Item *list, int64_t n) {
    if (n < 2) {
        return list;
    }
    int64_t half = n / 2;
    struct Item *rest = cut(list, half);
    return merge(sorted(list, half), sorted(rest, n - half));
}

tx int64_t sort() {
    root.first = sorted(root.first, root.length);
    return root.length;
}

tx int64_t at(int64_t i) {
    struct Item *item = root.first;
    for (; i > 0 && item != NULL; i--) {
        item = item->next;
    }
    if (item == NULL) {
        return -1;
    }
    return item->value;
}

// Gives 1 where no item stands before the one in front of it, else 0.
tx int64_t check() {
    int64_t n = 0;
    for (struct Item *item = root.first; item != NULL; item = item->next) {
        n++;
        if (item->next != NULL && before(item->next, item)) {
            return 0;
        }
    }
    return n == root.length;
}

tx int64_t clear() {
    int64_t n = 0;
    while (root.first != NULL) {
        struct Item *item = root.first;
        root.first = item->next;
        pm_free(item);
        n++;
    }
    root.length = 0;
    return n;
}

// The last number of a list that mustn't be empty.
tx int64_t last() {
    struct Item *item = root.first;
    while (item->next != NULL) {
        item = item->next;
    }
    return item->value;
}
