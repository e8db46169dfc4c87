// A hash map from numbers to numbers with 64 buckets of linked nodes.
#include <stdint.h>

struct Node {
    int64_t key;
    int64_t value;
    struct Node *next;
};

struct Map {
    int64_t size;
    int64_t version;
    struct Node *bucket[64];
};

persistent struct Map root;

int64_t place(int64_t key) {
    int64_t mixed = key * 2654435761;
    return (mixed ^ (mixed >> 29)) & 63;
}

struct Node *find(int64_t key) {
    struct Node *node = root.bucket[place(key)];
    while (node != NULL && node->key != key) {
        node = node->next;
    }
    return node;
}

// Gives the value that the key had, 0 where it is new, or -1 where no slot is free.
tx int64_t put(int64_t key, int64_t value) {
    struct Node *node = find(key);
    if (node != NULL) {
        int64_t old = node->value;
        node->value = value;
        root.version += 1;
        return old;
    }
    node = pm_new(struct Node);
    if (node == NULL) {
        return -1;
    }
    int64_t b = place(key);
    node->key = key;
    node->value = value;
    node->next = root.bucket[b];
    root.bucket[b] = node;
    root.size += 1;
    root.version += 1;
    return 0;
}

tx int64_t get(int64_t key) {
    struct Node *node = find(key);
    if (node == NULL) {
        return -1;
    }
    return node->value;
}

// Gives 1 where the key was there, else 0.
tx int64_t del(int64_t key) {
    int64_t b = place(key);
    struct Node *before = NULL;
    struct Node *node = root.bucket[b];
    while (node != NULL && node->key != key) {
        before = node;
        node = node->next;
    }
    if (node == NULL) {
        return 0;
    }
    if (before == NULL) {
        root.bucket[b] = node->next;
    } else {
        before->next = node->next;
    }
    pm_free(node);
    root.size -= 1;
    root.version += 1;
    return 1;
}

// Puts n keys from `first` on, each with its double as its value.
tx int64_t fill(int64_t first, int64_t n) {
    int64_t made = 0;
    for (int64_t i = 0; i < n; i++) {
        int64_t key = first + i;
        if (find(key) == NULL) {
            struct Node *node = pm_new(struct Node);
            if (node == NULL) {
                return made;
            }
            node->key = key;
            node->value = key + key;
            node->next = root.bucket[place(key)];
            root.bucket[place(key)] = node;
            root.size++;
            made++;
        }
    }
    root.version += 1;
    return made;
}

// Gives 1 where each node hangs in its key's bucket and the size is theirs, else 0.
tx int64_t check() {
    int64_t n = 0;
    for (int64_t b = 0; b < 64; b++) {
        for (struct Node *node = root.bucket[b]; node != NULL; node = node->next) {
            if (place(node->key) != b) {
                return 0;
            }
            n++;
        }
    }
    return n == root.size;
}
