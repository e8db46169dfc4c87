// A B-tree of numbers with up to five keys in a node. A full node is split on the way down.
#include <stdint.h>

struct Node {
    int64_t count;
    int64_t leaf;
    int64_t key[5];
    struct Node *child[6];
};

struct Tree {
    struct Node *top;
    int64_t size;
    int64_t nodes;
};

persistent struct Tree root;

struct Node *make(int64_t leaf) {
    struct Node *node = pm_new(struct Node);
    if (node == NULL) {
        abort();
    }
    node->leaf = leaf;
    root.nodes += 1;
    return node;
}

// The first place whose key isn't below.
int64_t place(struct Node *node, int64_t key) {
    int64_t i = 0;
    while (i < node->count && node->key[i] < key) {
        i++;
    }
    return i;
}

int64_t holds(int64_t key) {
    struct Node *node = root.top;
    while (node != NULL) {
        int64_t i = place(node, key);
        if (i < node->count && node->key[i] == key) {
            return 1;
        }
        if (node->leaf) {
            return 0;
        }
        node = node->child[i];
    }
    return 0;
}

// Splits the full child number i: its middle key goes up, its upper keys go to a new node.
void split(struct Node *parent, int64_t i) {
    struct Node *low = parent->child[i];
    struct Node *high = make(low->leaf);
    for (int64_t j = 0; j < 2; j++) {
        high->key[j] = low->key[j + 3];
    }
    if (!low->leaf) {
        for (int64_t j = 0; j < 3; j++) {
            high->child[j] = low->child[j + 3];
            low->child[j + 3] = NULL;
        }
    }
    high->count = 2;
    int64_t up = low->key[2];
    low->count = 2;
    for (int64_t j = parent->count; j > i; j--) {
        parent->key[j] = parent->key[j - 1];
        parent->child[j + 1] = parent->child[j];
    }
    parent->key[i] = up;
    parent->child[i + 1] = high;
    parent->count += 1;
}

void insert_at_leaf(struct Node *leaf, int64_t key) {
    int64_t j = leaf->count;
    while (j > 0 && leaf->key[j - 1] > key) {
        leaf->key[j] = leaf->key[j - 1];
        j--;
    }
    leaf->key[j] = key;
    leaf->count += 1;
}

// Gives 1 where the key is new, else 0.
int64_t insert_key(int64_t key) {
    if (holds(key)) {
        return 0;
    }
    if (root.top == NULL) {
        root.top = make(1);
    }
    if (root.top->count == 5) {
        struct Node *top = make(0);
        top->child[0] = root.top;
        root.top = top;
        split(top, 0);
    }
    struct Node *node = root.top;
    while (!node->leaf) {
        int64_t i = place(node, key);
        if (node->child[i]->count == 5) {
            split(node, i);
            if (node->key[i] < key) {
                i++;
            }
        }
        node = node->child[i];
    }
    insert_at_leaf(node, key);
    root.size += 1;
    return 1;
}

tx int64_t insert(int64_t key) { return insert_key(key); }

tx int64_t has(int64_t key) { return holds(key); }

int64_t keys_in(struct Node *node) {
    if (node == NULL) {
        return 0;
    }
    int64_t n = node->count;
    if (!node->leaf) {
        for (int64_t i = 0; i <= node->count; i++) {
            n += keys_in(node->child[i]);
        }
    }
    return n;
}

int64_t nodes_in(struct Node *node) {
    if (node == NULL) {
        return 0;
    }
    int64_t n = 1;
    if (!node->leaf) {
        for (int64_t i = 0; i <= node->count; i++) {
            n += nodes_in(node->child[i]);
        }
    }
    return n;
}

// The depth of all leaves, or -1 where it isn't the same for all.
int64_t depth(struct Node *node) {
    if (node->leaf) {
        return 1;
    }
    int64_t d = depth(node->child[0]);
    for (int64_t i = 1; i <= node->count; i++) {
        if (depth(node->child[i]) != d) {
            return -1;
        }
    }
    if (d < 0) {
        return d;
    }
    return d + 1;
}

int64_t rises(struct Node *node, int64_t low, int64_t high) {
    for (int64_t i = 0; i < node->count; i++) {
        int64_t key = node->key[i];
        if (key < low || key > high) {
            return 0;
        }
        if (!node->leaf && !rises(node->child[i], low, key - 1)) {
            return 0;
        }
        low = key + 1;
    }
    if (node->leaf) {
        return 1;
    }
    return rises(node->child[node->count], low, high);
}

tx int64_t check() {
    if (root.top == NULL) {
        return root.size == 0;
    }
    int64_t least = 1 << 63;
    return rises(root.top, least, ~least) && depth(root.top) > 0 && keys_in(root.top) == root.size
        && nodes_in(root.top) == root.nodes;
}

// Inserts so many keys from `first` on, each `by` above the one before. Gives how many are new.
tx int64_t insert_many(int64_t first, int64_t by, int64_t n) {
    int64_t made = 0;
    for (int64_t i = 0; i < n; i++) {
        made += insert_key(first + i * by);
    }
    return made;
}
