// A binary search tree of numbers with a payload, with insertion and deletion.
#include <stdint.h>

struct Node {
    int64_t key;
    int64_t payload;
    struct Node *left;
    struct Node *right;
};

struct Tree {
    struct Node *top;
    int64_t size;
};

persistent struct Tree root;

struct Node *find(int64_t key) {
    struct Node *node = root.top;
    while (node != NULL && node->key != key) {
        if (key < node->key) {
            node = node->left;
        } else {
            node = node->right;
        }
    }
    return node;
}

struct Node *parent_of(int64_t key) {
    struct Node *parent = NULL;
    struct Node *node = root.top;
    while (node != NULL && node->key != key) {
        parent = node;
        if (key < node->key) {
            node = node->left;
        } else {
            node = node->right;
        }
    }
    return parent;
}

// Hangs `child` where the key's node hangs below `parent`, or at the top.
void hang(struct Node *parent, int64_t key, struct Node *child) {
    if (parent == NULL) {
        root.top = child;
        return;
    }
    if (key < parent->key) {
        parent->left = child;
    } else {
        parent->right = child;
    }
}

// Gives the payload that the key had, 0 where it is new, or -1 where no slot is free.
tx int64_t put(int64_t key, int64_t payload) {
    struct Node *node = find(key);
    if (node != NULL) {
        int64_t old = node->payload;
        node->payload = payload;
        return old;
    }
    struct Node *parent = parent_of(key);
    node = pm_new(struct Node);
    if (node == NULL) {
        return -1;
    }
    node->key = key;
    node->payload = payload;
    hang(parent, key, node);
    root.size += 1;
    return 0;
}

tx int64_t get(int64_t key) {
    struct Node *node = find(key);
    if (node == NULL) {
        return -1;
    }
    return node->payload;
}

struct Node *least(struct Node *node) {
    while (node->left != NULL) {
        node = node->left;
    }
    return node;
}

// Takes a key out. Gives 1 where it was there, else 0.
tx int64_t del(int64_t key) {
    struct Node *node = find(key);
    if (node == NULL) {
        return 0;
    }
    struct Node *parent = parent_of(key);
    if (node->left == NULL) {
        hang(parent, key, node->right);
    } else if (node->right == NULL) {
        hang(parent, key, node->left);
    } else {
        struct Node *heir = least(node->right);
        struct Node *above = node;
        for (struct Node *at = node->right; at != heir; at = at->left) {
            above = at;
        }
        if (above != node) {
            above->left = heir->right;
            heir->right = node->right;
        }
        heir->left = node->left;
        hang(parent, key, heir);
    }
    pm_free(node);
    root.size -= 1;
    return 1;
}

int64_t count(struct Node *node) {
    if (node == NULL) {
        return 0;
    }
    return count(node->left) + 1 + count(node->right);
}

// Gives 1 where every key lies between its bounds, else 0.
int64_t ordered(struct Node *node, int64_t low, int64_t high) {
    if (node == NULL) {
        return 1;
    }
    if (node->key < low || node->key > high) {
        return 0;
    }
    return ordered(node->left, low, node->key - 1) && ordered(node->right, node->key + 1, high);
}

tx int64_t check() {
    int64_t least_key = 1 << 63;
    return ordered(root.top, least_key, ~least_key) && count(root.top) == root.size;
}

int64_t height(struct Node *node) {
    if (node == NULL) {
        return 0;
    }
    int64_t left = height(node->left);
    int64_t right = height(node->right);
    if (left > right) {
        return left + 1;
    }
    return right + 1;
}

tx int64_t tall() { return height(root.top); }

// The least key of a tree that mustn't be empty.
tx int64_t least_key() { return least(root.top)->key; }
