// An ordered map of keys to values: the B-tree of PMDK's examples (tree_map/btree_map.c), whose
// nodes have up to 8 children.
enum { ORDER = 8, KEYS = ORDER - 1, HALF = ORDER / 2, LEAST = HALF - 1 };

struct Node { int64_t n, key[KEYS], value[KEYS]; struct Node *slot[ORDER]; };
struct Map { struct Node *top; int64_t size; };
persistent struct Map root;

struct Node *make() {
    struct Node *node = pm_new(struct Node);
    if (node == NULL) { abort(); }
    return node;
}

struct Node *child(struct Node *node, int64_t i) { return node->slot[i]; }

// The place of the first key of a node that isn't less than the key.
int64_t place_of(struct Node *node, int64_t key) {
    int64_t i = 0;
    while (i < node->n && node->key[i] < key) { i++; }
    return i;
}

int64_t holds(struct Node *of, int64_t i, int64_t key) { return i < of->n && of->key[i] == key; }

// Puts a key and its value at a place of a node that isn't full.
void put_at(struct Node *node, int64_t p, int64_t key, int64_t value) {
    for (int64_t i = node->n; i > p; i--) {
        node->key[i] = node->key[i - 1];
        node->value[i] = node->value[i - 1];
    }
    node->key[p] = key;
    node->value[p] = value;
    node->n += 1;
}

// Takes the key at a place out of a node.
void take_at(struct Node *node, int64_t p) {
    for (int64_t i = p; i < node->n - 1; i++) {
        node->key[i] = node->key[i + 1];
        node->value[i] = node->value[i + 1];
    }
    node->n -= 1;
}

// Splits the full child at place p of a node; the middle key goes up into the node.
void split(struct Node *parent, int64_t p) {
    struct Node *left = child(parent, p);
    struct Node *right = make();
    for (int64_t i = HALF; i < KEYS; i++) {
        right->key[i - HALF] = left->key[i];
        right->value[i - HALF] = left->value[i];
    }
    for (int64_t i = HALF; i < ORDER; i++) {
        right->slot[i - HALF] = child(left, i);
        left->slot[i] = NULL;
    }
    right->n = KEYS - HALF;
    left->n = HALF - 1;
    for (int64_t i = parent->n; i > p; i--) { parent->slot[i + 1] = child(parent, i); }
    parent->slot[p + 1] = right;
    put_at(parent, p, left->key[HALF - 1], left->value[HALF - 1]);
}

void insert(struct Node *node, int64_t key, int64_t value) {
    int64_t i = place_of(node, key);
    if (child(node, i) == NULL) {
        put_at(node, i, key, value);
        return;
    }
    if (child(node, i)->n == KEYS) {
        split(node, i);
        if (node->key[i] < key) { i++; }
    }
    insert(child(node, i), key, value);
}

// Gives the node with the key, or NULL.
struct Node *found(struct Node *node, int64_t key) {
    while (node != NULL) {
        int64_t i = place_of(node, key);
        if (holds(node, i, key)) { return node; }
        node = child(node, i);
    }
    return NULL;
}

// Gives 1 for a new key and 0 for one that has another value now.
int64_t enter(int64_t key, int64_t value) {
    struct Node *old = found(root.top, key);
    if (old != NULL) {
        old->value[place_of(old, key)] = value;
        return 0;
    }
    if (root.top == NULL) { root.top = make(); }
    if (root.top->n == KEYS) {
        struct Node *up = make();
        up->slot[0] = root.top;
        split(up, 0);
        root.top = up;
    }
    insert(root.top, key, value);
    root.size += 1;
    return 1;
}

tx abort int64_t put(int64_t key, int64_t value) { return enter(key, value); }

// Puts n keys, each a step after the one before, and gives how many keys there are.
tx abort int64_t fill(int64_t key, int64_t step, int64_t n) {
    for (int64_t i = 0; i < n; i++) { enter(key + i * step, i); }
    return root.size;
}

// The value of a key, or -1.
tx const int64_t get(int64_t key) {
    struct Node *node = found(root.top, key);
    if (node == NULL) { return -1; }
    return node->value[place_of(node, key)];
}

// Moves the first key of the child after place p to the one before it.
void turn_left(struct Node *parent, int64_t p) {
    struct Node *left = child(parent, p);
    struct Node *right = child(parent, p + 1);
    put_at(left, left->n, parent->key[p], parent->value[p]);
    left->slot[left->n] = child(right, 0);
    parent->key[p] = right->key[0];
    parent->value[p] = right->value[0];
    for (int64_t i = 0; i < right->n; i++) { right->slot[i] = child(right, i + 1); }
    right->slot[right->n] = NULL;
    take_at(right, 0);
}

// Moves the last key of the child at place p to the one after it.
void turn_right(struct Node *parent, int64_t p) {
    struct Node *left = child(parent, p);
    struct Node *right = child(parent, p + 1);
    put_at(right, 0, parent->key[p], parent->value[p]);
    for (int64_t i = right->n; i > 0; i--) { right->slot[i] = child(right, i - 1); }
    right->slot[0] = child(left, left->n);
    left->slot[left->n] = NULL;
    parent->key[p] = left->key[left->n - 1];
    parent->value[p] = left->value[left->n - 1];
    take_at(left, left->n - 1);
}

// Makes one node of the children before and after the key at place p, and of this key.
void merge(struct Node *parent, int64_t p) {
    struct Node *left = child(parent, p);
    struct Node *right = child(parent, p + 1);
    put_at(left, left->n, parent->key[p], parent->value[p]);
    for (int64_t i = 0; i <= right->n; i++) { left->slot[left->n + i] = child(right, i); }
    for (int64_t i = 0; i < right->n; i++) {
        put_at(left, left->n, right->key[i], right->value[i]);
    }
    take_at(parent, p);
    for (int64_t i = p + 1; i <= parent->n; i++) { parent->slot[i] = child(parent, i + 1); }
    parent->slot[parent->n + 1] = NULL;
    pm_free(right);
}

// Gives the child at place p a key more if it has too few.
void mend(struct Node *parent, int64_t p) {
    if (child(parent, p)->n >= LEAST) { return; }
    if (p < parent->n && child(parent, p + 1)->n > LEAST) {
        turn_left(parent, p);
    } else if (p > 0 && child(parent, p - 1)->n > LEAST) {
        turn_right(parent, p - 1);
    } else if (p < parent->n) {
        merge(parent, p);
    } else {
        merge(parent, p - 1);
    }
}

// Takes the key out of the tree below a node, where it is.
void erase(struct Node *node, int64_t key) {
    int64_t i = place_of(node, key);
    if (!holds(node, i, key)) {
        erase(child(node, i), key);
        mend(node, i);
        return;
    }
    if (child(node, i) == NULL) {
        take_at(node, i);
        return;
    }
    // The least key of the next child takes the place of the one that goes.
    struct Node *low = child(node, i + 1);
    while (child(low, 0) != NULL) { low = child(low, 0); }
    int64_t next = low->key[0];
    int64_t value = low->value[0];
    erase(child(node, i + 1), next);
    node->key[i] = next;
    node->value[i] = value;
    mend(node, i + 1);
}

// Gives 1 if the key was there, else 0.
tx abort int64_t del(int64_t key) {
    if (found(root.top, key) == NULL) { return 0; }
    struct Node *top = root.top;
    erase(top, key);
    root.size -= 1;
    if (top->n == 0) {
        root.top = child(top, 0);
        pm_free(top);
    }
    return 1;
}

// The number of keys below a node that lie between two others; a trap where the tree is wrong.
int64_t count(struct Node *node, int64_t low, int64_t high, int64_t depth) {
    int64_t n = node->n;
    int64_t below = child(node, 0) != NULL;
    if (node != root.top && n < LEAST) { abort(); }
    if (below != (depth > 0)) { abort(); }
    int64_t sum = n;
    for (int64_t i = 0; i <= n; i++) {
        int64_t to = high;
        if (i < n) { to = node->key[i]; }
        if (low >= to) { abort(); }
        if (below) { sum += count(child(node, i), low, to, depth - 1); }
        low = to;
    }
    return sum;
}

// Gives 1 where the keys rise, all leaves are equally deep and the size is the number of keys.
tx const int64_t check() {
    if (root.top == NULL) { return root.size == 0; }
    int64_t depth = 0;
    for (struct Node *node = root.top; child(node, 0) != NULL; node = child(node, 0)) { depth++; }
    return count(root.top, -1, 1 << 62, depth) == root.size;
}
