// A transaction for each trap, and one that is rolled back.
struct Node { int64_t value; struct Node *next; };
struct Traps { int64_t n; int64_t table[4]; struct Node *first; };
persistent struct Traps root;

tx int64_t follow() { return root.first->value; }

tx int64_t dangle() {
    struct Node *node = pm_new(struct Node);
    pm_free(node);
    return node->value;
}

tx int64_t put(int64_t at, int64_t value) { root.table[at] = value; return value; }

tx int64_t share(int64_t among) { root.n += 1; return 100 / among; }

tx int64_t spin() { while (1) { } }

tx int64_t refuse() { abort(); }

tx int64_t count(int64_t times) {
    for (int64_t i = 0; i < times; i++) {
        root.n++;
    }
    return root.n;
}

int64_t down(int64_t n) { return n == 0 || down(n - 1); }

tx int64_t descend(int64_t n) { return down(n); }

tx abort int64_t take(int64_t amount) {
    root.n -= amount;
    if (root.n < 0) { abort(); }
    return root.n;
}

tx int64_t fill(int64_t nodes) {
    for (int64_t i = 0; i < nodes; i++) {
        struct Node *node = pm_new(struct Node);
        node->next = root.first;
        root.first = node;
    }
    return nodes;
}
