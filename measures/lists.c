// Objects in lists, one list a word of the root: each call takes a slot or gives one back.
enum { LISTS = 65000 };

struct Node { int64_t value; struct Node *next; };
struct Lists { int64_t size; struct Node *top[LISTS]; };
persistent struct Lists root;

int64_t push_at(int64_t list, int64_t value) {
    struct Node *node = pm_new(struct Node);
    if (node == NULL) { return 0; }
    node->value = value;
    node->next = root.top[list];
    root.top[list] = node;
    root.size++;
    return 1;
}

tx int64_t push(int64_t list, int64_t value) { return push_at(list, value); }

// Gives the value that was on top of the list, or -1.
tx int64_t pop(int64_t list) {
    struct Node *node = root.top[list];
    if (node == NULL) { return -1; }
    int64_t value = node->value;
    root.top[list] = node->next;
    pm_free(node);
    root.size--;
    return value;
}

// Puts n objects on the lists, in turn.
tx int64_t fill(int64_t n) {
    for (int64_t i = 0; i < n; i++) { push_at(root.size % LISTS, i); }
    return root.size;
}
