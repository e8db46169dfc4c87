struct Node { int64_t value; struct Node *next; };
struct Stack { struct Node *top; int64_t size; };
persistent struct Stack root;

tx int64_t push(int64_t value) {
    struct Node *node = pm_new(struct Node);
    if (node == NULL) { return 0; }
    node->value = value;
    node->next = root.top;
    root.top = node;
    root.size = root.size + 1;
    return root.size;
}
