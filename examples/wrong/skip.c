// The search of a skip list, as one may write it at first: the local array is refused.
struct Node { int64_t key; int64_t levels; struct Node *next; struct Node *far; };
struct List { struct Node *first; int64_t count; };
persistent struct List root;

tx int64_t has(int64_t key) {
    struct Node *node = root.first;
    int64_t seen[2];
    while (node != NULL && node->key < key) {
        node = node->next;
    }
    return node != NULL && node->key == key;
}
