struct R { int64_t t[20]; struct Node *head; };
struct Node { int64_t v; };
persistent struct R root;
tx int64_t make(int64_t v) { root.head = pm_new(struct Node); root.head->v = v; return v; }
