struct Node { int64_t v; struct Node *next; };
struct R { struct Node *head; };
persistent struct R root;
void put(struct Node *p, int64_t v) { p->v = v; }
tx int64_t make(int64_t v) { struct Node *p = pm_new(struct Node); put(p, v); root.head = p; return 0; }
tx int64_t bump(int64_t d) { struct Node *q = root.head; put(q, q->v + d); return q->v; }
