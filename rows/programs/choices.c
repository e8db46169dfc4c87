struct Node { int64_t v; struct Node *next; };
struct R { struct Node *head; int64_t n; };
persistent struct R root;
int64_t step(int64_t d) { root.n += d; return root.n; }
tx int64_t pick(int64_t c) { return c ? step(1) : step(10); }
tx int64_t sign(int64_t a) { return a < 0 ? -1 : a == 0 ? 0 : 1; }
tx int64_t put(int64_t v) {
  struct Node *p = root.head ? root.head : pm_new(struct Node);
  (v < 0 ? root.head : p)->v = v;
  root.head = p;
  return p == NULL ? -1 : p->v;
}
