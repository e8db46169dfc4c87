struct Node { int64_t v; struct Node *next; };
struct R { struct Node *head; };
persistent struct R root;
tx int64_t push(int64_t v) {
  struct Node *p = pm_new(struct Node);
  p->v = v;
  p->next = root.head;
  root.head = p;
  return v;
}
tx int64_t swap(int64_t v) {
  pm_free(root.head);
  struct Node *p = pm_new(struct Node);
  p->v = v;
  root.head = p;
  return 0;
}
tx int64_t two() {
  struct Node *a = pm_new(struct Node);
  struct Node *b = pm_new(struct Node);
  return b == NULL;
}
tx int64_t top() { return root.head->v; }
tx int64_t late() {
  struct Node *p = root.head;
  pm_free(p);
  return p->v;
}
