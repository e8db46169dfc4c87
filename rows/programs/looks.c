struct Node { int64_t key; int64_t val; struct Node *next; };
struct R { struct Node *head; int64_t n; };
persistent struct R root;
struct Node *find(int64_t key) {
  struct Node *p = root.head;
  while (p != NULL && p->key != key) { p = p->next; }
  return p;
}
tx int64_t put(int64_t key, int64_t val) {
  struct Node *p = pm_new(struct Node);
  if (p == NULL) { return -1; }
  p->key = key;
  p->val = val;
  p->next = root.head;
  root.head = p;
  root.n++;
  return root.n;
}
tx const int64_t get(int64_t key) { return find(key)->val; }
tx const int64_t count() { return root.n - 1; }
