struct Node { int64_t v; struct Node *next; };
struct R { struct Node *first; int64_t sum; int64_t t[4]; };
persistent struct R root;
void insist(int64_t most) { if (root.sum > most) { abort(); } }
void push(int64_t v) {
  struct Node *node = pm_new(struct Node);
  node->v = v;
  node->next = root.first;
  root.first = node;
  root.sum += v;
}
void drop() {
  struct Node *node = root.first;
  root.first = node->next;
  root.sum -= node->v;
  pm_free(node);
}
tx abort int64_t put(int64_t v, int64_t most) { push(v); insist(most); return root.sum; }
tx abort int64_t swap(int64_t v, int64_t most) { drop(); push(v); push(v); insist(most); return root.sum; }
tx abort int64_t spread(int64_t from, int64_t v) {
  for (int64_t i = from; i < from + 3; i++) { root.t[i] += v; root.sum += v; }
  return root.sum;
}
tx abort int64_t twice(int64_t v) { root.sum += v; root.sum += v; return root.sum / v; }
tx abort int64_t turn(int64_t n) { root.t[0] = n; while (n > 0) { n--; } return root.t[0]; }
tx abort int64_t quit() { abort(); return 0; }
tx int64_t fall() { root.sum = 0; abort(); return 0; }
