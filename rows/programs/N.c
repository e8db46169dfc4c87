struct Big { int64_t t[15]; struct Big *next; };
struct R { struct Big *head; int64_t n; };
persistent struct R root;
tx int64_t make(int64_t v) {
  struct Big *p = pm_new(struct Big);
  if (p == NULL) { return 0; }
  p->t[14] = v;
  p->next = root.head;
  root.head = p;
  return 1;
}
tx int64_t drop() {
  struct Big *p = root.head;
  root.head = p->next;
  pm_free(p);
  return 1;
}
tx abort int64_t again(int64_t v) {
  pm_free(root.head);
  struct Big *p = pm_new(struct Big);
  p->t[0] = v;
  root.head = p;
  return v;
}
