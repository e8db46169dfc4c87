struct N { int64_t v; };
struct R { struct N *p; };
persistent struct R root;
void check(int64_t v) { if (v < 0) { abort(); } }
tx abort int64_t set(int64_t v) { pm_free(root.p); struct N *q = pm_new(struct N); q->v = v; root.p = q; check(v); return 0; }
tx abort int64_t put(int64_t v) { struct N *q = pm_new(struct N); q->v = v; root.p = q; check(v); return 0; }
tx int64_t get() { return root.p->v; }
