struct N { int64_t v; struct N *next; int64_t a[4]; };
struct R { int64_t n; struct N *head; int64_t t[8]; };
persistent struct R root;
@@
