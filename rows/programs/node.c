struct Node { int64_t v; struct Node *next; };
struct R { int64_t n; int64_t t[4]; struct Node *head; };
persistent struct R root;
@@
