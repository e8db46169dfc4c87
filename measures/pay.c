#include <stdint.h>
struct Bank { int64_t paid; int64_t last[3]; int64_t balance[64]; };
persistent struct Bank root;
int64_t move(int64_t from, int64_t to, int64_t amount) {
  root.balance[from] -= amount;
  root.balance[to] += amount;
  root.paid += amount;
  root.last[0] = from;
  root.last[1] = to;
  root.last[2] = amount;
  return root.balance[from];
}
tx int64_t fill(int64_t amount) {
  for (int64_t i = 0; i < 64; i++) { root.balance[i] = amount; }
  return amount;
}
tx abort int64_t pay(int64_t from, int64_t to, int64_t amount) {
  int64_t left = move(from, to, amount);
  if (left < 0) { abort(); }
  return left;
}
tx int64_t give(int64_t from, int64_t to, int64_t amount) {
  if (root.balance[from] < amount) { return -1; }
  return move(from, to, amount);
}
