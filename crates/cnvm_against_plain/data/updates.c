// Every assignment that updates, on a local, a root field, an element and an object's field; and
// loops whose body runs before they test.
#include <stdint.h>

struct Cell {
    int64_t value;
    int64_t at[3];
    struct Cell *next;
};

struct Sheet {
    struct Cell *first;
    int64_t n;
    int64_t rounds;
    int64_t at[4];
};

persistent struct Sheet root;

int64_t joined(int64_t op, int64_t x, int64_t y) {
    if (op == 0) x *= y;
    if (op == 1) x /= y;
    if (op == 2) x %= y;
    if (op == 3) x += y;
    if (op == 4) x -= y;
    if (op == 5) x <<= y;
    if (op == 6) x >>= y;
    if (op == 7) x &= y;
    if (op == 8) x ^= y;
    if (op == 9) x |= y;
    return x;
}

tx int64_t local(int64_t op, int64_t x, int64_t y) { return joined(op, x, y); }

// The root's number, and an element of the root.
tx int64_t field(int64_t x, int64_t y) {
    root.n = x;
    root.n *= y;
    root.n /= 3;
    root.n %= 1000;
    root.n += x;
    root.n -= y;
    root.at[1] = root.n;
    root.at[1] <<= 2;
    root.at[1] >>= 1;
    root.at[1] &= 255;
    root.at[1] ^= y;
    root.at[1] |= 1;
    return root.at[1];
}

int64_t next_round() {
    root.rounds += 1;
    return root.rounds;
}

// Base and index are evaluated once, before the right side, whose stores to the target are lost.
tx int64_t once(int64_t y) {
    root.at[next_round() & 3] ^= y;
    root.rounds -= next_round();
    root.rounds *= next_round();
    return root.rounds;
}

tx int64_t push(int64_t value) {
    struct Cell *cell = pm_new(struct Cell);
    if (cell == NULL) return -1;
    cell->value |= value;
    cell->at[value & 1] -= value;
    cell->next = root.first;
    root.first = cell;
    return cell->at[value & 1];
}

// Divide, of an object's field and of an element; null, where there is no cell.
tx int64_t divided(int64_t y) {
    root.rounds += 1;
    root.first->value *= 100;
    root.first->value /= y;
    root.first->at[y & 1] %= y - 1;
    return root.first->value;
}

// Divide, and then all is as before.
tx abort int64_t undone(int64_t y) {
    root.n <<= 1;
    root.n %= y;
    root.n /= y - 1;
    return root.n;
}

// The index is looked at before the divisor.
tx int64_t put(int64_t i, int64_t y) {
    root.n += 1;
    root.at[i] /= y;
    return root.at[i];
}

// The body runs once at least, and a pointer may be the condition.
tx int64_t all(int64_t mask) {
    struct Cell *cell = root.first;
    int64_t sum = 0;
    do {
        cell->value ^= mask;
        sum += cell->value;
        cell = cell->next;
    } while (cell);
    root.n = sum;
    return sum;
}

// `continue` goes on with the condition, and `break` past it.
tx int64_t picked(int64_t n) {
    int64_t i = 0;
    int64_t sum = 0;
    do {
        i += 1;
        if (i % 2 == 0) continue;
        if (i > 7) break;
        sum += i;
        root.rounds ^= i;
    } while (i < n);
    root.n = sum * 100 + i;
    return root.n;
}

// A loop in a loop, left by `return`; each round has a local of its own.
tx int64_t lowest(int64_t x) {
    int64_t at = 0;
    do {
        int64_t row = at;
        do
            if (x >> at & 1) {
                root.at[0] |= 1 << at;
                return at;
            } else
                at++;
        while (at & 3);
        root.at[2] += at - row;
    } while (at < 12);
    return -1;
}

// Steps, where it turns too often: a tick stands before each condition.
tx int64_t turn(int64_t n) {
    root.rounds += 1;
    do n--; while (n > 0);
    root.rounds += 1;
    return n;
}
