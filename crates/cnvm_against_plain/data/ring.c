// A ring of 64 numbers in the root's array, with running statistics.
#include <stdint.h>

struct Ring {
    int64_t first;
    int64_t length;
    int64_t sum;
    int64_t dropped;
    int64_t at[64];
};

persistent struct Ring root;

int64_t size() { return 64; }

int64_t slot(int64_t i) { return (root.first + i) % size(); }

// Puts a number at the end. A full ring drops its first number. Gives the length.
tx int64_t push(int64_t value) {
    if (root.length == size()) {
        root.sum -= root.at[root.first];
        root.first = (root.first + 1) % size();
        root.length -= 1;
        root.dropped += 1;
    }
    root.at[slot(root.length)] = value;
    root.length += 1;
    root.sum += value;
    return root.length;
}

tx int64_t pop() {
    if (root.length == 0) {
        return -1;
    }
    int64_t value = root.at[root.first];
    root.first = (root.first + 1) % size();
    root.length--;
    root.sum -= value;
    return value;
}

tx int64_t peek(int64_t i) {
    if (i < 0 || i >= root.length) {
        return -1;
    }
    return root.at[slot(i)];
}

// Turns the numbers round. Gives how many pairs were exchanged.
tx int64_t reverse() {
    int64_t low = 0;
    int64_t high = root.length - 1;
    while (low < high) {
        int64_t held = root.at[slot(low)];
        root.at[slot(low)] = root.at[slot(high)];
        root.at[slot(high)] = held;
        low++;
        high--;
    }
    return low;
}

// Adds a number to each one that is there.
tx int64_t shift(int64_t by) {
    for (int64_t i = 0; i < root.length; i++) {
        root.at[slot(i)] += by;
        root.sum += by;
    }
    return root.sum;
}

tx int64_t largest() {
    if (root.length == 0) {
        return 1 << 63;
    }
    int64_t most = root.at[root.first];
    for (int64_t i = 1; i < root.length; i++) {
        int64_t value = root.at[slot(i)];
        if (value > most) {
            most = value;
        }
    }
    return most;
}

tx int64_t check() {
    int64_t sum = 0;
    for (int64_t i = 0; i < root.length; i++) {
        sum += root.at[slot(i)];
    }
    return sum == root.sum && root.first >= 0 && root.first < size() && root.length <= size();
}

// Puts a number at a place of the array, which must be there.
tx int64_t set(int64_t place, int64_t value) {
    root.sum -= root.at[place];
    root.at[place] = value;
    root.sum += value;
    return root.sum;
}

// The mean of the numbers, of which there must be one.
tx int64_t mean() { return root.sum / root.length; }
