// A queue of numbers in linked nodes, with a count and a total that always agree with the nodes.
#include <stdint.h>

struct Node {
    int64_t value;
    struct Node *next;
};

struct Queue {
    struct Node *first;
    struct Node *last;
    int64_t length;
    int64_t total;
};

persistent struct Queue root;

// Puts a number at the end. Gives the new length, or -1 where no slot is free.
tx int64_t push(int64_t value) {
    struct Node *node = pm_new(struct Node);
    if (node == NULL) {
        return -1;
    }
    node->value = value;
    if (root.last == NULL) {
        root.first = node;
    } else {
        root.last->next = node;
    }
    root.last = node;
    root.length += 1;
    root.total += value;
    return root.length;
}

// Takes the number at the front, or gives `otherwise` where there is none.
tx int64_t pop(int64_t otherwise) {
    struct Node *node = root.first;
    if (node == NULL) {
        return otherwise;
    }
    int64_t value = node->value;
    root.first = node->next;
    if (root.first == NULL) {
        root.last = NULL;
    }
    pm_free(node);
    root.length -= 1;
    root.total -= value;
    return value;
}

// Moves the number at the front to the end.
tx int64_t rotate() {
    if (root.first == root.last) {
        return root.length;
    }
    struct Node *node = root.first;
    root.first = node->next;
    node->next = NULL;
    root.last->next = node;
    root.last = node;
    return node->value;
}

int64_t count_from(struct Node *node) {
    int64_t n = 0;
    while (node != NULL) {
        n++;
        node = node->next;
    }
    return n;
}

int64_t sum_from(struct Node *node) {
    int64_t sum = 0;
    for (; node != NULL; node = node->next) {
        sum += node->value;
    }
    return sum;
}

// Gives 1 where the count and the total are those of the nodes, else 0.
tx int64_t check() {
    return count_from(root.first) == root.length && sum_from(root.first) == root.total;
}

// Takes all numbers above a limit out of the queue. Gives how many were taken.
tx int64_t drop_above(int64_t limit) {
    int64_t taken = 0;
    struct Node *before = NULL;
    struct Node *node = root.first;
    while (node != NULL) {
        struct Node *next = node->next;
        if (node->value > limit) {
            if (before == NULL) {
                root.first = next;
            } else {
                before->next = next;
            }
            if (next == NULL) {
                root.last = before;
            }
            root.length--;
            root.total -= node->value;
            pm_free(node);
            taken++;
        } else {
            before = node;
        }
        node = next;
    }
    return taken;
}
