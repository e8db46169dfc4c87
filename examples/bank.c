// Accounts whose balances always sum up to what was paid in less what was paid out.
#include <stdint.h>

struct Account {
    int64_t number;
    int64_t balance;
    int64_t moves;
    struct Account *next;
};

struct Bank {
    struct Account *first;
    int64_t accounts;
    int64_t deposits;
    int64_t withdrawals;
    int64_t last[4];
};

persistent struct Bank root;

struct Account *find(int64_t number) {
    struct Account *account = root.first;
    while (account != NULL && account->number != number) {
        account = account->next;
    }
    return account;
}

void note(int64_t kind, int64_t from, int64_t to, int64_t amount) {
    root.last[0] = kind;
    root.last[1] = from;
    root.last[2] = to;
    root.last[3] = amount;
}

tx int64_t open(int64_t number) {
    if (find(number) != NULL) {
        return 0;
    }
    struct Account *account = pm_new(struct Account);
    if (account == NULL) {
        return -1;
    }
    account->number = number;
    account->next = root.first;
    root.first = account;
    root.accounts += 1;
    return 1;
}

tx int64_t deposit(int64_t number, int64_t amount) {
    struct Account *account = find(number);
    if (account == NULL || amount <= 0) {
        return -1;
    }
    account->balance += amount;
    account->moves++;
    root.deposits += amount;
    note(1, 0, number, amount);
    return account->balance;
}

tx int64_t withdraw(int64_t number, int64_t amount) {
    struct Account *account = find(number);
    if (account == NULL || amount <= 0 || account->balance < amount) {
        return -1;
    }
    account->balance -= amount;
    account->moves++;
    root.withdrawals += amount;
    note(2, number, 0, amount);
    return account->balance;
}

// Gives 1 where the money was moved, else 0, and then nothing has changed.
tx int64_t transfer(int64_t from, int64_t to, int64_t amount) {
    struct Account *giver = find(from);
    struct Account *taker = find(to);
    if (giver == NULL || taker == NULL || giver == taker) {
        return 0;
    }
    if (amount <= 0 || giver->balance < amount) {
        return 0;
    }
    giver->balance -= amount;
    taker->balance += amount;
    giver->moves++;
    taker->moves++;
    note(3, from, to, amount);
    return 1;
}

// Moves money too, and tests last: it traps for want of an account or money, and is rolled back.
tx abort int64_t pay(int64_t from, int64_t to, int64_t amount) {
    struct Account *giver = find(from);
    struct Account *taker = find(to);
    taker->balance += amount;
    giver->balance -= amount;
    giver->moves++;
    taker->moves++;
    note(3, from, to, amount);
    if (amount <= 0 || giver->balance < 0) {
        abort();
    }
    return giver->balance;
}

// Closes an account that is empty.
tx int64_t close(int64_t number) {
    struct Account *before = NULL;
    struct Account *account = root.first;
    while (account != NULL && account->number != number) {
        before = account;
        account = account->next;
    }
    if (account == NULL || account->balance != 0) {
        return 0;
    }
    if (before == NULL) {
        root.first = account->next;
    } else {
        before->next = account->next;
    }
    pm_free(account);
    root.accounts -= 1;
    return 1;
}

// Interest in thousandths, rounded toward zero, as a deposit of the bank.
tx int64_t interest(int64_t thousandths) {
    int64_t paid = 0;
    for (struct Account *account = root.first; account != NULL; account = account->next) {
        int64_t gain = account->balance * thousandths / 1000;
        account->balance += gain;
        paid += gain;
    }
    root.deposits += paid;
    return paid;
}

tx int64_t check() {
    int64_t sum = 0;
    int64_t accounts = 0;
    for (struct Account *account = root.first; account != NULL; account = account->next) {
        if (account->balance < 0) {
            return 0;
        }
        sum += account->balance;
        accounts++;
    }
    return sum == root.deposits - root.withdrawals && accounts == root.accounts;
}
