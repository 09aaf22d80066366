abstract class Account {
    final int number() {
        return 1;
    }

    int kind() {
        return 0;
    }

    static int ask(Account account, Savings savings) {
        return account.number() + account.kind() + savings.number();
    }
}

class Savings extends Account {}
