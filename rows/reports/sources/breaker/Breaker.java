// Compiled beside an Account whose method number isn't final.
class Breaker extends Account {
    int number() {
        return 3;
    }
}
