package small;

class Asserting {
    static int half(int n) {
        assert n % 2 == 0 : "odd " + n;
        return n / 2;
    }
}
