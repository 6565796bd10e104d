package small;

enum Operation {
    PLUS("+") {
        int apply(int a, int b) {
            return a + b;
        }
    },
    TIMES("*") {
        int apply(int a, int b) {
            return a * b;
        }
    };

    final String sign;

    Operation(String sign) {
        this.sign = sign;
    }

    abstract int apply(int a, int b);
}
