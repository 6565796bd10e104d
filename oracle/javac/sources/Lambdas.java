package small;

class Lambdas {
    static Runnable plain() {
        return () -> System.out.println("run");
    }

    static java.util.function.IntUnaryOperator capturing(int by) {
        return x -> x * by;
    }
}
