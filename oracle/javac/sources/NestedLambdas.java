package small;

import java.util.function.Function;

class NestedLambdas {
    static Function<Integer, Function<Integer, Function<Integer, Integer>>> sum() {
        return a -> b -> c -> a + b + c;
    }
}
