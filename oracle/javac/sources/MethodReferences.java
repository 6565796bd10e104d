package small;

import java.util.function.Function;
import java.util.function.Supplier;

class MethodReferences {
    Supplier<StringBuilder> constructor = StringBuilder::new;
    Function<String, Integer> ofAny = String::length;
    Function<Object, String> ofStatic = String::valueOf;
    Supplier<String> ofThis = this::toString;
    Supplier<String> ofSuper = super::toString;
    Function<Integer, int[]> array = int[]::new;
}
