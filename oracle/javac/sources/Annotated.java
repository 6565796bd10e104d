package small;

import java.lang.annotation.Retention;
import java.lang.annotation.RetentionPolicy;

@Annotated.Mark(name = "here", numbers = {1, 2}, of = String.class, weight = 2.5, state = Thread.State.NEW)
class Annotated {
    @Retention(RetentionPolicy.RUNTIME)
    @interface Mark {
        String name();
        int[] numbers() default {};
        Class<?> of() default Object.class;
        double weight() default Double.NaN;
        Thread.State state();
    }

    @Deprecated(since = "1", forRemoval = true)
    void old() {}
}
