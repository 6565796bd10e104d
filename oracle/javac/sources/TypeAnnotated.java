package small;

import java.lang.annotation.ElementType;
import java.lang.annotation.Target;
import java.util.List;

class TypeAnnotated {
    @Target(ElementType.TYPE_USE)
    @interface Clean {}

    List<@Clean String> names;

    @Clean String first() {
        return (@Clean String) names.get(0);
    }
}
