package small;

import java.util.List;
import java.util.function.ToIntFunction;

class InterfaceReference {
    static ToIntFunction<List<String>> size = List::size;
}
