package small;

import java.util.Map;

abstract class Generic<K extends Number & Comparable<? super K>, V> implements Map.Entry<K, V[]> {
    <T extends Exception> void fail(T error) throws T {
        throw error;
    }

    abstract Map<? extends K, ? super V> map();
}
