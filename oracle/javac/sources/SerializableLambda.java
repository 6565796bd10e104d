package small;

import java.io.Serializable;

class SerializableLambda {
    static Object made() {
        return (Runnable & Serializable) () -> System.out.println("kept");
    }
}
