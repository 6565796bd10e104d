package small;

import java.lang.invoke.MethodHandle;
import java.lang.invoke.VarHandle;

class Polymorphic {
    static int call(MethodHandle handle, VarHandle field, Object on) throws Throwable {
        field.set(on, 5L);
        return (int) handle.invokeExact("text", 3.0);
    }
}
