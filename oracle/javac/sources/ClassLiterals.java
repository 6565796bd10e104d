package small;

class ClassLiterals {
    static Class<?>[] all() {
        return new Class<?>[] {String.class, String[].class, Integer.class, java.util.Map.Entry.class, void.class};
    }
}
