package small;

interface Defaults {
    int size();

    default boolean isEmpty() {
        return size() == 0;
    }

    static Defaults of(int n) {
        return () -> n;
    }

    private int hidden() {
        return size() + 1;
    }
}
