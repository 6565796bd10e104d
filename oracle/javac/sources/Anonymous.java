package small;

class Anonymous {
    static Iterable<String> of(String... all) {
        return new Iterable<>() {
            public java.util.Iterator<String> iterator() {
                return java.util.List.of(all).iterator();
            }
        };
    }
}
