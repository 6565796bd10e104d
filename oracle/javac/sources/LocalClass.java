package small;

class LocalClass {
    static int count(String text) {
        class Counter {
            int n = text.length();
        }
        return new Counter().n;
    }
}
