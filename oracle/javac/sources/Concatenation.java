package small;

class Concatenation {
    static String join(int a, long b, double c, Object d) {
        return "a=" + a + ", b=" + b + ", c=" + c + " d=" + d;
    }
}
