package small;

class Conversions {
    static String all(Object o) {
        int i = (Integer) o;
        long l = i;
        char c = (char) l;
        Double d = (double) c;
        return String.valueOf(d) + (o instanceof Number) + (byte) i;
    }
}
