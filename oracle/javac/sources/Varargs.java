package small;

class Varargs {
    static String format(String form, Object... all) {
        return String.format(form, all);
    }

    static String two() {
        return format("%s %d", "x", 70000);
    }
}
