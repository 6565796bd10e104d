package small;

class Arrays {
    static Object[] all() {
        return new Object[] {new int[3], new String[2][4], new double[0][][], new Arrays[1], boolean[].class, int.class};
    }
}
