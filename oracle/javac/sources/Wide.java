package small;

class Wide {
    // a wide constant is the last thing that this class asks for
    static double last(double d) {
        return d + 6.02214076e23;
    }
}
