package small;

class MixedNumbers {
    static double all(int i, long l, float f, double d) {
        return i * 100000 + l * 10000000000L + f * 2.5f + d * 1e100;
    }
}
