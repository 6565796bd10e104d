package small;

abstract class Natives {
    native long pointer(int[] from, String[][] names, double d);

    abstract float real(byte b, char c, short s, boolean z);
}
