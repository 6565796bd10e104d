package small;

interface ConstantInterface {
    String NAME = "BootstrapMethods";
    int ANSWER = 424242;
    long BIG = 1L << 40;
    Object MADE = new Object();
}
