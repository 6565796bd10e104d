package small;

class Fields {
    static int shared;
    volatile long counted;
    transient Object forgotten;
    final int[] row = {1, 2, 3};
    protected String name = "name";

    void step() {
        shared++;
        counted += row[0];
        forgotten = name;
    }
}
