package small;

class Initializers {
    static final java.util.List<String> ALL = new java.util.ArrayList<>();
    final int n;

    static {
        ALL.add("static");
    }

    {
        ALL.add("instance");
    }

    Initializers(int n) {
        this.n = n;
    }

    Initializers() {
        this(1000000);
    }
}
