package small;

class Inner {
    private int held = 7;

    class One {
        int twice() {
            return 2 * held;
        }

        class Two {
            int thrice() {
                return 3 * held;
            }
        }
    }

    static class Nested {
        static final String NAME = "nested";
    }

    interface Within {
        void call();
    }
}
