package small;

class Synchronized {
    private final Object lock = new Object();
    private int n;

    synchronized void up() {
        n++;
    }

    void down() {
        synchronized (lock) {
            n--;
        }
    }
}
