package small;

class Primes {
    static int count(int below) {
        boolean[] composite = new boolean[below];
        int found = 0;
        outer:
        for (int n = 2; n < below; n++) {
            if (composite[n]) continue outer;
            found++;
            for (long m = (long) n * n; m < below; m += n) composite[(int) m] = true;
        }
        return found;
    }
}
