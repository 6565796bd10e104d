package small;

class Looping {
    static int sum(Iterable<Integer> all, int[] more) {
        int sum = 0;
        for (int n : all) sum += n;
        for (int n : more) sum += n;
        do sum--; while (sum > 100000);
        return sum;
    }
}
