package small;

import java.util.Comparator;

class Bridges implements Comparator<String>, Cloneable {
    @Override
    public int compare(String a, String b) {
        return a.length() - b.length();
    }

    @Override
    public Bridges clone() throws CloneNotSupportedException {
        return (Bridges) super.clone();
    }
}
