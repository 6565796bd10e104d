package small;

import java.util.ArrayList;
import java.util.Collection;

class Calls extends ArrayList<String> {
    @Override
    public boolean add(String s) {
        return super.add(s.trim());
    }

    static void all(Collection<String> c, Calls d) {
        c.add("interface");
        d.add("class");
        Math.max(1, 2);
        d.clear();
    }
}
