package small.shown;

import java.io.PrintWriter;

public class Tool implements java.util.spi.ToolProvider {
    public String name() {
        return "tool";
    }

    public int run(PrintWriter out, PrintWriter err, String... arguments) {
        out.println(arguments.length + " words");
        return 0;
    }
}
