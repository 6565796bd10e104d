import java.io.File;
import java.nio.charset.StandardCharsets;
import java.io.PrintStream;
import java.nio.file.Files;
import java.nio.file.Path;
import java.util.Arrays;

/**
 * Has a class loader define each class file named, and prints its name, its super class and its modifiers. A file without its last byte,
 * and one with a byte behind it, must be refused.
 */
class Define {
    private static class Loader extends ClassLoader {
        Class<?> define(byte[] file) {
            return defineClass(null, file, 0, file.length);
        }
    }

    public static void main(String[] files) throws Exception {
        PrintStream out = new PrintStream(System.out, true, StandardCharsets.UTF_8);
        for (String file : files) {
            byte[] bytes = Files.readAllBytes(Path.of(file));
            out.println(new File(file).getName() + "\t" + defined(bytes)
                + "\t" + refused(Arrays.copyOf(bytes, bytes.length - 1)) + "\t" + refused(Arrays.copyOf(bytes, bytes.length + 1)));
        }
    }

    private static String defined(byte[] file) {
        try {
            Class<?> made = new Loader().define(file);
            // an interface has no super class to tell of, though its file names Object
            String above = made.isInterface() ? "java.lang.Object" : made.getSuperclass().getName();
            return made.getName() + "\t" + above + "\t" + made.getModifiers();
        } catch (LinkageError error) {
            return error + "\t\t";
        }
    }

    private static boolean refused(byte[] file) {
        try {
            new Loader().define(file);
            return false;
        } catch (ClassFormatError error) {
            return true;
        }
    }
}
