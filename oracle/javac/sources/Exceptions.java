package small;

import java.io.IOException;

class Exceptions {
    static int tried(java.io.Reader reader) throws IOException {
        try (reader) {
            return reader.read();
        } catch (IllegalStateException | UnsupportedOperationException e) {
            throw new IOException("failed", e);
        } finally {
            System.out.println("done");
        }
    }
}
