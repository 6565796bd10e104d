import java.io.ByteArrayInputStream;
import java.io.ByteArrayOutputStream;
import java.io.DataInputStream;
import java.io.DataOutputStream;
import java.io.IOException;
import java.io.UTFDataFormatException;

/**
 * Answers frames: 'r', a length of two bytes and a text, to be read by readUTF; 'w', a count of two bytes and units of two bytes, to be
 * written by writeUTF. An answer is 1, a length of four bytes and the units or the text's bytes; or 0.
 */
class Utf {
    public static void main(String[] arguments) throws IOException {
        DataInputStream in = new DataInputStream(new java.io.BufferedInputStream(System.in, 1 << 16));
        DataOutputStream out = new DataOutputStream(new java.io.BufferedOutputStream(System.out, 1 << 16));
        for (int kind = in.read(); kind >= 0; kind = in.read()) {
            byte[] answer = kind == 'r' ? read(in) : written(in);
            out.writeByte(answer == null ? 0 : 1);
            if (answer != null) {
                out.writeInt(answer.length);
                out.write(answer);
            }
        }
        out.flush();
    }

    static byte[] read(DataInputStream in) throws IOException {
        byte[] text = new byte[in.readUnsignedShort()];
        in.readFully(text);
        ByteArrayOutputStream framed = new ByteArrayOutputStream();
        new DataOutputStream(framed).writeShort(text.length);
        framed.write(text);
        try {
            String units = new DataInputStream(new ByteArrayInputStream(framed.toByteArray())).readUTF();
            ByteArrayOutputStream answer = new ByteArrayOutputStream();
            new DataOutputStream(answer).writeChars(units);
            return answer.toByteArray();
        } catch (UTFDataFormatException bad) {
            return null;
        }
    }

    static byte[] written(DataInputStream in) throws IOException {
        char[] units = new char[in.readUnsignedShort()];
        for (int i = 0; i < units.length; i++) units[i] = in.readChar();
        ByteArrayOutputStream framed = new ByteArrayOutputStream();
        try {
            new DataOutputStream(framed).writeUTF(new String(units));
        } catch (UTFDataFormatException tooLong) {
            return null;
        }
        byte[] bytes = framed.toByteArray();
        return java.util.Arrays.copyOfRange(bytes, 2, bytes.length);
    }
}
