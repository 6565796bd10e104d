import java.nio.file.Files;
import java.nio.file.Path;
import jdk.internal.org.objectweb.asm.ClassWriter;
import jdk.internal.org.objectweb.asm.ConstantDynamic;
import jdk.internal.org.objectweb.asm.Handle;
import jdk.internal.org.objectweb.asm.MethodVisitor;
import jdk.internal.org.objectweb.asm.Opcodes;
import jdk.internal.org.objectweb.asm.Type;

/**
 * javac writes no Dynamic constants, but the library's own class writer does: a file with handles of every kind, and with Dynamic
 * constants nested deeper than the listing opens them. The argument is the folder to write to.
 */
class Dynamics implements Opcodes {
    private static final Handle BOOTSTRAP = new Handle(H_INVOKESTATIC, "small/Bootstraps", "of",
        "(Ljava/lang/invoke/MethodHandles$Lookup;Ljava/lang/String;Ljava/lang/Class;[Ljava/lang/Object;)Ljava/lang/Object;", false);

    public static void main(String[] arguments) throws Exception {
        ClassWriter writer = new ClassWriter(0);
        writer.visit(V17, ACC_PUBLIC, "small/Made", null, "java/lang/Object", null);
        MethodVisitor method = writer.visitMethod(ACC_STATIC, "load", "()V", null, null);
        method.visitCode();
        Object inner = "bottom";
        for (int level = 0; level < 6; level++) {
            inner = new ConstantDynamic("level" + level, "Ljava/lang/Object;", BOOTSTRAP, inner, level, 0.5 * level, 1L << level);
            load(method, inner);
        }
        for (int kind = H_GETFIELD; kind <= H_PUTSTATIC; kind++) {
            load(method, new Handle(kind, "small/Made", "field" + kind, "I", false));
        }
        for (int kind = H_INVOKEVIRTUAL; kind <= H_INVOKEINTERFACE; kind++) {
            String name = kind == H_NEWINVOKESPECIAL ? "<init>" : "method" + kind;
            load(method, new Handle(kind, "small/Made", name, "()V", kind == H_INVOKEINTERFACE));
        }
        load(method, Type.getMethodType("(IJ)[Ljava/lang/String;"));
        method.visitInvokeDynamicInsn("call", "()V", BOOTSTRAP, inner, Type.getType("[[I"), 1.5f);
        method.visitInsn(RETURN);
        method.visitMaxs(1, 0);
        method.visitEnd();
        writer.visitEnd();
        Files.write(Path.of(arguments[0], "Made.class"), writer.toByteArray());
    }

    private static void load(MethodVisitor method, Object constant) {
        method.visitLdcInsn(constant);
        method.visitInsn(POP);
    }
}
