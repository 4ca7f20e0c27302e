package jvmx.tool;

import java.io.IOException;
import java.nio.file.Files;
import java.nio.file.Path;
import java.util.LinkedHashMap;
import java.util.Map;
import org.objectweb.asm.ClassWriter;
import org.objectweb.asm.Opcodes;
import org.objectweb.asm.tree.ClassNode;
import org.objectweb.asm.tree.MethodNode;

/** Finds out whether a jvmx has the natives of jvmx/Native. */
final class NativeProbe {
    private static final String MAIN = "Probe";
    /** What JVMX_NATIVES is taken for where it isn't set: on, off, or auto, which asks the jvmx at hand. */
    private static final String DEFAULT = "off";

    private NativeProbe() { }

    /** Returns whether natives are used: as the environment says, or as this jvmx has them. */
    static boolean areUsed(String program) {
        String wish = System.getenv().getOrDefault("JVMX_NATIVES", DEFAULT);
        return wish.equals("on") || wish.equals("auto") && areOffered(program);
    }

    private static boolean areOffered(String program) {
        try {
            Path folder = Files.createTempDirectory("jvmx-java");
            try {
                Map<String, byte[]> files = new LinkedHashMap<>();
                files.put(MAIN, bytes(main()));
                files.put(RawBodies.NATIVE, bytes(RawBodies.nativeClass()));
                Folders.write(folder, files);
                Process process = new ProcessBuilder(program, "run", "--entry", MAIN, folder.resolve(MAIN + ".class").toString(),
                    folder.resolve(RawBodies.NATIVE + ".class").toString()).redirectErrorStream(true).start();
                process.getOutputStream().close();
                JdkClasses.readAll(process.getInputStream());
                return Folders.waitFor(process) == 0;
            } finally {
                Folders.delete(folder);
            }
        } catch (IOException failure) {
            throw Refusal.ofDevice("there is no jvmx: " + failure.getMessage() + "; build it, or name it in JVMX");
        }
    }

    /** Returns a program that calls a native and does nothing else. */
    private static ClassNode main() {
        ClassNode made = new ClassNode();
        made.visit(Opcodes.V1_5, Opcodes.ACC_PUBLIC | Opcodes.ACC_SUPER, MAIN, null, BuiltIns.OBJECT, null);
        int access = Opcodes.ACC_PUBLIC | Opcodes.ACC_STATIC;
        MethodNode method = new MethodNode(access, "main", "([Ljava/lang/String;)V", null, null);
        method.visitInsn(Opcodes.ACONST_NULL);
        method.visitMethodInsn(Opcodes.INVOKESTATIC, RawBodies.NATIVE, "hash", "(Ljava/lang/Object;)I", false);
        method.visitInsn(Opcodes.POP);
        method.visitInsn(Opcodes.RETURN);
        made.methods.add(method);
        return made;
    }

    private static byte[] bytes(ClassNode node) {
        ClassWriter writer = new ClassWriter(ClassWriter.COMPUTE_MAXS);
        node.accept(writer);
        return writer.toByteArray();
    }
}
