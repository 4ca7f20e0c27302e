package jvmx.tool;

import org.objectweb.asm.ClassReader;
import org.objectweb.asm.ClassVisitor;
import org.objectweb.asm.MethodVisitor;
import org.objectweb.asm.Opcodes;

/** Finds main methods. */
final class MainMethods {
    private MainMethods() { }

    /** Returns whether a class file, or null, has a static method main on strings. */
    static boolean isIn(byte[] classFile) {
        if (classFile == null) {
            return false;
        }
        boolean[] found = { false };
        new ClassReader(classFile).accept(new ClassVisitor(Opcodes.ASM9) {
            @Override
            public MethodVisitor visitMethod(int access, String name, String descriptor, String signature, String[] exceptions) {
                found[0] |= (access & Opcodes.ACC_STATIC) != 0 && name.equals("main") && descriptor.equals("([Ljava/lang/String;)V");
                return null;
            }
        }, ClassReader.SKIP_CODE | ClassReader.SKIP_DEBUG);
        return found[0];
    }
}
