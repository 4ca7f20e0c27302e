package jvmx.tool;

import org.objectweb.asm.Opcodes;
import org.objectweb.asm.Type;
import org.objectweb.asm.tree.ClassNode;
import org.objectweb.asm.tree.MethodNode;

/** Replaces the bodies of those methods of the library that no Java source can have. */
final class RawBodies {
    /** The class whose native methods the machine has, where it has any. */
    static final String NATIVE = "jvmx/Native";

    private static final String MONITORS = "jx/raw/Mon";
    private static final String NATIVES = "jx/raw/N";

    private final boolean hasNatives;

    RawBodies(boolean hasNatives) {
        this.hasNatives = hasNatives;
    }

    /** Returns a method of a raw class with the body that it has to have. */
    MethodNode body(ProgramMethod method) {
        if (method.owner.name().equals(MONITORS) && method.isStatic()) {
            return monitor(method, method.name.equals("enter") ? Opcodes.MONITORENTER : Opcodes.MONITOREXIT);
        }
        if (hasNatives && method.owner.name().equals(NATIVES)) {
            return ofNatives(method);
        }
        return method.source;
    }

    private static MethodNode empty(ProgramMethod method) {
        return new MethodNode(Opcodes.ASM9, method.access, method.name, method.descriptor, null, null);
    }

    private static MethodNode monitor(ProgramMethod method, int opcode) {
        MethodNode made = empty(method);
        made.visitVarInsn(Opcodes.ALOAD, 0);
        made.visitInsn(opcode);
        made.visitInsn(Opcodes.RETURN);
        return made;
    }

    private static MethodNode ofNatives(ProgramMethod method) {
        switch (method.name) {
            case "tryEnter": return call(method, "tryEnter", "(Ljava/lang/Object;)Z");
            case "holds": return call(method, "holds", "(Ljava/lang/Object;)Z");
            case "current": return call(method, "current", "()Ljava/lang/Thread;");
            case "id": return call(method, "hash", "(Ljava/lang/Object;)I");
            case "canTry": return yes(method);
            default: return method.source;
        }
    }

    private static MethodNode yes(ProgramMethod method) {
        MethodNode made = empty(method);
        made.visitInsn(Opcodes.ICONST_1);
        made.visitInsn(Opcodes.IRETURN);
        return made;
    }

    private static MethodNode call(ProgramMethod method, String name, String descriptor) {
        MethodNode made = empty(method);
        Code.loadArguments(made, Type.getArgumentTypes(method.descriptor), 0);
        made.visitMethodInsn(Opcodes.INVOKESTATIC, NATIVE, name, descriptor, false);
        made.visitInsn(Type.getReturnType(method.descriptor).getOpcode(Opcodes.IRETURN));
        return made;
    }

    /** Returns the class that declares the machine's natives. */
    static ClassNode nativeClass() {
        ClassNode made = new ClassNode();
        made.visit(Opcodes.V1_5, Opcodes.ACC_PUBLIC | Opcodes.ACC_FINAL | Opcodes.ACC_SUPER, NATIVE, null, BuiltIns.OBJECT, null);
        String[][] natives = {
            { "tryEnter", "(Ljava/lang/Object;)Z" }, { "holds", "(Ljava/lang/Object;)Z" },
            { "current", "()Ljava/lang/Thread;" }, { "hash", "(Ljava/lang/Object;)I" }
        };
        for (String[] each : natives) {
            int access = Opcodes.ACC_PUBLIC | Opcodes.ACC_STATIC | Opcodes.ACC_NATIVE;
            made.methods.add(new MethodNode(access, each[0], each[1], null, null));
        }
        return made;
    }
}
