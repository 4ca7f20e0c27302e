package jvmx.tool;

import java.util.Set;
import org.objectweb.asm.Opcodes;
import org.objectweb.asm.tree.InsnNode;
import org.objectweb.asm.tree.MethodInsnNode;
import org.objectweb.asm.tree.MethodNode;

/** Turns calls of members that the machine's classes lack into calls of the library, each into one instruction. */
final class Calls {
    private static final String OBJECTS = "jx/Obj";
    private static final String CLASSES = "jx/Classes";
    private static final String THROWABLES = "jx/Throwables";
    /** Has those methods whose bodies depend on the program's classes. The tool makes it. */
    static final String TABLE = "jx/gen/Names";
    private static final String RECEIVER = "(Ljava/lang/Object;";

    private final World world;
    private final ArrayTypes arrays;

    Calls(World world, ArrayTypes arrays) {
        this.world = world;
        this.arrays = arrays;
    }

    /** Rewrites one call of a method that has the names of the adapted program. */
    void rewrite(ProgramClass host, MethodNode method, MethodInsnNode call) {
        switch (call.getOpcode()) {
            case Opcodes.INVOKESPECIAL: special(host, call); break;
            case Opcodes.INVOKESTATIC: ofStatic(method, call); break;
            default: ofObject(host, call);
        }
    }

    private static void toStatic(MethodInsnNode call, String owner, String name, String descriptor) {
        call.setOpcode(Opcodes.INVOKESTATIC);
        call.owner = owner;
        call.name = name;
        call.desc = descriptor;
        call.itf = false;
    }

    private void special(ProgramClass host, MethodInsnNode call) {
        if (BuiltIns.isThrowable(call.owner) && !host.name().startsWith("jx/ex/")) {
            call.owner = BuiltIns.withMessage(call.owner);
        } else if (call.owner.equals(BuiltIns.OBJECT)) {
            ofSuperObject(call);
        }
    }

    /** Rewrites a call of a method of Object by super. */
    private static void ofSuperObject(MethodInsnNode call) {
        switch (Names.key(call.name, call.desc)) {
            case "hashCode()I":
                toStatic(call, OBJECTS, "identity", "(Ljava/lang/Object;)I");
                break;
            case "toString()Ljx/Str;":
                toStatic(call, OBJECTS, "defaultToString", "(Ljava/lang/Object;)Ljx/Str;");
                break;
            case "equals(Ljava/lang/Object;)Z":
                toStatic(call, TABLE, "same", "(Ljava/lang/Object;Ljava/lang/Object;)Z");
                break;
            case "clone()Ljava/lang/Object;":
                toStatic(call, TABLE, "clone", "(Ljava/lang/Object;)Ljava/lang/Object;");
                break;
            case "finalize()V":
                toStatic(call, TABLE, "nothing", "(Ljava/lang/Object;)V");
                break;
            default:
        }
    }

    private void ofStatic(MethodNode method, MethodInsnNode call) {
        if (call.owner.equals(BuiltIns.CLASS)) {
            call.owner = CLASSES;
        } else if (call.owner.equals(BuiltIns.ENUM) && call.name.equals("valueOf")) {
            call.owner = TABLE;
        } else if (call.name.equals("getJavaLangAccess") && world.isAbsent(call.owner)) {
            method.instructions.set(call, new InsnNode(Opcodes.ACONST_NULL));
        }
    }

    private void ofObject(ProgramClass host, MethodInsnNode call) {
        if (call.owner.startsWith("[")) {
            ofArray(call);
        } else if (call.owner.equals(BuiltIns.CLASS) && !call.name.equals("getClass")) {
            ofClass(host, call);
        } else if (!ofAnyObject(call)) {
            ofNamed(call);
        }
    }

    private void ofArray(MethodInsnNode call) {
        if (call.name.equals("clone")) {
            String array = call.owner;
            arrays.clone(array);
            toStatic(call, TABLE, ArrayTypes.cloner(array), "(" + array + ")Ljava/lang/Object;");
        } else {
            ofAnyObject(call);
        }
    }

    private static void ofClass(ProgramClass host, MethodInsnNode call) {
        if (call.name.equals("desiredAssertionStatus")) {
            toStatic(call, TABLE, host.isUser() ? "assertions" : "noAssertions", "(Ljava/lang/Class;)Z");
        } else if (!ofAnyObjectButTexts(call)) {
            toStatic(call, CLASSES, call.name, "(Ljava/lang/Class;" + call.desc.substring(1));
        }
    }

    /** Rewrites a call of a method of Object other than toString, hashCode and equals; returns whether it is one. */
    private static boolean ofAnyObjectButTexts(MethodInsnNode call) {
        switch (Names.key(call.name, call.desc)) {
            case "wait()V":
            case "wait(J)V":
            case "wait(JI)V":
                toStatic(call, OBJECTS, "await", RECEIVER + call.desc.substring(1));
                return true;
            case "notify()V":
                toStatic(call, OBJECTS, "wake", "(Ljava/lang/Object;)V");
                return true;
            case "notifyAll()V":
                toStatic(call, OBJECTS, "wakeAll", "(Ljava/lang/Object;)V");
                return true;
            case "getClass()Ljava/lang/Class;":
                toStatic(call, OBJECTS, "getClass", "(Ljava/lang/Object;)Ljava/lang/Class;");
                return true;
            default:
                return false;
        }
    }

    private boolean ofAnyObject(MethodInsnNode call) {
        String key = Names.key(call.name, call.desc);
        switch (key) {
            case "hashCode()I":
            case "equals(Ljava/lang/Object;)Z":
            case "toString()Ljx/Str;":
                if (!call.owner.startsWith("jx/Has") && !call.owner.equals("jx/Thrown") && !world.isDeclared(call.owner, key)) {
                    toStatic(call, OBJECTS, call.name, RECEIVER + call.desc.substring(1));
                }
                return true;
            default:
                return ofAnyObjectButTexts(call);
        }
    }

    private void ofNamed(MethodInsnNode call) {
        String key = Names.key(call.name, call.desc);
        if (call.owner.equals("java/math/BigInteger") && key.equals("toString(I)Ljx/Str;")) {
            toStatic(call, "jx/Big", "toString", "(Ljava/math/BigInteger;I)Ljx/Str;");
            return;
        }
        ProgramMethod resolved = world.resolve(call.owner, key);
        if (resolved != null) {
            if (resolved.is(Opcodes.ACC_PRIVATE) && !resolved.isStatic()) {
                call.setOpcode(Opcodes.INVOKESPECIAL);
                call.owner = resolved.owner.name();
            }
        } else if (BuiltIns.isThrowable(call.owner) || isThrowable(call.owner)) {
            toStatic(call, THROWABLES, call.name, "(Ljava/lang/Throwable;" + call.desc.substring(1));
        } else if (call.name.equals("getEnumConstantsShared")) {
            toStatic(call, TABLE, call.name, "(Ljava/lang/Object;" + call.desc.substring(1));
        }
    }

    private boolean isThrowable(String name) {
        ProgramClass found = world.find(name);
        Set<String> ancestors = found == null ? null : found.ancestors;
        return ancestors != null && ancestors.contains(BuiltIns.THROWABLE);
    }
}
