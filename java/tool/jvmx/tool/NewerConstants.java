package jvmx.tool;

import org.objectweb.asm.ConstantDynamic;
import org.objectweb.asm.Handle;
import org.objectweb.asm.Type;

/** Knows the constants that files of version 49 don't have. */
final class NewerConstants {
    private NewerConstants() { }

    /** Returns the class of the constant, or null if a file of version 49 can have it. */
    static String classOf(Object constant) {
        if (constant instanceof Handle) {
            return "java/lang/invoke/MethodHandle";
        }
        if (constant instanceof ConstantDynamic) {
            return ((ConstantDynamic) constant).getBootstrapMethod().getOwner();
        }
        boolean isMethodType = constant instanceof Type && ((Type) constant).getSort() == Type.METHOD;
        return isMethodType ? "java/lang/invoke/MethodType" : null;
    }
}
