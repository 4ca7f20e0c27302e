package jvmx.tool;

import org.objectweb.asm.Label;
import org.objectweb.asm.Opcodes;
import org.objectweb.asm.Type;
import org.objectweb.asm.tree.ClassNode;
import org.objectweb.asm.tree.FieldNode;
import org.objectweb.asm.tree.MethodNode;

/**
 * Gives classes that implement Cloneable what Object.clone does: a constructor that copies the fields of another
 * object, up to the topmost class, and a method that calls it.
 */
final class Cloning {
    /** The interface of the classes that can be copied. */
    static final String COPYABLE = "jx/gen/Copyable";

    private static final String COPY = "jxCopy";
    private static final String COPY_DESCRIPTOR = "()Ljava/lang/Object;";

    private Cloning() { }

    /** Returns the interface of the classes that can be copied. */
    static ClassNode copyable() {
        ClassNode made = new ClassNode();
        made.visit(Opcodes.V1_5, Opcodes.ACC_PUBLIC | Opcodes.ACC_INTERFACE | Opcodes.ACC_ABSTRACT, COPYABLE, null, BuiltIns.OBJECT, null);
        made.methods.add(new MethodNode(Opcodes.ACC_PUBLIC | Opcodes.ACC_ABSTRACT, COPY, COPY_DESCRIPTOR, null, null));
        return made;
    }

    /** Writes the method that copies any object, or throws CloneNotSupportedException. */
    static void writeDispatch(MethodNode method, Literals literals) {
        Label no = new Label();
        method.visitVarInsn(Opcodes.ALOAD, 0);
        method.visitTypeInsn(Opcodes.INSTANCEOF, COPYABLE);
        method.visitJumpInsn(Opcodes.IFEQ, no);
        method.visitVarInsn(Opcodes.ALOAD, 0);
        method.visitTypeInsn(Opcodes.CHECKCAST, COPYABLE);
        method.visitMethodInsn(Opcodes.INVOKEINTERFACE, COPYABLE, COPY, COPY_DESCRIPTOR, true);
        method.visitInsn(Opcodes.ARETURN);
        method.visitLabel(no);
        String thrown = "java/lang/CloneNotSupportedException";
        method.visitTypeInsn(Opcodes.NEW, thrown);
        method.visitInsn(Opcodes.DUP);
        method.visitVarInsn(Opcodes.ALOAD, 0);
        method.visitMethodInsn(Opcodes.INVOKESTATIC, "jx/Obj", "getClass", "(Ljava/lang/Object;)Ljava/lang/Class;", false);
        method.visitMethodInsn(Opcodes.INVOKESTATIC, "jx/Classes", "getName", "(Ljava/lang/Class;)Ljx/Str;", false);
        method.visitMethodInsn(Opcodes.INVOKESPECIAL, thrown, "<init>", "(Ljx/Str;)V", false);
        method.visitInsn(Opcodes.ATHROW);
    }

    /** Adds the constructor to a class with a superclass that has one too, or is the machine's. */
    static void addConstructor(ClassNode node, boolean isTop) {
        MethodNode made = new MethodNode(Opcodes.ACC_PROTECTED | Opcodes.ACC_SYNTHETIC, "<init>", descriptor(node.name), null, null);
        made.visitVarInsn(Opcodes.ALOAD, 0);
        if (isTop) {
            made.visitMethodInsn(Opcodes.INVOKESPECIAL, node.superName, "<init>", "()V", false);
        } else {
            made.visitVarInsn(Opcodes.ALOAD, 1);
            made.visitInsn(Opcodes.ACONST_NULL);
            made.visitMethodInsn(Opcodes.INVOKESPECIAL, node.superName, "<init>", descriptor(node.superName), false);
        }
        for (FieldNode field : node.fields) {
            if ((field.access & Opcodes.ACC_STATIC) == 0 && !field.name.equals(Equipment.NUMBER)) {
                made.visitVarInsn(Opcodes.ALOAD, 0);
                made.visitVarInsn(Opcodes.ALOAD, 1);
                made.visitFieldInsn(Opcodes.GETFIELD, node.name, field.name, field.desc);
                made.visitFieldInsn(Opcodes.PUTFIELD, node.name, field.name, field.desc);
            }
        }
        made.visitInsn(Opcodes.RETURN);
        node.methods.add(made);
    }

    /** Adds the method that makes the copy to a class of which objects are made. */
    static void addCopy(ClassNode node) {
        MethodNode made = new MethodNode(Opcodes.ACC_PUBLIC | Opcodes.ACC_SYNTHETIC, COPY, COPY_DESCRIPTOR, null, null);
        made.visitTypeInsn(Opcodes.NEW, node.name);
        made.visitInsn(Opcodes.DUP);
        made.visitVarInsn(Opcodes.ALOAD, 0);
        made.visitInsn(Opcodes.ACONST_NULL);
        made.visitMethodInsn(Opcodes.INVOKESPECIAL, node.name, "<init>", descriptor(node.name), false);
        made.visitInsn(Opcodes.ARETURN);
        node.methods.add(made);
        node.interfaces.add(COPYABLE);
    }

    private static String descriptor(String owner) {
        return "(L" + owner + ";L" + COPYABLE + ";)V";
    }

    /** Returns the operand of `newarray` for a primitive type. */
    static int codeOf(Type primitive) {
        return "ZCFDBSIJ".indexOf(primitive.getDescriptor()) + Opcodes.T_BOOLEAN;
    }
}
