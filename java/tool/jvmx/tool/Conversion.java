package jvmx.tool;

import org.objectweb.asm.MethodVisitor;
import org.objectweb.asm.Opcodes;
import org.objectweb.asm.Type;

/** Writes the conversions between types that a lambda's interface and its method differ in. */
final class Conversion {
    private static final String[] BOXES = {
        null, "Boolean", "Character", "Byte", "Short", "Integer", "Float", "Long", "Double"
    };
    private static final Type[] PRIMITIVES = {
        null, Type.BOOLEAN_TYPE, Type.CHAR_TYPE, Type.BYTE_TYPE, Type.SHORT_TYPE, Type.INT_TYPE, Type.FLOAT_TYPE,
        Type.LONG_TYPE, Type.DOUBLE_TYPE
    };

    private Conversion() { }

    /** Writes the instructions that turn the topmost operand of one type into one of another. */
    static void write(MethodVisitor method, Type from, Type to) {
        if (from.equals(to)) {
            return;
        }
        if (Names.isReference(from) && Names.isReference(to)) {
            cast(method, to);
        } else if (Names.isReference(from)) {
            unbox(method, from, to);
        } else if (Names.isReference(to)) {
            box(method, from, to);
        } else {
            widen(method, from, to);
        }
    }

    private static void cast(MethodVisitor method, Type to) {
        if (!to.getInternalName().equals(BuiltIns.OBJECT)) {
            method.visitTypeInsn(Opcodes.CHECKCAST, to.getInternalName());
        }
    }

    private static void unbox(MethodVisitor method, Type from, Type to) {
        Type primitive = primitiveOf(from);
        if (primitive == null) {
            primitive = to;
            method.visitTypeInsn(Opcodes.CHECKCAST, boxOf(to));
        }
        method.visitMethodInsn(Opcodes.INVOKEVIRTUAL, boxOf(primitive), primitive.getClassName() + "Value",
            "()" + primitive.getDescriptor(), false);
        write(method, primitive, to);
    }

    private static void box(MethodVisitor method, Type from, Type to) {
        Type primitive = primitiveOf(to);
        if (primitive == null) {
            primitive = from;
        }
        write(method, from, primitive);
        method.visitMethodInsn(Opcodes.INVOKESTATIC, boxOf(primitive), "valueOf",
            "(" + primitive.getDescriptor() + ")L" + boxOf(primitive) + ";", false);
    }

    private static void widen(MethodVisitor method, Type from, Type to) {
        int source = rank(from);
        int target = rank(to);
        if (source < target) {
            method.visitInsn(WIDENING[source][target]);
        }
    }

    private static final int[][] WIDENING = {
        { 0, Opcodes.I2L, Opcodes.I2F, Opcodes.I2D },
        { 0, 0, Opcodes.L2F, Opcodes.L2D },
        { 0, 0, 0, Opcodes.F2D },
        { 0, 0, 0, 0 }
    };

    private static int rank(Type primitive) {
        switch (primitive.getSort()) {
            case Type.LONG: return 1;
            case Type.FLOAT: return 2;
            case Type.DOUBLE: return 3;
            default: return 0;
        }
    }

    /** Returns the class whose objects have a value of the primitive type. */
    static String boxOf(Type primitive) {
        return "java/lang/" + BOXES[primitive.getSort()];
    }

    private static Type primitiveOf(Type box) {
        for (int i = 1; i < BOXES.length; i++) {
            if (box.getInternalName().equals("java/lang/" + BOXES[i])) {
                return PRIMITIVES[i];
            }
        }
        return null;
    }
}
