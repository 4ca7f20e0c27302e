package jvmx.tool;

import java.util.ArrayList;
import java.util.List;
import org.objectweb.asm.MethodVisitor;
import org.objectweb.asm.Opcodes;
import org.objectweb.asm.Type;
import org.objectweb.asm.tree.ClassNode;
import org.objectweb.asm.tree.InvokeDynamicInsnNode;
import org.objectweb.asm.tree.MethodNode;

/** Makes the class that joins strings where a newer compiler leaves that to a call site. */
final class Concatenations {
    static final String FACTORY = "java/lang/invoke/StringConcatFactory";
    /** The static method that takes the parts and returns the joined string. */
    static final String JOIN = "join";

    private static final String BUILDER = "java/lang/StringBuilder";
    private static final char ARGUMENT = '\u0001';
    private static final char CONSTANT = '\u0002';

    private Concatenations() { }

    /** Returns the class, with the names of the source, that joins the parts of the call. */
    static ClassNode classOf(String name, InvokeDynamicInsnNode call, String file, int line) {
        ClassNode made = new ClassNode();
        made.visit(Opcodes.V1_5, Opcodes.ACC_FINAL | Opcodes.ACC_SUPER | Opcodes.ACC_SYNTHETIC, name, null, BuiltIns.OBJECT, null);
        made.sourceFile = file;
        MethodNode method = new MethodNode(Opcodes.ACC_STATIC, JOIN, call.desc, null, null);
        Code.line(method, line);
        method.visitTypeInsn(Opcodes.NEW, BUILDER);
        method.visitInsn(Opcodes.DUP);
        method.visitMethodInsn(Opcodes.INVOKESPECIAL, BUILDER, "<init>", "()V", false);
        appendParts(method, call);
        method.visitMethodInsn(Opcodes.INVOKEVIRTUAL, BUILDER, "toString", "()Ljava/lang/String;", false);
        method.visitInsn(Opcodes.ARETURN);
        made.methods.add(method);
        return made;
    }

    private static void appendParts(MethodNode method, InvokeDynamicInsnNode call) {
        Type[] types = Type.getArgumentTypes(call.desc);
        List<Object> constants = new ArrayList<>();
        String recipe = recipe(call, types.length, constants);
        StringBuilder text = new StringBuilder();
        int argument = 0;
        int local = 0;
        int constant = 0;
        for (char unit : recipe.toCharArray()) {
            if (unit == CONSTANT) {
                text.append(constants.get(constant++));
            } else if (unit != ARGUMENT) {
                text.append(unit);
            } else {
                appendText(method, text);
                Type type = types[argument++];
                method.visitVarInsn(type.getOpcode(Opcodes.ILOAD), local);
                local += type.getSize();
                append(method, type);
            }
        }
        appendText(method, text);
    }

    private static String recipe(InvokeDynamicInsnNode call, int count, List<Object> constants) {
        if (call.bsm.getName().equals("makeConcatWithConstants")) {
            for (int i = 1; i < call.bsmArgs.length; i++) {
                constants.add(call.bsmArgs[i]);
            }
            return (String) call.bsmArgs[0];
        }
        StringBuilder recipe = new StringBuilder();
        for (int i = 0; i < count; i++) {
            recipe.append(ARGUMENT);
        }
        return recipe.toString();
    }

    private static void appendText(MethodVisitor method, StringBuilder text) {
        if (text.length() > 0) {
            method.visitLdcInsn(text.toString());
            append(method, Type.getObjectType(BuiltIns.STRING));
            text.setLength(0);
        }
    }

    private static void append(MethodVisitor method, Type type) {
        method.visitMethodInsn(Opcodes.INVOKEVIRTUAL, BUILDER, "append", "(" + parameter(type) + ")L" + BUILDER + ";", false);
    }

    private static String parameter(Type type) {
        switch (type.getSort()) {
            case Type.BYTE:
            case Type.SHORT: return "I";
            case Type.OBJECT: return type.getInternalName().equals(BuiltIns.STRING) ? type.getDescriptor() : "Ljava/lang/Object;";
            case Type.ARRAY: return "Ljava/lang/Object;";
            default: return type.getDescriptor();
        }
    }
}
