package jvmx.tool;

import java.util.ArrayList;
import java.util.List;
import org.objectweb.asm.Handle;
import org.objectweb.asm.Label;
import org.objectweb.asm.Opcodes;
import org.objectweb.asm.Type;
import org.objectweb.asm.tree.ClassNode;
import org.objectweb.asm.tree.InvokeDynamicInsnNode;
import org.objectweb.asm.tree.MethodNode;

/** Makes the classes of a record's toString, hashCode and equals, which compilers leave to a call site. */
final class Records {
    static final String FACTORY = "java/lang/runtime/ObjectMethods";

    private static final String BUILDER = "java/lang/StringBuilder";

    private final InvokeDynamicInsnNode call;
    private final String record;
    private final String[] names;
    private final List<Handle> fields = new ArrayList<>();
    private final MethodNode method;

    private Records(InvokeDynamicInsnNode call) {
        this.call = call;
        record = ((Type) call.bsmArgs[0]).getInternalName();
        String list = (String) call.bsmArgs[1];
        names = list.isEmpty() ? new String[0] : list.split(";");
        for (int i = 2; i < call.bsmArgs.length; i++) {
            fields.add((Handle) call.bsmArgs[i]);
        }
        method = new MethodNode(Opcodes.ACC_STATIC, call.name, call.desc, null, null);
    }

    /** Returns the class, with the names of the source, whose static method does what the call asks for. */
    static ClassNode classOf(String name, InvokeDynamicInsnNode call, String file, int line) {
        ClassNode made = new ClassNode();
        made.visit(Opcodes.V1_5, Opcodes.ACC_FINAL | Opcodes.ACC_SUPER | Opcodes.ACC_SYNTHETIC, name, null, BuiltIns.OBJECT, null);
        made.sourceFile = file;
        Records records = new Records(call);
        Code.line(records.method, line);
        switch (call.name) {
            case "toString": records.writeToString(); break;
            case "hashCode": records.writeHashCode(); break;
            default: records.writeEquals();
        }
        made.methods.add(records.method);
        return made;
    }

    private void load(int local, Handle field) {
        method.visitVarInsn(Opcodes.ALOAD, local);
        method.visitFieldInsn(Opcodes.GETFIELD, field.getOwner(), field.getName(), field.getDesc());
    }

    private void writeToString() {
        StringBuilder text = new StringBuilder(record.substring(Math.max(record.lastIndexOf('/'), record.lastIndexOf('$')) + 1));
        while (text.length() > 0 && Character.isDigit(text.charAt(0))) {
            text.deleteCharAt(0);
        }
        text.append('[');
        method.visitTypeInsn(Opcodes.NEW, BUILDER);
        method.visitInsn(Opcodes.DUP);
        method.visitMethodInsn(Opcodes.INVOKESPECIAL, BUILDER, "<init>", "()V", false);
        for (int i = 0; i < names.length; i++) {
            append(text.append(names[i]).append('=').toString());
            text.setLength(0);
            load(0, fields.get(i));
            Type type = Type.getType(fields.get(i).getDesc());
            boolean isNumber = type.getSort() == Type.BYTE || type.getSort() == Type.SHORT;
            String parameter = Names.isReference(type) ? "Ljava/lang/Object;" : isNumber ? "I" : type.getDescriptor();
            append("(" + parameter + ")");
            text.append(i + 1 < names.length ? ", " : "");
        }
        append(text.append(']').toString());
        method.visitMethodInsn(Opcodes.INVOKEVIRTUAL, BUILDER, "toString", "()Ljava/lang/String;", false);
        method.visitInsn(Opcodes.ARETURN);
    }

    /** Appends a text, or the topmost operand if a parameter list is given. */
    private void append(String text) {
        boolean isOperand = text.startsWith("(");
        if (!isOperand) {
            method.visitLdcInsn(text);
        }
        method.visitMethodInsn(Opcodes.INVOKEVIRTUAL, BUILDER, "append",
            (isOperand ? text : "(Ljava/lang/String;)") + "L" + BUILDER + ";", false);
    }

    private void writeHashCode() {
        method.visitInsn(Opcodes.ICONST_0);
        for (Handle field : fields) {
            Code.push(method, 31);
            method.visitInsn(Opcodes.IMUL);
            load(0, field);
            Type type = Type.getType(field.getDesc());
            if (Names.isReference(type)) {
                method.visitMethodInsn(Opcodes.INVOKESTATIC, "java/util/Objects", "hashCode", "(Ljava/lang/Object;)I", false);
            } else {
                method.visitMethodInsn(Opcodes.INVOKESTATIC, Conversion.boxOf(type), "hashCode", "(" + type.getDescriptor() + ")I", false);
            }
            method.visitInsn(Opcodes.IADD);
        }
        method.visitInsn(Opcodes.IRETURN);
    }

    private void writeEquals() {
        Label no = new Label();
        method.visitVarInsn(Opcodes.ALOAD, 1);
        method.visitTypeInsn(Opcodes.INSTANCEOF, record);
        method.visitJumpInsn(Opcodes.IFEQ, no);
        method.visitVarInsn(Opcodes.ALOAD, 1);
        method.visitTypeInsn(Opcodes.CHECKCAST, record);
        method.visitVarInsn(Opcodes.ASTORE, 1);
        for (Handle field : fields) {
            load(0, field);
            load(1, field);
            compare(Type.getType(field.getDesc()), no);
        }
        method.visitInsn(Opcodes.ICONST_1);
        method.visitInsn(Opcodes.IRETURN);
        method.visitLabel(no);
        method.visitInsn(Opcodes.ICONST_0);
        method.visitInsn(Opcodes.IRETURN);
    }

    private void compare(Type type, Label different) {
        if (Names.isReference(type)) {
            method.visitMethodInsn(Opcodes.INVOKESTATIC, "java/util/Objects", "equals", "(Ljava/lang/Object;Ljava/lang/Object;)Z", false);
            method.visitJumpInsn(Opcodes.IFEQ, different);
        } else if (type.getSort() == Type.LONG) {
            method.visitInsn(Opcodes.LCMP);
            method.visitJumpInsn(Opcodes.IFNE, different);
        } else if (type.getSort() == Type.FLOAT || type.getSort() == Type.DOUBLE) {
            method.visitMethodInsn(Opcodes.INVOKESTATIC, Conversion.boxOf(type), "compare",
                "(" + type.getDescriptor() + type.getDescriptor() + ")I", false);
            method.visitJumpInsn(Opcodes.IFNE, different);
        } else {
            method.visitJumpInsn(Opcodes.IF_ICMPNE, different);
        }
    }
}
