package jvmx.tool;

import java.util.List;
import org.objectweb.asm.Opcodes;
import org.objectweb.asm.tree.ClassNode;
import org.objectweb.asm.tree.FieldNode;
import org.objectweb.asm.tree.MethodNode;

/** Makes a class whose fields have the objects of constant strings, each from its units and the machine's own constant. */
final class LiteralClass {
    private static final String DESCRIPTOR = "L" + BuiltIns.TEXT + ";";
    /** How many units one method can write. */
    private static final int MOST_UNITS = 6000;

    private final ClassNode made = new ClassNode();

    LiteralClass(String name) {
        made.visit(Opcodes.V1_5, Opcodes.ACC_PUBLIC | Opcodes.ACC_SUPER, name, null, BuiltIns.OBJECT, null);
    }

    /** Returns the class of these texts. Its initialiser makes the objects. */
    ClassNode make(List<String> texts) {
        MethodNode initialiser = new MethodNode(Opcodes.ACC_STATIC, "<clinit>", "()V", null, null);
        for (String text : texts) {
            String field = "s" + made.fields.size();
            made.fields.add(new FieldNode(Opcodes.ACC_STATIC | Opcodes.ACC_PUBLIC, field, DESCRIPTOR, null, null));
            writeObject(initialiser, text);
            initialiser.visitFieldInsn(Opcodes.PUTSTATIC, made.name, field, DESCRIPTOR);
        }
        initialiser.visitInsn(Opcodes.RETURN);
        made.methods.add(initialiser);
        return made;
    }

    private void writeObject(MethodNode method, String text) {
        method.visitTypeInsn(Opcodes.NEW, BuiltIns.TEXT);
        method.visitInsn(Opcodes.DUP);
        Code.push(method, text.length());
        method.visitIntInsn(Opcodes.NEWARRAY, Opcodes.T_CHAR);
        if (text.length() <= MOST_UNITS) {
            writeUnits(method, text, 0, text.length());
            method.visitLdcInsn(text);
        } else {
            writeParts(method, text);
            method.visitInsn(Opcodes.ACONST_NULL);
        }
        method.visitMethodInsn(Opcodes.INVOKESPECIAL, BuiltIns.TEXT, "<init>", "([CLjava/lang/Object;)V", false);
    }

    private static void writeUnits(MethodNode method, String text, int from, int to) {
        for (int i = from; i < to; i++) {
            if (text.charAt(i) != 0) {
                method.visitInsn(Opcodes.DUP);
                Code.push(method, i);
                Code.push(method, text.charAt(i));
                method.visitInsn(Opcodes.CASTORE);
            }
        }
    }

    /** Writes the calls of methods that each write a part of a long text, and these methods. */
    private void writeParts(MethodNode method, String text) {
        for (int from = 0; from < text.length(); from += MOST_UNITS) {
            String name = "part" + made.methods.size();
            MethodNode part = new MethodNode(Opcodes.ACC_STATIC, name, "([C)[C", null, null);
            part.visitVarInsn(Opcodes.ALOAD, 0);
            writeUnits(part, text, from, Math.min(text.length(), from + MOST_UNITS));
            part.visitInsn(Opcodes.ARETURN);
            made.methods.add(part);
            method.visitMethodInsn(Opcodes.INVOKESTATIC, made.name, name, "([C)[C", false);
        }
    }
}
