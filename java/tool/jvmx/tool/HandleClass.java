package jvmx.tool;

import org.objectweb.asm.Opcodes;
import org.objectweb.asm.Type;
import org.objectweb.asm.tree.ClassNode;
import org.objectweb.asm.tree.FieldNode;
import org.objectweb.asm.tree.MethodNode;

/** Makes the class whose one object reads and writes one field of any object. */
final class HandleClass {
    /** The static method that writes the field under the handle's monitor. */
    static final String STORE = "store";

    private static final String IT = "it";
    private static final String HANDLE_TYPE = "L" + FieldHandles.HANDLE + ";";

    private final String holder;
    private final FieldNode field;
    private final Type type;
    private final boolean isStatic;

    private HandleClass(String holder, FieldNode field) {
        this.holder = holder;
        this.field = field;
        type = Type.getType(field.desc);
        isStatic = (field.access & Opcodes.ACC_STATIC) != 0;
    }

    /** Returns the class of this name for a field of a class. */
    static ClassNode of(String name, ProgramClass holder, FieldNode field) {
        HandleClass maker = new HandleClass(holder.name(), field);
        ClassNode made = new ClassNode();
        int access = Opcodes.ACC_PUBLIC | Opcodes.ACC_FINAL | Opcodes.ACC_SUPER | Opcodes.ACC_SYNTHETIC;
        made.visit(Opcodes.V1_5, access, name, null, FieldHandles.HANDLE, null);
        made.sourceFile = holder.node.sourceFile;
        made.fields.add(new FieldNode(Opcodes.ACC_PUBLIC | Opcodes.ACC_STATIC | Opcodes.ACC_FINAL, IT, HANDLE_TYPE, null, null));
        made.methods.add(constructor());
        made.methods.add(initialiser(name));
        made.methods.add(maker.reader());
        made.methods.add(maker.writer());
        made.methods.add(maker.store(name));
        return made;
    }

    /** Returns `Object`, `Int` or `Long`, the part of the library's names for a type. */
    static String kind(Type type) {
        return Names.isReference(type) ? "Object" : type.getSort() == Type.LONG ? "Long" : "Int";
    }

    /** Returns the descriptor of the widest type of the same kind. */
    static String wide(Type type) {
        return Names.isReference(type) ? "Ljava/lang/Object;" : type.getSort() == Type.LONG ? "J" : "I";
    }

    /** Returns the method that takes the place of a look-up: it takes the same operands and returns the handle. */
    static MethodNode lookUp(String handle, String owner, String name, String descriptor) {
        MethodNode made = new MethodNode(Opcodes.ACC_PUBLIC | Opcodes.ACC_STATIC, name, descriptor, null, null);
        made.visitFieldInsn(Opcodes.GETSTATIC, handle, IT, HANDLE_TYPE);
        if (name.equals("objectFieldOffset")) {
            made.visitMethodInsn(Opcodes.INVOKESTATIC, owner, "offset", "(" + HANDLE_TYPE + ")J", false);
        } else if (name.equals("newUpdater")) {
            made.visitMethodInsn(Opcodes.INVOKESTATIC, owner, "over", "(" + HANDLE_TYPE + ")L" + owner + ";", false);
        }
        made.visitInsn(Type.getReturnType(descriptor).getOpcode(Opcodes.IRETURN));
        return made;
    }

    private static MethodNode constructor() {
        MethodNode made = new MethodNode(0, "<init>", "()V", null, null);
        made.visitVarInsn(Opcodes.ALOAD, 0);
        made.visitMethodInsn(Opcodes.INVOKESPECIAL, FieldHandles.HANDLE, "<init>", "()V", false);
        made.visitInsn(Opcodes.RETURN);
        return made;
    }

    private static MethodNode initialiser(String name) {
        MethodNode made = new MethodNode(Opcodes.ACC_STATIC, "<clinit>", "()V", null, null);
        made.visitTypeInsn(Opcodes.NEW, name);
        made.visitInsn(Opcodes.DUP);
        made.visitMethodInsn(Opcodes.INVOKESPECIAL, name, "<init>", "()V", false);
        made.visitFieldInsn(Opcodes.PUTSTATIC, name, IT, HANDLE_TYPE);
        made.visitInsn(Opcodes.RETURN);
        return made;
    }

    private void pushHolder(MethodNode made) {
        if (!isStatic) {
            made.visitVarInsn(Opcodes.ALOAD, 1);
            made.visitTypeInsn(Opcodes.CHECKCAST, holder);
        }
    }

    private MethodNode reader() {
        MethodNode made = new MethodNode(Opcodes.ACC_PUBLIC, "get" + kind(type), "(Ljava/lang/Object;I)" + wide(type), null, null);
        pushHolder(made);
        made.visitFieldInsn(isStatic ? Opcodes.GETSTATIC : Opcodes.GETFIELD, holder, field.name, field.desc);
        made.visitInsn(Type.getType(wide(type)).getOpcode(Opcodes.IRETURN));
        return made;
    }

    private MethodNode writer() {
        MethodNode made = new MethodNode(Opcodes.ACC_PUBLIC, "put" + kind(type), "(Ljava/lang/Object;I" + wide(type) + ")V", null, null);
        pushHolder(made);
        made.visitVarInsn(Type.getType(wide(type)).getOpcode(Opcodes.ILOAD), 3);
        if (Names.isReference(type) && !type.getInternalName().equals(BuiltIns.OBJECT)) {
            made.visitTypeInsn(Opcodes.CHECKCAST, type.getInternalName());
        }
        made.visitFieldInsn(isStatic ? Opcodes.PUTSTATIC : Opcodes.PUTFIELD, holder, field.name, field.desc);
        made.visitInsn(Opcodes.RETURN);
        return made;
    }

    private MethodNode store(String name) {
        String descriptor = isStatic ? "(" + field.desc + ")V" : "(L" + holder + ";" + field.desc + ")V";
        MethodNode made = new MethodNode(Opcodes.ACC_PUBLIC | Opcodes.ACC_STATIC, STORE, descriptor, null, null);
        made.visitFieldInsn(Opcodes.GETSTATIC, name, IT, HANDLE_TYPE);
        if (isStatic) {
            made.visitInsn(Opcodes.ACONST_NULL);
        } else {
            made.visitVarInsn(Opcodes.ALOAD, 0);
        }
        made.visitInsn(Opcodes.ICONST_0);
        made.visitVarInsn(type.getOpcode(Opcodes.ILOAD), isStatic ? 0 : 1);
        made.visitMethodInsn(Opcodes.INVOKEVIRTUAL, FieldHandles.HANDLE, "set" + kind(type),
            "(Ljava/lang/Object;I" + wide(type) + ")V", false);
        made.visitInsn(Opcodes.RETURN);
        return made;
    }
}
