package jvmx.tool;

import java.util.ArrayList;
import java.util.Arrays;
import java.util.LinkedHashSet;
import java.util.List;
import java.util.Set;
import org.objectweb.asm.Handle;
import org.objectweb.asm.Opcodes;
import org.objectweb.asm.Type;
import org.objectweb.asm.tree.ClassNode;
import org.objectweb.asm.tree.FieldNode;
import org.objectweb.asm.tree.InvokeDynamicInsnNode;
import org.objectweb.asm.tree.MethodNode;

/** Makes the class of a lambda or of a method reference, with the names of the source. */
final class Lambdas {
    static final String FACTORY = "java/lang/invoke/LambdaMetafactory";
    /** The static method that takes what the lambda captures, and returns its object. */
    static final String MAKE = "make";

    private static final int SERIALIZABLE = 1;
    private static final int MARKERS = 2;
    private static final int BRIDGES = 4;

    private final String name;
    private final InvokeDynamicInsnNode call;
    private final Type[] captured;
    private final Handle target;
    private final Type instantiated;
    private final ClassNode made = new ClassNode();
    private final int line;

    private Lambdas(String name, InvokeDynamicInsnNode call, int line) {
        this.name = name;
        this.call = call;
        this.line = line;
        captured = Type.getArgumentTypes(call.desc);
        target = (Handle) call.bsmArgs[1];
        instantiated = (Type) call.bsmArgs[2];
    }

    /** Returns the class of the lambda that the call makes, in a source file and at a line of it. */
    static ClassNode classOf(String name, InvokeDynamicInsnNode call, String file, int line) {
        return new Lambdas(name, call, line).make(file);
    }

    private ClassNode make(String file) {
        Set<String> interfaces = new LinkedHashSet<>();
        interfaces.add(Type.getReturnType(call.desc).getInternalName());
        Set<String> shapes = new LinkedHashSet<>();
        shapes.add(((Type) call.bsmArgs[0]).getDescriptor());
        readFlags(interfaces, shapes);
        made.visit(Opcodes.V1_5, Opcodes.ACC_FINAL | Opcodes.ACC_SUPER | Opcodes.ACC_SYNTHETIC, name, null,
            BuiltIns.OBJECT, interfaces.toArray(new String[0]));
        made.sourceFile = file;
        addFields();
        made.methods.add(constructor());
        made.methods.add(factory());
        for (String shape : shapes) {
            made.methods.add(implementation(shape));
        }
        return made;
    }

    private void readFlags(Set<String> interfaces, Set<String> shapes) {
        if (!call.bsm.getName().equals("altMetafactory")) {
            return;
        }
        int flags = (Integer) call.bsmArgs[3];
        int at = 4;
        if ((flags & SERIALIZABLE) != 0) {
            interfaces.add("java/io/Serializable");
        }
        if ((flags & MARKERS) != 0) {
            for (int count = (Integer) call.bsmArgs[at++]; count > 0; count--) {
                interfaces.add(((Type) call.bsmArgs[at++]).getInternalName());
            }
        }
        if ((flags & BRIDGES) != 0) {
            for (int count = (Integer) call.bsmArgs[at++]; count > 0; count--) {
                shapes.add(((Type) call.bsmArgs[at++]).getDescriptor());
            }
        }
    }

    private void addFields() {
        for (int i = 0; i < captured.length; i++) {
            made.fields.add(new FieldNode(Opcodes.ACC_FINAL, field(i), captured[i].getDescriptor(), null, null));
        }
    }

    private static String field(int index) {
        return "captured" + index;
    }

    private MethodNode constructor() {
        MethodNode method = new MethodNode(0, "<init>", Type.getMethodDescriptor(Type.VOID_TYPE, captured), null, null);
        Code.line(method, line);
        method.visitVarInsn(Opcodes.ALOAD, 0);
        method.visitMethodInsn(Opcodes.INVOKESPECIAL, BuiltIns.OBJECT, "<init>", "()V", false);
        int local = 1;
        for (int i = 0; i < captured.length; i++) {
            method.visitVarInsn(Opcodes.ALOAD, 0);
            method.visitVarInsn(captured[i].getOpcode(Opcodes.ILOAD), local);
            method.visitFieldInsn(Opcodes.PUTFIELD, name, field(i), captured[i].getDescriptor());
            local += captured[i].getSize();
        }
        method.visitInsn(Opcodes.RETURN);
        return method;
    }

    private MethodNode factory() {
        MethodNode method = new MethodNode(Opcodes.ACC_STATIC, MAKE, call.desc, null, null);
        Code.line(method, line);
        method.visitTypeInsn(Opcodes.NEW, name);
        method.visitInsn(Opcodes.DUP);
        Code.loadArguments(method, captured, 0);
        method.visitMethodInsn(Opcodes.INVOKESPECIAL, name, "<init>",
            Type.getMethodDescriptor(Type.VOID_TYPE, captured), false);
        method.visitInsn(Opcodes.ARETURN);
        return method;
    }

    /** Returns the method of the interface, with one of its descriptors, that calls the lambda's body. */
    private MethodNode implementation(String descriptor) {
        MethodNode method = new MethodNode(Opcodes.ACC_PUBLIC, call.name, descriptor, null, null);
        Code.line(method, line);
        boolean isConstructor = target.getTag() == Opcodes.H_NEWINVOKESPECIAL;
        if (isConstructor) {
            method.visitTypeInsn(Opcodes.NEW, target.getOwner());
            method.visitInsn(Opcodes.DUP);
        }
        loadOperands(method, Type.getArgumentTypes(descriptor));
        method.visitMethodInsn(opcode(), target.getOwner(), target.getName(), target.getDesc(), target.isInterface());
        Type given = isConstructor ? Type.getObjectType(target.getOwner()) : Type.getReturnType(target.getDesc());
        giveBack(method, given, Type.getReturnType(descriptor));
        return method;
    }

    private void loadOperands(MethodNode method, Type[] parameters) {
        List<Type> wanted = new ArrayList<>(Arrays.asList(Type.getArgumentTypes(target.getDesc())));
        if (target.getTag() != Opcodes.H_INVOKESTATIC && target.getTag() != Opcodes.H_NEWINVOKESPECIAL) {
            wanted.add(0, Type.getObjectType(target.getOwner()));
        }
        int next = 0;
        for (int i = 0; i < captured.length; i++) {
            method.visitVarInsn(Opcodes.ALOAD, 0);
            method.visitFieldInsn(Opcodes.GETFIELD, name, field(i), captured[i].getDescriptor());
            Conversion.write(method, captured[i], wanted.get(next++));
        }
        Type[] actual = instantiated.getArgumentTypes();
        int local = 1;
        for (int i = 0; i < parameters.length; i++) {
            method.visitVarInsn(parameters[i].getOpcode(Opcodes.ILOAD), local);
            local += parameters[i].getSize();
            if (Names.isReference(parameters[i])) {
                Conversion.write(method, parameters[i], actual[i]);
            }
            Conversion.write(method, Names.isReference(parameters[i]) ? actual[i] : parameters[i], wanted.get(next++));
        }
    }

    private void giveBack(MethodNode method, Type given, Type wanted) {
        if (wanted.equals(Type.VOID_TYPE)) {
            if (given.getSize() > 0) {
                method.visitInsn(given.getSize() == 2 ? Opcodes.POP2 : Opcodes.POP);
            }
            method.visitInsn(Opcodes.RETURN);
            return;
        }
        Type actual = instantiated.getReturnType();
        boolean isBoxed = Names.isReference(wanted) && Names.isReference(actual);
        Conversion.write(method, given, isBoxed && !Names.isReference(given) ? actual : wanted);
        method.visitInsn(wanted.getOpcode(Opcodes.IRETURN));
    }

    private int opcode() {
        switch (target.getTag()) {
            case Opcodes.H_INVOKESTATIC: return Opcodes.INVOKESTATIC;
            case Opcodes.H_INVOKEVIRTUAL: return Opcodes.INVOKEVIRTUAL;
            case Opcodes.H_INVOKEINTERFACE: return Opcodes.INVOKEINTERFACE;
            default: return Opcodes.INVOKESPECIAL;
        }
    }
}
