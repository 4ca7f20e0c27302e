package jvmx.tool;

import org.objectweb.asm.Opcodes;
import org.objectweb.asm.Type;
import org.objectweb.asm.tree.ClassNode;
import org.objectweb.asm.tree.MethodInsnNode;
import org.objectweb.asm.tree.MethodNode;

/** Turns the calls of VarHandle's methods, which take any types, into calls of a method of those types. */
final class HandleCalls {
    private static final String BRIDGES = FieldHandles.HANDLE + "$Calls";

    private final World world;

    HandleCalls(World world) {
        this.world = world;
    }

    /** Makes the call a static one with the handle as first argument; the call stays if it isn't an access of a field. */
    void replace(ProgramClass host, MethodInsnNode call) {
        ProgramMethod declared = world.resolve(FieldHandles.HANDLE, Names.key(call.name, call.desc));
        if (declared != null || !isAccess(call.name)) {
            return;
        }
        String descriptor = Names.withReceiver(FieldHandles.HANDLE, call.desc);
        ProgramClass bridges = bridges(host);
        if (bridges != null && bridges.method(Names.key(call.name, descriptor)) == null) {
            world.addMethod(bridges, bridge(call, descriptor));
        }
        call.setOpcode(Opcodes.INVOKESTATIC);
        call.owner = BRIDGES;
        call.desc = descriptor;
        call.itf = false;
    }

    private ProgramClass bridges(ProgramClass host) {
        ProgramClass known = world.find(BRIDGES);
        if (known != null) {
            return known;
        }
        ClassNode made = new ClassNode();
        made.visit(Opcodes.V1_5, Opcodes.ACC_PUBLIC | Opcodes.ACC_SUPER, BRIDGES, null, BuiltIns.OBJECT, null);
        return world.define(made, Origin.LIBRARY);
    }

    private static boolean isAccess(String name) {
        return name.matches("(weakC|c)ompareAnd.*|get(And.*|Volatile|Opaque|Acquire)?|set(Volatile|Opaque|Release)?");
    }

    /** Returns the operation of the library that a method means: all orders of memory are the strongest one. */
    private static String operation(String name) {
        if (name.startsWith("weakCompareAndSet")) {
            return "compareAndSet";
        }
        return name.replaceAll("(Volatile|Opaque|Acquire|Release|Plain)$", "");
    }

    /** Returns the method that passes holder, index and values on to the handle's method of the widest types. */
    private static MethodNode bridge(MethodInsnNode call, String descriptor) {
        String operation = operation(call.name);
        Type[] arguments = Type.getArgumentTypes(call.desc);
        Type result = Type.getReturnType(call.desc);
        int values = operation.equals("get") ? 0 : operation.startsWith("compareAnd") ? 2 : 1;
        int coordinates = arguments.length - values;
        Type value = values == 0 ? result : arguments[arguments.length - 1];
        MethodNode made = new MethodNode(Opcodes.ACC_PUBLIC | Opcodes.ACC_STATIC, call.name, descriptor, null, null);
        made.visitVarInsn(Opcodes.ALOAD, 0);
        String parameters = pass(made, arguments, coordinates, HandleClass.wide(value));
        String target = operation + HandleClass.kind(value);
        String returned = operation.equals("compareAndSet") ? "Z" : operation.equals("set") ? "V" : HandleClass.wide(value);
        made.visitMethodInsn(Opcodes.INVOKEVIRTUAL, FieldHandles.HANDLE, target, parameters + returned, false);
        giveBack(made, result, returned);
        return made;
    }

    /** Writes the operands and returns the parameters' part of the descriptor. */
    private static String pass(MethodNode made, Type[] arguments, int coordinates, String wide) {
        StringBuilder parameters = new StringBuilder("(Ljava/lang/Object;I");
        if (coordinates == 0) {
            made.visitInsn(Opcodes.ACONST_NULL);
        }
        int local = 1;
        for (int i = 0; i < arguments.length; i++) {
            if (i == coordinates && coordinates < 2) {
                made.visitInsn(Opcodes.ICONST_0);
            }
            made.visitVarInsn(arguments[i].getOpcode(Opcodes.ILOAD), local);
            local += arguments[i].getSize();
            if (i >= coordinates) {
                parameters.append(wide);
            }
        }
        if (arguments.length == coordinates && coordinates < 2) {
            made.visitInsn(Opcodes.ICONST_0);
        }
        return parameters.append(')').toString();
    }

    private static void giveBack(MethodNode made, Type result, String returned) {
        if (Names.isReference(result) && !result.getInternalName().equals(BuiltIns.OBJECT)) {
            made.visitTypeInsn(Opcodes.CHECKCAST, result.getInternalName());
        }
        if (result.getSort() == Type.VOID && !returned.equals("V")) {
            made.visitInsn(returned.equals("J") ? Opcodes.POP2 : Opcodes.POP);
        }
        made.visitInsn(result.getOpcode(Opcodes.IRETURN));
    }
}
