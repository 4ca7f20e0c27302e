package jvmx.tool;

import java.util.HashMap;
import java.util.Map;
import java.util.function.Consumer;
import org.objectweb.asm.Opcodes;
import org.objectweb.asm.Type;
import org.objectweb.asm.tree.AbstractInsnNode;
import org.objectweb.asm.tree.ClassNode;
import org.objectweb.asm.tree.FieldInsnNode;
import org.objectweb.asm.tree.FieldNode;
import org.objectweb.asm.tree.LdcInsnNode;
import org.objectweb.asm.tree.MethodInsnNode;
import org.objectweb.asm.tree.MethodNode;

/**
 * Turns VarHandle, Unsafe and the field updaters into ordinary classes: one generated subclass of the library's
 * java/lang/invoke/VarHandle for each field that code names as `X.class, "field"`.
 *
 * <p>A write of such a field outside constructors becomes a call that holds the handle's monitor, since a compareAndSet
 * of the library reads and writes under that monitor.
 */
final class FieldHandles {
    static final String HANDLE = "java/lang/invoke/VarHandle";
    /** The end of the names of the generated classes begins so. */
    static final String MARK = "$jx$";

    private final World world;
    /** Is given the method of each new handle that writes the field. */
    private final Consumer<ProgramMethod> onStore;
    private final Map<String, String> handles = new HashMap<>();
    private final HandleCalls calls;

    FieldHandles(World world, Consumer<ProgramMethod> onStore) {
        this.world = world;
        this.onStore = onStore;
        calls = new HandleCalls(world);
    }

    /** Replaces a look-up or a call of a handle, before constant strings are replaced; other calls stay. */
    void replace(ProgramClass host, MethodNode method, MethodInsnNode call) {
        if (call.owner.equals(HANDLE) && call.getOpcode() == Opcodes.INVOKEVIRTUAL) {
            calls.replace(host, call);
        } else if (call.owner.equals("java/lang/invoke/MethodHandles$Lookup") && call.name.matches("find(Static)?VarHandle")) {
            lookUp(host, call, 3);
        } else if (call.name.equals("objectFieldOffset") && call.desc.startsWith("(Ljava/lang/Class;")) {
            lookUp(host, call, 2);
        } else if (call.name.equals("newUpdater") && call.owner.startsWith("java/util/concurrent/atomic/")) {
            lookUp(host, call, Type.getArgumentTypes(call.desc).length);
        }
    }

    /** Replaces the writes of fields that have a handle. */
    void replaceWrites(ProgramMethod method) {
        if (handles.isEmpty() || method.name.equals("<init>") || method.owner.name().contains(MARK)) {
            return;
        }
        for (AbstractInsnNode instruction : method.adapted.instructions.toArray()) {
            boolean isStatic = instruction.getOpcode() == Opcodes.PUTSTATIC && !method.name.equals("<clinit>");
            if (isStatic || instruction.getOpcode() == Opcodes.PUTFIELD) {
                replaceWrite(method.adapted, (FieldInsnNode) instruction);
            }
        }
    }

    private void replaceWrite(MethodNode method, FieldInsnNode write) {
        String handle = handles.get(write.owner + "." + write.name);
        if (handle != null) {
            String plain = "(" + write.desc + ")V";
            String descriptor = write.getOpcode() == Opcodes.PUTFIELD ? Names.withReceiver(write.owner, plain) : plain;
            method.instructions.set(write,
                new MethodInsnNode(Opcodes.INVOKESTATIC, handle, HandleClass.STORE, descriptor, false));
        }
    }

    /** Replaces `.., X.class, "name", [T.class], find` by one call that returns the handle; other shapes stay. */
    private void lookUp(ProgramClass host, MethodInsnNode call, int arguments) {
        String owner = null;
        String field = null;
        AbstractInsnNode at = call;
        for (int count = 0; count < arguments && at != null; count++) {
            at = previous(at);
            Object constant = at instanceof LdcInsnNode ? ((LdcInsnNode) at).cst : null;
            if (constant instanceof Type && ((Type) constant).getSort() == Type.OBJECT) {
                owner = ((Type) constant).getInternalName();
            } else if (constant instanceof String) {
                field = (String) constant;
            }
        }
        ProgramClass holder = owner == null ? null : world.find(owner);
        FieldNode found = holder == null || field == null ? null : field(holder, field);
        if (found != null) {
            String handle = handle(holder, found);
            String descriptor = call.getOpcode() == Opcodes.INVOKESTATIC ? call.desc : Names.withReceiver(call.owner, call.desc);
            addLookUp(world.find(handle), call, descriptor);
            call.setOpcode(Opcodes.INVOKESTATIC);
            call.owner = handle;
            call.desc = descriptor;
            call.itf = false;
        }
    }

    private void addLookUp(ProgramClass handle, MethodInsnNode call, String descriptor) {
        if (handle.method(Names.key(call.name, descriptor)) == null) {
            world.addMethod(handle, HandleClass.lookUp(handle.name(), call.owner, call.name, descriptor));
        }
    }

    private static AbstractInsnNode previous(AbstractInsnNode instruction) {
        AbstractInsnNode at = instruction.getPrevious();
        while (at != null && at.getOpcode() < 0) {
            at = at.getPrevious();
        }
        return at;
    }

    private static FieldNode field(ProgramClass owner, String name) {
        for (FieldNode field : owner.node.fields) {
            if (field.name.equals(name)) {
                return field;
            }
        }
        return null;
    }

    private String handle(ProgramClass holder, FieldNode field) {
        String key = holder.name() + "." + field.name;
        String known = handles.get(key);
        if (known != null) {
            return known;
        }
        String name = holder.name() + MARK + field.name;
        handles.put(key, name);
        field.access &= ~(Opcodes.ACC_PRIVATE | Opcodes.ACC_FINAL);
        ClassNode made = HandleClass.of(name, holder, field);
        ProgramClass defined = world.define(made, holder.origin);
        if (defined == null) {
            throw Refusal.ofDevice("the library has no " + HANDLE);
        }
        defined.methods.values().stream().filter(method -> method.name.equals(HandleClass.STORE)).forEach(onStore);
        return name;
    }
}
