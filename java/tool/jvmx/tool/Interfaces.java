package jvmx.tool;

import java.util.ArrayList;
import java.util.Collection;
import java.util.LinkedHashMap;
import java.util.LinkedHashSet;
import java.util.List;
import java.util.Map;
import java.util.Set;
import org.objectweb.asm.Opcodes;
import org.objectweb.asm.Type;
import org.objectweb.asm.tree.AbstractInsnNode;
import org.objectweb.asm.tree.ClassNode;
import org.objectweb.asm.tree.MethodInsnNode;
import org.objectweb.asm.tree.MethodNode;

/**
 * Moves the bodies of interfaces' methods to static methods of a class beside the interface, since interfaces of
 * version 49 have none. Classes that inherit such a body get a method that calls it.
 */
final class Interfaces {
    /** The end of the name of the class that has the bodies. */
    static final String SUFFIX = "$jx";

    private final World world;
    /** The keys of the methods that objects of a class have by bodies of interfaces, each with that body. */
    private final Map<ProgramClass, Map<String, ProgramMethod>> inherited = new LinkedHashMap<>();

    Interfaces(World world) {
        this.world = world;
    }

    /** Redirects the calls in a method of bodies of interfaces. */
    void redirectCalls(MethodNode method) {
        for (AbstractInsnNode instruction : method.instructions) {
            if (instruction instanceof MethodInsnNode && ((MethodInsnNode) instruction).itf) {
                redirect((MethodInsnNode) instruction);
            }
        }
    }

    private void redirect(MethodInsnNode call) {
        boolean isStatic = call.getOpcode() == Opcodes.INVOKESTATIC;
        if (call.getOpcode() == Opcodes.INVOKEINTERFACE) {
            return;
        }
        ProgramMethod body = world.resolve(call.owner, Names.key(call.name, call.desc));
        if (body != null && body.isInterfaceBody()) {
            call.setOpcode(Opcodes.INVOKESTATIC);
            call.desc = isStatic ? call.desc : Names.withReceiver(body.owner.name(), call.desc);
            call.owner = body.owner.name() + SUFFIX;
        }
        call.itf = false;
    }

    /** Returns the class that has the bodies of an interface's methods, or null if it has none that is kept. */
    ClassNode bodiesOf(ProgramClass owner, Collection<ProgramMethod> kept) {
        ClassNode made = null;
        for (ProgramMethod method : kept) {
            if (!method.isInterfaceBody()) {
                continue;
            }
            if (made == null) {
                made = new ClassNode();
                made.visit(Opcodes.V1_5, Opcodes.ACC_PUBLIC | Opcodes.ACC_SUPER, owner.name() + SUFFIX, null, BuiltIns.OBJECT, null);
                made.sourceFile = owner.node.sourceFile;
            }
            made.methods.add(staticForm(method));
        }
        return made;
    }

    private static MethodNode staticForm(ProgramMethod method) {
        String descriptor = method.isStatic() ? method.descriptor : Names.withReceiver(method.owner.name(), method.descriptor);
        MethodNode made = new MethodNode(Opcodes.ASM9, Opcodes.ACC_PUBLIC | Opcodes.ACC_STATIC, method.name, descriptor, null, null);
        made.instructions = method.adapted.instructions;
        made.tryCatchBlocks = method.adapted.tryCatchBlocks;
        made.maxLocals = method.adapted.maxLocals;
        made.maxStack = method.adapted.maxStack;
        made.localVariables = method.adapted.localVariables;
        return made;
    }

    /** Returns the method that stays in an interface for one whose body was moved; null if none stays. */
    static MethodNode declarationOf(ProgramMethod method) {
        boolean stays = !method.isStatic() && !method.is(Opcodes.ACC_PRIVATE);
        return stays ? new MethodNode(Opcodes.ACC_PUBLIC | Opcodes.ACC_ABSTRACT, method.name, method.descriptor, null, null) : null;
    }

    /** Returns the methods that a class needs to call the bodies that it inherits and its superclass doesn't have. */
    List<MethodNode> bridgesOf(ProgramClass owner) {
        Map<String, ProgramMethod> above = owner.superclass == null ? new LinkedHashMap<>() : inheritedBy(owner.superclass);
        List<MethodNode> bridges = new ArrayList<>();
        for (Map.Entry<String, ProgramMethod> entry : inheritedBy(owner).entrySet()) {
            if (above.get(entry.getKey()) != entry.getValue()) {
                bridges.add(bridge(entry.getValue()));
            }
        }
        return bridges;
    }

    private Map<String, ProgramMethod> inheritedBy(ProgramClass owner) {
        Map<String, ProgramMethod> known = inherited.get(owner);
        if (known != null) {
            return known;
        }
        Map<String, ProgramMethod> found = new LinkedHashMap<>();
        for (String key : keysOfBodies(owner)) {
            ProgramMethod selected = world.select(owner, key);
            if (selected != null && selected.isInterfaceBody() && isWritten(selected)) {
                found.put(key, selected);
            }
        }
        inherited.put(owner, found);
        return found;
    }

    private static boolean isWritten(ProgramMethod method) {
        return method.adapted != null;
    }

    private Set<String> keysOfBodies(ProgramClass owner) {
        Set<String> keys = new LinkedHashSet<>();
        for (String ancestor : owner.ancestors) {
            ProgramClass found = world.find(ancestor);
            if (found != null && found.isInterface()) {
                for (ProgramMethod method : found.methods.values()) {
                    if (method.isInterfaceBody() && method.isVirtual()) {
                        keys.add(method.key());
                    }
                }
            }
        }
        return keys;
    }

    private static MethodNode bridge(ProgramMethod body) {
        MethodNode made = new MethodNode(Opcodes.ACC_PUBLIC, body.name, body.descriptor, null, null);
        made.visitVarInsn(Opcodes.ALOAD, 0);
        Code.loadArguments(made, Type.getArgumentTypes(body.descriptor), 1);
        made.visitMethodInsn(Opcodes.INVOKESTATIC, body.owner.name() + SUFFIX, body.name,
            Names.withReceiver(body.owner.name(), body.descriptor), false);
        made.visitInsn(Type.getReturnType(body.descriptor).getOpcode(Opcodes.IRETURN));
        return made;
    }
}
