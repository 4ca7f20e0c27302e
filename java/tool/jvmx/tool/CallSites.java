package jvmx.tool;

import java.util.HashMap;
import java.util.Map;
import org.objectweb.asm.Opcodes;
import org.objectweb.asm.Type;
import org.objectweb.asm.tree.AbstractInsnNode;
import org.objectweb.asm.tree.ClassNode;
import org.objectweb.asm.tree.InvokeDynamicInsnNode;
import org.objectweb.asm.tree.MethodInsnNode;
import org.objectweb.asm.tree.MethodNode;

/** Replaces each invokedynamic by one call of a static method of a class that is made for it. */
final class CallSites {
    private final World world;
    private final Map<String, Integer> counts = new HashMap<>();

    CallSites(World world) {
        this.world = world;
    }

    /** Replaces those of a method that still has the names of the source. Unknown ones stay. */
    void replace(ProgramClass host, MethodNode method) {
        for (AbstractInsnNode instruction : method.instructions.toArray()) {
            if (instruction instanceof InvokeDynamicInsnNode) {
                replace(host, method, (InvokeDynamicInsnNode) instruction);
            }
        }
    }

    private void replace(ProgramClass host, MethodNode method, InvokeDynamicInsnNode call) {
        String file = host.node.sourceFile;
        int line = Code.lineOf(call);
        ClassNode made;
        String called;
        switch (call.bsm.getOwner()) {
            case Lambdas.FACTORY:
                made = Lambdas.classOf(name(host, "$$Lambda$"), call, file, line);
                called = Lambdas.MAKE;
                break;
            case Concatenations.FACTORY:
                made = Concatenations.classOf(name(host, "$$Concatenation$"), call, file, line);
                called = Concatenations.JOIN;
                break;
            case Records.FACTORY:
                made = Records.classOf(name(host, "$$Record$"), call, file, line);
                called = call.name;
                break;
            default:
                refuse(method, call, call.bsm.getOwner());
                return;
        }
        if (world.define(made, host.origin) != null) {
            method.instructions.set(call, new MethodInsnNode(Opcodes.INVOKESTATIC, made.name, called, call.desc, false));
        } else {
            refuse(method, call, Type.getReturnType(call.desc).getInternalName());
        }
    }

    /** Replaces what a file of version 49 can't have by a call on a class that isn't there, which is named and can't run. */
    private static void refuse(MethodNode method, InvokeDynamicInsnNode call, String absent) {
        method.instructions.set(call, new MethodInsnNode(Opcodes.INVOKESTATIC, absent, call.name, call.desc, false));
    }

    private String name(ProgramClass host, String suffix) {
        return host.name() + suffix + counts.merge(host.name() + suffix, 1, Integer::sum);
    }
}
