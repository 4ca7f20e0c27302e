package jvmx.tool;

import org.objectweb.asm.Opcodes;
import org.objectweb.asm.Type;
import org.objectweb.asm.commons.MethodRemapper;
import org.objectweb.asm.tree.AbstractInsnNode;
import org.objectweb.asm.tree.FieldInsnNode;
import org.objectweb.asm.tree.FieldNode;
import org.objectweb.asm.tree.LdcInsnNode;
import org.objectweb.asm.tree.MethodInsnNode;
import org.objectweb.asm.tree.MethodNode;
import org.objectweb.asm.tree.MultiANewArrayInsnNode;
import org.objectweb.asm.tree.TypeInsnNode;

/** Adapts the body of a method. Each instruction becomes one instruction, so that places stay. */
final class Adapter {
    private final World world;
    private final Literals literals;
    private final ArrayTypes arrays;
    private final CallSites callSites;
    private final Calls calls;

    private final RawBodies rawBodies;

    private final LoadFactors loadFactors;
    private final FieldHandles handles;

    Adapter(World world, Literals literals, ArrayTypes arrays, RawBodies rawBodies, FieldHandles handles) {
        this.rawBodies = rawBodies;
        this.handles = handles;
        loadFactors = new LoadFactors(world);
        this.world = world;
        this.literals = literals;
        this.arrays = arrays;
        callSites = new CallSites(world);
        calls = new Calls(world, arrays);
    }

    /** Adapts a method, if it isn't yet, and returns it. */
    MethodNode adapt(ProgramMethod method) {
        if (method.adapted == null) {
            method.adapted = method.owner.isRaw() ? rawBodies.body(method) : rewritten(method);
            Stripping.strip(method.adapted);
        }
        return method.adapted;
    }

    private MethodNode rewritten(ProgramMethod method) {
        callSites.replace(method.owner, method.source);
        MethodNode made = new MethodNode(Opcodes.ASM9, method.access, method.name, method.descriptor, null, exceptions(method));
        method.source.accept(new MethodRemapper(made, Renaming.INSTANCE));
        if (!method.owner.isUser()) {
            made.localVariables = null;
            SequentialStreams.simplify(method, made);
            StaticDoubles.remove(method, made);
        }
        for (AbstractInsnNode instruction : made.instructions.toArray()) {
            if (instruction instanceof MethodInsnNode) {
                handles.replace(method.owner, made, (MethodInsnNode) instruction);
                loadFactors.replace(made, (MethodInsnNode) instruction);
            }
        }
        for (AbstractInsnNode instruction : made.instructions.toArray()) {
            rewrite(method.owner, made, instruction);
        }
        return made;
    }

    private static String[] exceptions(ProgramMethod method) {
        return method.source.exceptions.toArray(new String[0]);
    }

    private void rewrite(ProgramClass host, MethodNode method, AbstractInsnNode instruction) {
        switch (instruction.getOpcode()) {
            case Opcodes.LDC: constant(host, method, (LdcInsnNode) instruction); break;
            case Opcodes.NEW: creation((TypeInsnNode) instruction); break;
            case Opcodes.ANEWARRAY: arrays.make(((TypeInsnNode) instruction).desc); break;
            case Opcodes.MULTIANEWARRAY: arrays.makeAll(((MultiANewArrayInsnNode) instruction).desc); break;
            case Opcodes.GETSTATIC: staticField(host, method, (FieldInsnNode) instruction); break;
            default:
                if (instruction instanceof MethodInsnNode) {
                    calls.rewrite(host, method, (MethodInsnNode) instruction);
                }
        }
    }

    private void constant(ProgramClass host, MethodNode method, LdcInsnNode instruction) {
        if (instruction.cst instanceof String) {
            method.instructions.set(instruction, literals.load((String) instruction.cst, host));
            return;
        }
        if (instruction.cst instanceof Type && ((Type) instruction.cst).getSort() == Type.ARRAY) {
            arrays.makeAll(((Type) instruction.cst).getDescriptor());
        }
        String absent = NewerConstants.classOf(instruction.cst);
        if (absent != null) {
            method.instructions.set(instruction,
                new MethodInsnNode(Opcodes.INVOKESTATIC, absent, "constant", "()L" + absent + ";", false));
        }
    }

    private static void creation(TypeInsnNode instruction) {
        if (BuiltIns.isThrowable(instruction.desc)) {
            instruction.desc = BuiltIns.withMessage(instruction.desc);
        }
    }

    /** Replaces the read of a constant field by its text: the machine would give it a string of its own. */
    private void staticField(ProgramClass host, MethodNode method, FieldInsnNode instruction) {
        if (!instruction.desc.equals("L" + BuiltIns.TEXT + ";")) {
            return;
        }
        FieldNode field = world.field(instruction.owner, instruction.name, instruction.desc);
        if (field != null && field.value instanceof String) {
            method.instructions.set(instruction, literals.load((String) field.value, host));
        }
    }
}
