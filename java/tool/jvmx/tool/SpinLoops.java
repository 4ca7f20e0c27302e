package jvmx.tool;

import java.util.Collection;
import java.util.HashSet;
import java.util.Set;
import org.objectweb.asm.Opcodes;
import org.objectweb.asm.tree.AbstractInsnNode;
import org.objectweb.asm.tree.FieldInsnNode;
import org.objectweb.asm.tree.FieldNode;
import org.objectweb.asm.tree.JumpInsnNode;
import org.objectweb.asm.tree.MethodInsnNode;

/** Finds whether the caller's code may loop until another thread does something, without a wait. */
final class SpinLoops {
    private static final String ASKING = "isInterrupted|interrupted|isAlive|isDone|isTerminated|isShutdown|getState|getCount";

    private final World world;
    private final WaitsOfOwners waits;
    /** The keys of the caller's methods that ask for what another thread may change. */
    private final Set<String> asking = new HashSet<>();

    SpinLoops(World world, WaitsOfOwners waits) {
        this.world = world;
        this.waits = waits;
    }

    /** Returns whether one of the methods has such a loop. */
    boolean isAny(Collection<ProgramMethod> methods) {
        for (ProgramMethod method : methods) {
            AbstractInsnNode last = method.adapted.instructions.getLast();
            if (last != null && asks(method.adapted.instructions.getFirst(), last)) {
                asking.add(method.key());
            }
        }
        return methods.stream().anyMatch(this::hasLoop);
    }

    private boolean hasLoop(ProgramMethod method) {
        Set<AbstractInsnNode> before = new HashSet<>();
        for (AbstractInsnNode instruction : method.adapted.instructions) {
            before.add(instruction);
            AbstractInsnNode target = instruction instanceof JumpInsnNode ? ((JumpInsnNode) instruction).label : null;
            if (target != null && before.contains(target) && asks(target, instruction) && !waits(target, instruction)) {
                return true;
            }
        }
        return false;
    }

    private boolean asks(AbstractInsnNode first, AbstractInsnNode last) {
        for (AbstractInsnNode at = first; at != last.getNext(); at = at.getNext()) {
            if (at instanceof FieldInsnNode && isVolatile((FieldInsnNode) at) || at instanceof MethodInsnNode && asks((MethodInsnNode) at)) {
                return true;
            }
        }
        return false;
    }

    private boolean isVolatile(FieldInsnNode instruction) {
        if (instruction.getOpcode() != Opcodes.GETFIELD && instruction.getOpcode() != Opcodes.GETSTATIC) {
            return false;
        }
        ProgramClass owner = world.fieldOwner(instruction.owner, instruction.name, instruction.desc);
        FieldNode field = owner == null ? null : owner.field(instruction.name, instruction.desc);
        return field != null && (field.access & Opcodes.ACC_VOLATILE) != 0;
    }

    private boolean asks(MethodInsnNode call) {
        boolean isAtomic = call.owner.startsWith("java/util/concurrent/atomic/") && (call.name.equals("get") || call.name.startsWith("compareAnd"));
        return isAtomic || call.name.matches(ASKING) || asking.contains(Names.key(call.name, call.desc));
    }

    private boolean waits(AbstractInsnNode first, AbstractInsnNode last) {
        for (AbstractInsnNode at = first; at != last; at = at.getNext()) {
            if (at instanceof MethodInsnNode && waits.mayWait((MethodInsnNode) at)) {
                return true;
            }
        }
        return false;
    }
}
