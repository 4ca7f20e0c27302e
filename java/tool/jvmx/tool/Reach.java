package jvmx.tool;

import java.util.ArrayDeque;
import java.util.ArrayList;
import java.util.Arrays;
import java.util.Deque;
import java.util.HashMap;
import java.util.LinkedHashSet;
import java.util.List;
import java.util.Map;
import java.util.Set;
import org.objectweb.asm.Opcodes;
import org.objectweb.asm.Type;
import org.objectweb.asm.tree.AbstractInsnNode;
import org.objectweb.asm.tree.FieldInsnNode;
import org.objectweb.asm.tree.LdcInsnNode;
import org.objectweb.asm.tree.MethodInsnNode;
import org.objectweb.asm.tree.MultiANewArrayInsnNode;
import org.objectweb.asm.tree.TryCatchBlockNode;
import org.objectweb.asm.tree.TypeInsnNode;

/** Finds the methods that the program can call, by the classes of which it makes objects (rapid type analysis). */
final class Reach {
    private final World world;
    private final Adapter adapter;
    private final Needs needs;
    private final Deque<ProgramMethod> work = new ArrayDeque<>();
    /** The keys of the methods that calls name, by the class that they name. */
    private final Map<String, Set<String>> called = new HashMap<>();
    /** The classes of which objects are made, by each of their ancestors. */
    private final Map<String, List<ProgramClass>> instantiated = new HashMap<>();

    /** The keys of the table's methods that are called. */
    private final Set<String> ofTable = new LinkedHashSet<>();

    Reach(World world, Adapter adapter, Needs needs) {
        this.world = world;
        this.adapter = adapter;
        this.needs = needs;
        called.put(BuiltIns.OBJECT, new LinkedHashSet<>(Arrays.asList(
            "hashCode()I", "equals(Ljava/lang/Object;)Z", "toString()Ljx/Str;")));
    }

    /** Adds a class and its method that the machine or a generated class calls. */
    void addRoot(String owner, String key) {
        use(owner);
        ProgramMethod method = world.resolve(owner, key);
        if (method == null) {
            throw Refusal.ofInput(owner + "." + key + " isn't there");
        }
        reach(method, null);
        initialise(method.owner, null);
    }

    /** Adds a class of which the machine or a generated class makes objects, by its method of this key. */
    void addCreated(String owner, String key) {
        addRoot(owner, key);
        instantiate(use(owner), null);
    }

    /** Follows the calls until nothing new is reached. */
    void follow() {
        while (!work.isEmpty()) {
            ProgramMethod method = work.poll();
            scan(method);
        }
    }

    /** Returns the keys of the table's methods that the program calls so far. */
    Set<String> calledOfTable() {
        return new LinkedHashSet<>(ofTable);
    }

    /** Adds a call of a table's method by another one of it. */
    void addCallOfTable(String key) {
        ofTable.add(key);
    }

    /** Marks a class and its ancestors to be written, and returns it; null if the machine has it or it isn't there. */
    ProgramClass use(String name) {
        ProgramClass found = world.find(name);
        if (found != null && !found.isUsed) {
            found.isUsed = true;
            for (String ancestor : found.ancestors) {
                use(ancestor);
            }
        }
        return found;
    }

    private void reach(ProgramMethod method, ProgramMethod from) {
        if (!method.isReached) {
            method.isReached = true;
            needs.note(method, from);
            work.add(method);
        }
    }

    private void initialise(ProgramClass found, ProgramMethod from) {
        for (ProgramClass c = found; c != null && !c.isInitialised; c = c.superclass) {
            c.isInitialised = true;
            ProgramMethod initialiser = c.method("<clinit>()V");
            if (initialiser != null) {
                reach(initialiser, from);
            }
        }
    }

    private void scan(ProgramMethod method) {
        adapter.adapt(method);
        needs.check(method);
        for (TryCatchBlockNode handler : method.adapted.tryCatchBlocks) {
            if (handler.type != null) {
                use(handler.type);
            }
        }
        for (AbstractInsnNode instruction : method.adapted.instructions) {
            if (instruction instanceof MethodInsnNode) {
                call(method, (MethodInsnNode) instruction);
            } else if (instruction instanceof FieldInsnNode) {
                field(method, (FieldInsnNode) instruction);
            } else if (instruction instanceof TypeInsnNode) {
                type(method, (TypeInsnNode) instruction);
            } else if (instruction instanceof MultiANewArrayInsnNode) {
                name(method, instruction, ((MultiANewArrayInsnNode) instruction).desc);
            } else if (instruction instanceof LdcInsnNode && ((LdcInsnNode) instruction).cst instanceof Type) {
                name(method, instruction, ((Type) ((LdcInsnNode) instruction).cst).getInternalName());
            }
        }
    }

    private void type(ProgramMethod from, TypeInsnNode instruction) {
        ProgramClass found = name(from, instruction, instruction.desc);
        if (found != null && instruction.getOpcode() == Opcodes.NEW) {
            initialise(found, from);
            instantiate(found, from);
        }
    }

    /** Uses the class, or the element class of the array, that an instruction names. */
    private ProgramClass name(ProgramMethod from, AbstractInsnNode instruction, String name) {
        String element = Names.elementOf(name);
        if (element == null || from.owner.isRaw() && !ProgramClass.isRaw(element)) {
            return null;
        }
        ProgramClass found = use(element);
        if (found == null && world.isAbsent(element)) {
            needs.missClass(from, instruction, element);
        }
        return found;
    }

    private void field(ProgramMethod from, FieldInsnNode instruction) {
        ProgramClass owner = name(from, instruction, instruction.owner);
        if (owner == null || Literals.isLiteral(instruction.owner)) {
            return;
        }
        ProgramClass declaring = world.fieldOwner(instruction.owner, instruction.name, instruction.desc);
        if (declaring == null && !from.owner.isRaw()) {
            needs.missField(from, instruction);
        } else if (declaring != null && (instruction.getOpcode() == Opcodes.GETSTATIC || instruction.getOpcode() == Opcodes.PUTSTATIC)) {
            initialise(declaring, from);
        }
    }

    private void call(ProgramMethod from, MethodInsnNode call) {
        if (call.owner.equals(Calls.TABLE)) {
            ofTable.add(Names.key(call.name, call.desc));
            return;
        }
        if (call.owner.startsWith("[")) {
            return;
        }
        ProgramClass owner = name(from, call, call.owner);
        if (owner == null) {
            checkBuiltIn(from, call);
            return;
        }
        String key = Names.key(call.name, call.desc);
        ProgramMethod resolved = world.resolve(call.owner, key);
        if (resolved == null) {
            if (!from.owner.isRaw()) {
                needs.missMethod(from, call);
            }
            return;
        }
        resolved.isNamed = true;
        use(resolved.owner.name());
        if (call.getOpcode() == Opcodes.INVOKESTATIC) {
            reach(resolved, from);
            initialise(resolved.owner, from);
        } else if (call.getOpcode() == Opcodes.INVOKESPECIAL || resolved.is(Opcodes.ACC_PRIVATE)) {
            reach(resolved, from);
        } else {
            callVirtual(from, call.owner, key);
        }
    }

    private void checkBuiltIn(ProgramMethod from, MethodInsnNode call) {
        String key = Names.key(call.name, call.desc);
        if (call.owner.equals(BuiltIns.RUNNABLE)) {
            callVirtual(from, call.owner, key);
        }
        if (!from.owner.isRaw() && BuiltIns.isKept(call.owner) && !BuiltIns.hasMethod(call.owner, key)) {
            needs.missMethod(from, call);
        }
    }

    private void callVirtual(ProgramMethod from, String owner, String key) {
        if (!called.computeIfAbsent(owner, x -> new LinkedHashSet<>()).add(key)) {
            return;
        }
        for (ProgramClass receiver : new ArrayList<>(instantiated.getOrDefault(owner, new ArrayList<>()))) {
            select(receiver, key, from);
        }
    }

    private void instantiate(ProgramClass made, ProgramMethod from) {
        if (made.isInstantiated) {
            return;
        }
        made.isInstantiated = true;
        for (String ancestor : made.ancestors) {
            instantiated.computeIfAbsent(ancestor, x -> new ArrayList<>()).add(made);
        }
        for (String ancestor : made.ancestors) {
            for (String key : new ArrayList<>(called.getOrDefault(ancestor, new LinkedHashSet<>()))) {
                select(made, key, from);
            }
        }
    }

    private void select(ProgramClass receiver, String key, ProgramMethod from) {
        ProgramMethod selected = world.select(receiver, key);
        if (selected != null) {
            reach(selected, from);
        }
    }
}
