package jvmx.tool;

import java.util.ArrayList;
import java.util.IdentityHashMap;
import java.util.LinkedHashMap;
import java.util.LinkedHashSet;
import java.util.List;
import java.util.Map;
import java.util.Set;
import org.objectweb.asm.ClassWriter;
import org.objectweb.asm.Opcodes;
import org.objectweb.asm.tree.ClassNode;
import org.objectweb.asm.tree.FieldNode;
import org.objectweb.asm.tree.MethodNode;

/** Adapts a whole program: finds what it reaches, and makes the class files of that. */
final class Program {
    /** The class whose main method the machine begins with. */
    static final String ENTRY = "jx/gen/Main";

    private final Settings settings;
    private final World world;
    private final Literals literals = new Literals();
    private final ArrayTypes arrays = new ArrayTypes();
    private final SourceNames names = new SourceNames();
    private final Needs needs = new Needs(names);
    private final Adapter adapter;
    private final FieldHandles handles;
    private final Reach reach;
    private final Interfaces interfaces;
    private final Stops stops = new Stops(literals);
    private final Map<String, byte[]> files = new LinkedHashMap<>();
    private final Map<String, Set<String>> methods = new LinkedHashMap<>();

    private Program(Settings settings, Map<String, byte[]> user, Library library) {
        this.settings = settings;
        world = new World(user, library);
        handles = new FieldHandles(world, this::reachStore);
        adapter = new Adapter(world, literals, arrays, new RawBodies(settings.hasNatives), handles);
        reach = new Reach(world, adapter, needs);
        interfaces = new Interfaces(world);
    }

    /** Returns the adapted program of the caller's class files, by their names. */
    static Program adapt(Settings settings, Map<String, byte[]> user, Library library) {
        Program program = new Program(settings, user, library);
        program.findReached();
        program.writeClasses();
        return program;
    }

    /** Returns the class files by the names of their classes. */
    Map<String, byte[]> files() {
        return files;
    }

    /** Returns the keys of the methods of each class file. */
    Map<String, Set<String>> methods() {
        return methods;
    }

    Needs needs() {
        return needs;
    }

    private void reachStore(ProgramMethod method) {
        reach.addRoot(method.owner.name(), method.key());
    }

    private boolean hasExit() {
        return world.resolve("jx/Thr", Entry.EXIT_KEY) != null;
    }

    private void findReached() {
        Equipment.MARKS.forEach(reach::use);
        reach.addCreated(BuiltIns.TEXT, "<init>([CLjava/lang/Object;)V");
        reach.addRoot("jx/Thr", "enterMain()V");
        if (hasExit()) {
            reach.addRoot("jx/Thr", Entry.EXIT_KEY);
        }
        reach.addRoot(settings.main, "main([Ljx/Str;)V");
        reach.addCreated("jx/raw/Starter", "run()V");
        reach.addCreated(InitialiserFailures.ERROR, InitialiserFailures.KEY);
        for (String key : FailureMessages.keys()) {
            reach.addRoot(FailureMessages.owner(), key);
        }
        reach.follow();
        Set<String> before = new LinkedHashSet<>();
        while (!before.equals(reach.calledOfTable()) || addConstants()) {
            before = reach.calledOfTable();
            before.forEach(this::addNeedsOfTable);
            reach.follow();
        }
    }

    /** Adds what a method of the table calls. */
    private void addNeedsOfTable(String key) {
        if (key.startsWith("valueOf(")) {
            reach.addCallOfTable("universe(Ljava/lang/Class;)[Ljava/lang/Enum;");
            boolean takesClass = world.resolve("jx/Arr", Library.FIND_WITH_CLASS) != null;
            reach.addRoot("jx/Arr", takesClass ? Library.FIND_WITH_CLASS : Library.FIND);
        } else if (key.startsWith("clone$")) {
            reach.addRoot("jx/Arr", "fill(Ljava/lang/Object;Ljava/lang/Object;)Ljava/lang/Object;");
            reach.addCallOfTable("like([Ljava/lang/Object;I)[Ljava/lang/Object;");
        } else if (key.startsWith("clone(")) {
            reach.addRoot("jx/Obj", "getClass(Ljava/lang/Object;)Ljava/lang/Class;");
            reach.addRoot("jx/Classes", "getName(Ljava/lang/Class;)Ljx/Str;");
            reach.addCreated("java/lang/CloneNotSupportedException", "<init>(Ljx/Str;)V");
        } else if (key.startsWith("literal(")) {
            reach.addRoot(BuiltIns.TEXT, "equals(Ljava/lang/Object;)Z");
        }
    }

    /** Adds the constants of enumerations where the table returns them; returns whether something is new. */
    private boolean addConstants() {
        boolean isNew = false;
        if (reach.calledOfTable().stream().noneMatch(ClassTable::returnsConstants)) {
            return false;
        }
        for (ProgramClass found : world.classes()) {
            ProgramMethod values = found.isUsed && found.isEnum() ? found.method(ClassTable.valuesKey(found)) : null;
            if (values != null && !values.isReached) {
                reach.addRoot(found.name(), values.key());
                isNew = true;
            }
        }
        reach.follow();
        return isNew;
    }

    /** Puts a stop at each place of the library that needs what isn't there. */
    private void addStops() {
        if (needs.spots().isEmpty()) {
            return;
        }
        reach.addRoot("jx/Out", Stops.PRINT);
        reach.addRoot("jx/Sys", "<clinit>()V");
        reach.follow();
        Map<Object, Boolean> done = new IdentityHashMap<>();
        for (Needs.Spot spot : needs.spots()) {
            if (spot.instruction != null && done.put(spot.instruction, true) == null) {
                stops.insert(spot.method.adapted, spot.instruction, spot.line);
            } else if (spot.instruction == null) {
                spot.method.adapted = nothing(spot.method);
                spot.method.access &= ~Opcodes.ACC_NATIVE;
                stops.insert(spot.method.adapted, spot.method.adapted.instructions.getFirst(), spot.line);
            }
        }
    }

    /** Returns a body that the program never gets through. */
    private static MethodNode nothing(ProgramMethod method) {
        int access = method.access & ~Opcodes.ACC_NATIVE;
        MethodNode made = new MethodNode(Opcodes.ASM9, access, method.name, method.descriptor, null, null);
        made.visitInsn(Opcodes.ACONST_NULL);
        made.visitInsn(Opcodes.ATHROW);
        return made;
    }

    private void writeClasses() {
        TimedCalls timed = new TimedCalls(world.classes());
        adaptUnreached();
        addStops();
        List<ProgramClass> used = new ArrayList<>();
        for (ProgramClass found : world.classes()) {
            if (found.isUsed) {
                used.add(found);
                found.methods.values().stream().filter(m -> m.adapted != null).forEach(this::finish);
            }
        }
        for (ProgramClass found : used) {
            writeClass(found);
        }
        write(new ClassTable(world, literals, arrays, names, settings.hasAssertions).make(used, reach.calledOfTable()));
        if (settings.hasNatives) {
            write(RawBodies.nativeClass());
        }
        if (isCopying()) {
            write(Cloning.copyable());
        }
        if (!stops.isEmpty()) {
            write(stops.make());
        }
        write(SettingsClass.of(settings, timed, world));
        write(Entry.classOf(settings.main, hasExit()));
        literals.classes().forEach(this::write);
    }

    /** Does to an adapted method what needs all others to be known. */
    private void finish(ProgramMethod method) {
        interfaces.redirectCalls(method.adapted);
        handles.replaceWrites(method);
        if (method.owner.isUser()) {
            FailureMessages.add(method);
        }
        if (method.owner.isUser() && method.name.equals("<clinit>")) {
            InitialiserFailures.add(method.adapted);
        }
    }

    /** Adapts the methods of the caller's classes that the program can't reach, so that they can be looked at. */
    private void adaptUnreached() {
        boolean isNew = true;
        while (isNew) {
            isNew = false;
            for (ProgramClass found : world.classes()) {
                if (!found.isUser() || !found.isUsed && !found.name().contains("$$")) {
                    continue;
                }
                reach.use(found.name());
                for (ProgramMethod method : new ArrayList<>(found.methods.values())) {
                    isNew |= method.adapted == null;
                    adapter.adapt(method);
                }
            }
        }
    }

    private boolean isCopying() {
        return reach.calledOfTable().stream().anyMatch(key -> key.startsWith("clone("));
    }

    private void writeClass(ProgramClass found) {
        List<ProgramMethod> kept = new ArrayList<>();
        ClassNode node = found.node;
        for (ProgramMethod method : found.methods.values()) {
            if (method.adapted != null) {
                kept.add(method);
                addMethod(node, method);
            } else if (method.isNamed) {
                addUnreached(node, method);
            }
        }
        ClassNode bodies = interfaces.bodiesOf(found, kept);
        if (bodies != null) {
            write(bodies);
        }
        if (!found.isInterface()) {
            node.methods.addAll(interfaces.bridgesOf(found));
        }
        addCopying(found);
        Equipment.add(node);
        write(node);
    }

    private static void addMethod(ClassNode node, ProgramMethod method) {
        if (!method.isInterfaceBody()) {
            node.methods.add(method.adapted);
        } else if (Interfaces.declarationOf(method) != null) {
            node.methods.add(Interfaces.declarationOf(method));
        }
    }

    /** Adds a method that is named and never called: its declaration has to be found, and its body never runs. */
    private static void addUnreached(ClassNode node, ProgramMethod method) {
        if (method.isInterfaceBody()) {
            node.methods.add(Interfaces.declarationOf(method));
            return;
        }
        node.methods.add(method.isAbstract()
            ? new MethodNode(Opcodes.ASM9, method.access, method.name, method.descriptor, null, null) : nothing(method));
    }

    private void addCopying(ProgramClass found) {
        if (!isCopying() || found.isInterface() || !isOrIsAboveCopied(found)) {
            return;
        }
        Cloning.addConstructor(found.node, found.superclass == null);
        if (found.isInstantiated && found.ancestors.contains(BuiltIns.CLONEABLE)) {
            Cloning.addCopy(found.node);
        }
    }

    private boolean isOrIsAboveCopied(ProgramClass found) {
        for (ProgramClass other : world.classes()) {
            boolean isCopied = other.isInstantiated && other.ancestors.contains(BuiltIns.CLONEABLE);
            if (isCopied && other.ancestors.contains(found.name())) {
                return true;
            }
        }
        return false;
    }

    private void write(ClassNode node) {
        for (FieldNode field : node.fields) {
            if (field.value instanceof String) {
                field.value = null;
            }
        }
        ClassWriter writer = new ClassWriter(ClassWriter.COMPUTE_MAXS);
        node.accept(writer);
        files.put(node.name, writer.toByteArray());
        Set<String> keys = new LinkedHashSet<>();
        node.methods.forEach(method -> keys.add(Names.key(method.name, method.desc)));
        methods.put(node.name, keys);
    }
}
