package jvmx.tool;

import java.util.ArrayList;
import java.util.HashMap;
import java.util.HashSet;
import java.util.LinkedHashMap;
import java.util.LinkedHashSet;
import java.util.List;
import java.util.Map;
import java.util.Set;
import java.util.TreeMap;
import org.objectweb.asm.Opcodes;
import org.objectweb.asm.tree.AbstractInsnNode;
import org.objectweb.asm.tree.FieldInsnNode;
import org.objectweb.asm.tree.IntInsnNode;
import org.objectweb.asm.tree.LdcInsnNode;
import org.objectweb.asm.tree.MethodInsnNode;
import org.objectweb.asm.util.Printer;

/** Collects what the program can reach and neither the machine nor the library has. */
final class Needs {
    /** The method from which each method was first reached. */
    private final Map<ProgramMethod, ProgramMethod> callers = new HashMap<>();
    /** The lines about each method of the caller, by the numbers of its instructions. */
    private final Map<ProgramMethod, Map<Integer, Set<String>>> ofUser = new LinkedHashMap<>();
    private final Map<String, ProgramMethod> ofLibrary = new LinkedHashMap<>();
    private final List<Spot> spots = new ArrayList<>();
    private final SourceNames names;

    Needs(SourceNames names) {
        this.names = names;
    }

    /** Notes from where a method is first reached. */
    void note(ProgramMethod method, ProgramMethod from) {
        callers.put(method, from);
    }

    /** Notes the instructions of a method that the machine can't run. */
    void check(ProgramMethod method) {
        if (method.owner.isRaw()) {
            return;
        }
        if (method.is(Opcodes.ACC_NATIVE)) {
            miss(method, null, "UnsatisfiedLinkError", names.method(method.owner.name(), method.name, method.descriptor), "");
            return;
        }
        for (AbstractInsnNode instruction : method.adapted.instructions) {
            String reason = reasonAgainst(instruction);
            if (reason != null) {
                miss(method, instruction, "OutOfProfile", Printer.OPCODES[instruction.getOpcode()].toLowerCase(), reason);
            }
        }
    }

    void missClass(ProgramMethod from, AbstractInsnNode instruction, String name) {
        miss(from, instruction, "NoClassDefFoundError", names.className(name), "");
    }

    void missField(ProgramMethod from, FieldInsnNode instruction) {
        miss(from, instruction, "NoSuchFieldError", names.field(instruction.owner, instruction.name, instruction.desc), "");
    }

    void missMethod(ProgramMethod from, MethodInsnNode call) {
        miss(from, call, "NoSuchMethodError", names.method(call.owner, call.name, call.desc), "");
    }

    private void miss(ProgramMethod from, AbstractInsnNode instruction, String kind, String what, String reason) {
        String why = reason.isEmpty() ? "" : " (" + reason + ")";
        String line = place(from, instruction) + " " + kind + " " + what + why;
        if (from.owner.isUser()) {
            int index = instruction == null ? 0 : Code.indexOf(instruction);
            ofUser.computeIfAbsent(from, x -> new TreeMap<>()).computeIfAbsent(index, x -> new LinkedHashSet<>()).add(line);
        } else {
            ofLibrary.putIfAbsent(kind + " " + what + why, from);
            spots.add(new Spot(from, instruction, line));
        }
    }

    /** Is a place of the library or of the JDK that needs what isn't there. */
    static final class Spot {
        final ProgramMethod method;
        /** The instruction, or null where it is the whole method. */
        final AbstractInsnNode instruction;
        final String line;

        Spot(ProgramMethod method, AbstractInsnNode instruction, String line) {
            this.method = method;
            this.instruction = instruction;
            this.line = line;
        }
    }

    /** Returns the places of the library and of the JDK. */
    List<Spot> spots() {
        return new ArrayList<>(spots);
    }

    private String place(ProgramMethod method, AbstractInsnNode instruction) {
        String place = names.method(method.owner.name(), method.name, method.descriptor);
        if (instruction == null) {
            return place;
        }
        int line = Code.lineOf(instruction);
        String file = method.owner.node.sourceFile;
        return place + " @" + Code.indexOf(instruction) + (line > 0 && file != null ? " (" + file + ":" + line + ")" : "");
    }

    /** Returns the lines about the caller's own classes. */
    List<String> ofUser() {
        List<String> lines = new ArrayList<>();
        ofUser.values().forEach(ofMethod -> ofMethod.values().forEach(lines::addAll));
        return lines;
    }

    /** Returns the lines about what the library reaches, each with the path of calls that leads there. */
    List<String> ofLibrary() {
        List<String> lines = new ArrayList<>();
        for (Map.Entry<String, ProgramMethod> entry : ofLibrary.entrySet()) {
            lines.add(entry.getKey() + " in " + path(entry.getValue()));
        }
        return lines;
    }

    private String path(ProgramMethod method) {
        StringBuilder path = new StringBuilder(names.method(method.owner.name(), method.name, method.descriptor));
        Set<ProgramMethod> seen = new HashSet<>();
        ProgramMethod at = method;
        while (at != null && !at.owner.isUser() && seen.add(at)) {
            at = callers.get(at);
            if (System.getenv("JVMX_JAVA_PATHS") != null && at != null) {
                path.append(" from ").append(names.method(at.owner.name(), at.name, at.descriptor));
            }
        }
        if (at != null && at.owner.isUser()) {
            path.append(", reached from ").append(names.method(at.owner.name(), at.name, at.descriptor));
        }
        return path.toString();
    }

    private static String reasonAgainst(AbstractInsnNode instruction) {
        int opcode = instruction.getOpcode();
        if (instruction instanceof LdcInsnNode) {
            return reasonAgainst(((LdcInsnNode) instruction).cst);
        }
        if (instruction instanceof IntInsnNode && opcode == Opcodes.NEWARRAY) {
            return null;
        }
        return FloatOpcodes.isOne(opcode) ? "float or double" : null;
    }

    private static String reasonAgainst(Object constant) {
        if (constant instanceof Float || constant instanceof Double) {
            return "float or double";
        }
        return null;
    }
}
