package jvmx.tool;

import java.util.ArrayList;
import java.util.LinkedHashMap;
import java.util.List;
import java.util.Map;
import java.util.Set;
import org.objectweb.asm.Opcodes;
import org.objectweb.asm.tree.AbstractInsnNode;
import org.objectweb.asm.tree.ClassNode;
import org.objectweb.asm.tree.FieldInsnNode;
import org.objectweb.asm.tree.MethodNode;

/**
 * Gives each constant string of the program a static field, which has the one object of that text. A text of the
 * caller's code has a class of its own, so that it is made where it is first used. The texts of a class of the library
 * share a class.
 */
final class Literals {
    private static final String PREFIX = "jx/gen/K";
    private static final String DESCRIPTOR = "L" + BuiltIns.TEXT + ";";
    /** How many units the texts of one class may have together, so that its code is short enough. */
    private static final int MOST_UNITS = 4000;

    /** The field of each text. */
    private final Map<String, FieldInsnNode> fields = new LinkedHashMap<>();
    /** The texts of each class. */
    private final Map<String, List<String>> texts = new LinkedHashMap<>();
    /** The class that takes the next text of a class of the library. */
    private final Map<String, String> shared = new LinkedHashMap<>();

    /** Returns the instruction that pushes the object of a text in the code of a class. */
    AbstractInsnNode load(String text, ProgramClass host) {
        return load(text, host.isUser() ? null : host.name());
    }

    /** Writes the instruction that pushes the object of a text in generated code. */
    void load(MethodNode method, String text) {
        method.instructions.add(load(text, Calls.TABLE));
    }

    private AbstractInsnNode load(String text, String sharer) {
        FieldInsnNode known = fields.get(text);
        if (known == null) {
            String owner = sharer == null ? added() : sharedBy(sharer, text);
            List<String> group = texts.get(owner);
            known = new FieldInsnNode(Opcodes.GETSTATIC, owner, "s" + group.size(), DESCRIPTOR);
            group.add(text);
            fields.put(text, known);
        }
        return known.clone(null);
    }

    private String added() {
        String owner = PREFIX + texts.size();
        texts.put(owner, new ArrayList<>());
        return owner;
    }

    private String sharedBy(String sharer, String text) {
        String owner = shared.get(sharer);
        int units = owner == null ? 0 : texts.get(owner).stream().mapToInt(String::length).sum();
        if (owner == null || units + text.length() > MOST_UNITS) {
            owner = added();
            shared.put(sharer, owner);
        }
        return owner;
    }

    /** Returns whether the class has objects of texts. */
    static boolean isLiteral(String className) {
        return className.startsWith(PREFIX) && Character.isDigit(className.charAt(PREFIX.length()));
    }

    /** Returns all texts so far. */
    Set<String> texts() {
        return fields.keySet();
    }

    /** Returns the classes that have the objects of all texts so far. */
    List<ClassNode> classes() {
        List<ClassNode> classes = new ArrayList<>();
        texts.forEach((owner, group) -> classes.add(new LiteralClass(owner).make(group)));
        return classes;
    }
}
