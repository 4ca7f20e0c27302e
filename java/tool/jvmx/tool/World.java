package jvmx.tool;

import java.util.ArrayList;
import java.util.Collection;
import java.util.HashSet;
import java.util.LinkedHashMap;
import java.util.List;
import java.util.Map;
import java.util.Set;
import org.objectweb.asm.ClassReader;
import org.objectweb.asm.Opcodes;
import org.objectweb.asm.commons.ClassRemapper;
import org.objectweb.asm.tree.ClassNode;
import org.objectweb.asm.tree.FieldNode;
import org.objectweb.asm.tree.MethodNode;

/** Has the classes of the program, each read when it is first asked for, under the names of the adapted program. */
final class World {
    private final Map<String, byte[]> user;
    private final Library library;
    private final Map<String, ProgramClass> classes = new LinkedHashMap<>();
    private final Set<String> absent = new HashSet<>();

    World(Map<String, byte[]> user, Library library) {
        this.user = user;
        this.library = library;
    }

    /** Returns the classes that were read or generated so far, in that order. */
    Collection<ProgramClass> classes() {
        return new ArrayList<>(classes.values());
    }

    /** Returns the class of this name; null if the machine has it or it isn't there. */
    ProgramClass find(String name) {
        return find(name, false);
    }

    private ProgramClass find(String name, boolean isAncestor) {
        ProgramClass found = classes.get(name);
        boolean isElsewhere = name == null || name.startsWith("[") || isGenerated(name) || BuiltIns.isKept(name);
        if (found != null || isElsewhere || absent.contains(name) && !isAncestor) {
            return found;
        }
        found = read(name, isAncestor);
        if (found == null) {
            absent.add(name);
        }
        return found;
    }

    /** Returns whether neither the machine nor anybody else has the class. */
    boolean isAbsent(String name) {
        return find(name) == null && !BuiltIns.isKept(name) && !name.startsWith("[") && !isGenerated(name);
    }

    /** Returns whether the tool makes the class when all others are known. */
    static boolean isGenerated(String name) {
        return name.startsWith("jx/gen/");
    }

    private ProgramClass read(String name, boolean isAncestor) {
        byte[] bytes = user.get(name);
        if (bytes != null) {
            return define(parse(bytes), Origin.USER);
        }
        bytes = library.read(name);
        if (bytes != null) {
            return define(parse(bytes), Origin.LIBRARY);
        }
        bytes = JdkClasses.read(name, isAncestor);
        return bytes == null ? null : define(parse(bytes), Origin.JDK);
    }

    private static ClassNode parse(byte[] bytes) {
        ClassNode node = new ClassNode();
        try {
            new ClassReader(bytes).accept(node, ClassReader.SKIP_FRAMES);
        } catch (IllegalArgumentException newer) {
            throw Refusal.ofDevice("this ASM reads no class files of this JDK (" + newer.getMessage() + "); ASM_JAR may name a newer one");
        }
        return node;
    }

    /** Adds a class of the given node, whose names are those of the source; returns null if an ancestor isn't there. */
    ProgramClass define(ClassNode source, Origin origin) {
        boolean isRaw = ProgramClass.isRaw(source.name);
        ProgramClass made = new ProgramClass(head(source, isRaw), origin);
        for (MethodNode method : source.methods) {
            addMethod(made, method);
        }
        classes.put(made.name(), made);
        if (!link(made)) {
            classes.remove(made.name());
            return null;
        }
        return made;
    }

    /** Adds a method, with the names of the source, to a class. */
    void addMethod(ProgramClass owner, MethodNode method) {
        String descriptor = owner.isRaw() ? method.desc : Renaming.INSTANCE.mapMethodDesc(method.desc);
        ProgramMethod added = new ProgramMethod(owner, method.name, descriptor, method);
        owner.methods.put(added.key(), added);
    }

    private static ClassNode head(ClassNode source, boolean isRaw) {
        ClassNode head = new ClassNode();
        List<MethodNode> methods = source.methods;
        source.methods = new ArrayList<>();
        source.accept(isRaw ? head : new ClassRemapper(head, Renaming.INSTANCE));
        source.methods = methods;
        head.version = Opcodes.V1_5;
        head.access &= ~(Opcodes.ACC_RECORD | Opcodes.ACC_DEPRECATED);
        Stripping.strip(head);
        if (BuiltIns.isThrowable(head.superName) && !head.name.startsWith("jx/ex/") && !isRaw) {
            head.superName = BuiltIns.withMessage(head.superName);
        }
        return head;
    }

    private boolean link(ProgramClass made) {
        made.ancestors.add(made.name());
        made.superclass = find(made.node.superName, true);
        if (made.superclass == null && isMissing(made, made.node.superName)) {
            return false;
        }
        addAncestor(made, made.superclass, made.node.superName);
        for (String name : made.node.interfaces) {
            ProgramClass found = find(name, true);
            if (found == null && isMissing(made, name)) {
                return false;
            }
            if (found != null) {
                made.interfaces.add(found);
            }
            addAncestor(made, found, name);
        }
        return true;
    }

    private static void addAncestor(ProgramClass made, ProgramClass ancestor, String name) {
        if (ancestor != null) {
            made.ancestors.addAll(ancestor.ancestors);
        } else if (name != null) {
            made.ancestors.add(name);
            made.ancestors.add(BuiltIns.OBJECT);
        }
    }

    private boolean isMissing(ProgramClass made, String ancestor) {
        if (made.name().startsWith("jx/raw/") || !isAbsent(ancestor)) {
            return false;
        }
        if (made.isUser()) {
            throw Refusal.ofInput(made.name() + " NoClassDefFoundError " + ancestor + ": its superclass or superinterface isn't there");
        }
        return true;
    }

    /** Returns the method that an instruction names: in the class, its superclasses, or a superinterface. */
    ProgramMethod resolve(String owner, String key) {
        for (ProgramClass c = find(owner); c != null; c = c.superclass) {
            ProgramMethod method = c.method(key);
            if (method != null) {
                return method;
            }
        }
        ProgramMethod body = interfaceMethod(find(owner), key, true);
        return body != null ? body : interfaceMethod(find(owner), key, false);
    }

    /** Returns the method with a body that a call on an object of the class selects, or null. */
    ProgramMethod select(ProgramClass receiver, String key) {
        for (ProgramClass c = receiver; c != null; c = c.superclass) {
            ProgramMethod method = c.method(key);
            if (method != null && method.isVirtual()) {
                return method.isAbstract() ? null : method;
            }
        }
        return interfaceMethod(receiver, key, true);
    }

    /** Returns the most specific method of a superinterface, with or without a body. */
    ProgramMethod interfaceMethod(ProgramClass start, String key, boolean withBody) {
        if (start == null) {
            return null;
        }
        ProgramMethod best = null;
        for (String name : start.ancestors) {
            ProgramClass ancestor = classes.get(name);
            ProgramMethod method = ancestor == null || !ancestor.isInterface() ? null : ancestor.method(key);
            if (method == null || method.isStatic() && ancestor != start || withBody == method.isAbstract()) {
                continue;
            }
            if (best == null || ancestor.ancestors.contains(best.owner.name())) {
                best = method;
            }
        }
        return best;
    }

    /** Returns the class that declares the field that an instruction names, or null. */
    ProgramClass fieldOwner(String owner, String name, String descriptor) {
        ProgramClass start = find(owner);
        for (ProgramClass c = start; c != null; c = c.superclass) {
            if (c.field(name, descriptor) != null) {
                return c;
            }
        }
        if (start != null) {
            for (String ancestor : start.ancestors) {
                ProgramClass c = classes.get(ancestor);
                if (c != null && c.field(name, descriptor) != null) {
                    return c;
                }
            }
        }
        return null;
    }

    /** Returns the field that an instruction names, or null. */
    FieldNode field(String owner, String name, String descriptor) {
        ProgramClass declaring = fieldOwner(owner, name, descriptor);
        return declaring == null ? null : declaring.field(name, descriptor);
    }

    /** Returns whether the class, or a superclass that isn't the machine's, has a method of this key. */
    boolean isDeclared(String owner, String key) {
        for (ProgramClass c = find(owner); c != null && !c.isInterface(); c = c.superclass) {
            if (c.method(key) != null) {
                return true;
            }
        }
        return false;
    }
}
