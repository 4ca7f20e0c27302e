package jvmx.tool;

import java.util.ArrayList;
import java.util.HashMap;
import java.util.HashSet;
import java.util.List;
import java.util.Map;
import java.util.Set;
import org.objectweb.asm.ClassReader;
import org.objectweb.asm.Opcodes;
import org.objectweb.asm.Type;
import org.objectweb.asm.tree.ClassNode;
import org.objectweb.asm.tree.MethodNode;
import org.objectweb.asm.tree.analysis.Analyzer;
import org.objectweb.asm.tree.analysis.AnalyzerException;
import org.objectweb.asm.tree.analysis.SimpleVerifier;
import org.objectweb.asm.util.CheckClassAdapter;

/** Checks the class files of an adapted program, as tests want it: their form, and the types of all operands. */
final class Verification {
    private final Map<String, ClassNode> classes = new HashMap<>();
    private final List<String> faults = new ArrayList<>();

    private Verification() { }

    /** Returns a line for each fault of the class files. */
    static List<String> faults(Map<String, byte[]> files) {
        Verification verification = new Verification();
        files.forEach(verification::read);
        verification.classes.values().forEach(verification::check);
        return verification.faults;
    }

    private void read(String name, byte[] file) {
        ClassNode node = new ClassNode();
        try {
            new ClassReader(file).accept(new CheckClassAdapter(node, true), 0);
        } catch (RuntimeException fault) {
            faults.add(name + ": " + fault.getMessage());
            node = new ClassNode();
            new ClassReader(file).accept(node, 0);
        }
        classes.put(name, node);
    }

    private void check(ClassNode owner) {
        for (MethodNode method : owner.methods) {
            Type superclass = owner.superName == null ? null : Type.getObjectType(owner.superName);
            List<Type> interfaces = new ArrayList<>();
            owner.interfaces.forEach(name -> interfaces.add(Type.getObjectType(name)));
            boolean isInterface = (owner.access & Opcodes.ACC_INTERFACE) != 0;
            Types types = new Types(Type.getObjectType(owner.name), superclass, interfaces, isInterface);
            try {
                new Analyzer<>(types).analyze(owner.name, method);
            } catch (AnalyzerException | RuntimeException fault) {
                faults.add(owner.name + "." + method.name + method.desc + ": " + fault.getMessage());
            }
        }
    }

    /** Knows the classes of the program, and of the machine, without loading any. */
    private final class Types extends SimpleVerifier {
        Types(Type current, Type superclass, List<Type> interfaces, boolean isInterface) {
            super(Opcodes.ASM9, current, superclass, interfaces, isInterface);
        }

        @Override
        protected boolean isInterface(Type type) {
            ClassNode node = classes.get(type.getInternalName());
            return node == null ? isUnknown(type) : (node.access & Opcodes.ACC_INTERFACE) != 0;
        }

        /** Returns whether the class isn't in the program: then nothing is said against it. */
        private boolean isUnknown(Type type) {
            String name = type.getInternalName();
            return !BuiltIns.isThrowable(name) && !name.equals(BuiltIns.OBJECT) && !name.equals(BuiltIns.CLASS)
                && !name.equals(BuiltIns.STRING) && !name.equals("java/lang/Thread");
        }

        /** Returns a class that is an interface if the type is: nothing else is asked of it. */
        @Override
        protected Class<?> getClass(Type type) {
            return type.getSort() == Type.ARRAY ? Object[].class : isInterface(type) ? Runnable.class : Object.class;
        }

        @Override
        protected Type getSuperClass(Type type) {
            ClassNode node = classes.get(type.getInternalName());
            if (node != null) {
                return Type.getObjectType(node.superName);
            }
            return type.getInternalName().equals(BuiltIns.OBJECT) ? null : Type.getObjectType(BuiltIns.superclass(type.getInternalName()));
        }

        @Override
        protected boolean isAssignableFrom(Type to, Type from) {
            if (to.equals(from) || to.getInternalName().equals(BuiltIns.OBJECT)) {
                return true;
            }
            if (to.getSort() == Type.ARRAY) {
                return from.getSort() == Type.ARRAY && isArrayAssignable(to, from);
            }
            if (from.getSort() == Type.ARRAY) {
                return isInterface(to);
            }
            return isInterface(to) || ancestors(from.getInternalName()).contains(to.getInternalName());
        }

        private boolean isArrayAssignable(Type to, Type from) {
            Type element = ArrayTypes.elementType(to);
            Type other = ArrayTypes.elementType(from);
            return Names.isReference(element) && Names.isReference(other) && isAssignableFrom(element, other) || element.equals(other);
        }

        private Set<String> ancestors(String name) {
            Set<String> found = new HashSet<>();
            for (String at = name; at != null && found.add(at); at = superclassOf(at)) {
                ClassNode node = classes.get(at);
                if (node != null) {
                    found.addAll(node.interfaces);
                }
            }
            return found;
        }

        private String superclassOf(String name) {
            ClassNode node = classes.get(name);
            return node != null ? node.superName : name.equals(BuiltIns.OBJECT) ? null : BuiltIns.superclass(name);
        }
    }
}
