package jvmx.tool;

import java.util.ArrayList;
import java.util.Collection;
import java.util.List;
import java.util.Map;
import java.util.Set;
import org.objectweb.asm.Label;
import org.objectweb.asm.Opcodes;
import org.objectweb.asm.Type;
import org.objectweb.asm.tree.ClassNode;
import org.objectweb.asm.tree.MethodNode;

/**
 * Makes the class of those methods whose bodies depend on which classes the program has. The library declares some of
 * them in a class of the same name, for its compiler alone.
 */
final class ClassTable {
    private static final String OBJECT_ARRAY = "[Ljava/lang/Object;";
    private static final String CLASS_TYPE = "Ljava/lang/Class;";
    private static final String CONSTANT_ARRAYS = "()[Ljava/lang/Enum;";

    private final World world;
    private final Literals literals;
    private final ArrayTypes arrays;
    private final SourceNames names;
    /** The classes of the program, those of the caller first. */
    private final List<ProgramClass> classes = new ArrayList<>();
    private final boolean hasAssertions;

    ClassTable(World world, Literals literals, ArrayTypes arrays, SourceNames names, boolean hasAssertions) {
        this.world = world;
        this.literals = literals;
        this.arrays = arrays;
        this.names = names;
        this.hasAssertions = hasAssertions;
    }

    /** Returns the class, with those of its methods that the program calls. */
    ClassNode make(Collection<ProgramClass> written, Set<String> calledKeys) {
        order(written);
        ClassNode made = new ClassNode();
        made.visit(Opcodes.V1_5, Opcodes.ACC_PUBLIC | Opcodes.ACC_SUPER, Calls.TABLE, null, BuiltIns.OBJECT, null);
        for (String key : calledKeys) {
            int parameters = key.indexOf('(');
            MethodNode method = new MethodNode(Opcodes.ACC_PUBLIC | Opcodes.ACC_STATIC, key.substring(0, parameters),
                key.substring(parameters), null, null);
            write(method);
            made.methods.add(method);
        }
        return made;
    }

    private void order(Collection<ProgramClass> written) {
        for (boolean isUser : new boolean[] { true, false }) {
            for (ProgramClass found : written) {
                boolean isShown = !found.isRaw() && !found.name().startsWith("jx/Has") && !found.name().startsWith("jx/gen/");
                if (found.isUser() == isUser && isShown) {
                    classes.add(found);
                }
            }
        }
    }

    private void write(MethodNode method) {
        switch (method.name) {
            case "name": writeName(method); break;
            case "like": writeLike(method); break;
            case "classOf": writeClassOf(method); break;
            case "make": writeMake(method, false); break;
            case "of": writeMake(method, true); break;
            case "universe":
            case "getEnumConstantsShared": writeUniverse(method); break;
            case "valueOf": writeValueOf(method); break;
            case "assertions": constant(method, hasAssertions ? 1 : 0); break;
            case "noAssertions": constant(method, 0); break;
            case "is": writeIs(method); break;
            case "flags": writeFlags(method); break;
            case "parent": writeParent(method); break;
            case "literal": new LiteralSearch(literals).write(method); break;
            case "clone": Cloning.writeDispatch(method, literals); break;
            case "same": writeSame(method); break;
            case "nothing": method.visitInsn(Opcodes.RETURN); break;
            default:
                if (method.name.startsWith("clone$")) {
                    writeCloneOfArray(method);
                } else {
                    throw new IllegalStateException("the library calls " + Calls.TABLE + "." + method.name + method.desc);
                }
        }
    }

    private static void constant(MethodNode method, int value) {
        Code.push(method, value);
        method.visitInsn(Opcodes.IRETURN);
    }

    private static void writeSame(MethodNode method) {
        Label different = new Label();
        method.visitVarInsn(Opcodes.ALOAD, 0);
        method.visitVarInsn(Opcodes.ALOAD, 1);
        method.visitJumpInsn(Opcodes.IF_ACMPNE, different);
        constant(method, 1);
        method.visitLabel(different);
        constant(method, 0);
    }

    /** Writes the begin of a case: the instructions after it run if parameter 0 is the class. */
    private static Label ifClass(MethodNode method, Type type) {
        Label next = new Label();
        method.visitVarInsn(Opcodes.ALOAD, 0);
        method.visitLdcInsn(type);
        method.visitJumpInsn(Opcodes.IF_ACMPNE, next);
        return next;
    }

    /** Writes the begin of a case: the instructions after it run if parameter 0 is an object of the type. */
    private static Label ifInstance(MethodNode method, Type type) {
        Label next = new Label();
        method.visitVarInsn(Opcodes.ALOAD, 0);
        method.visitTypeInsn(Opcodes.INSTANCEOF, type.getInternalName());
        method.visitJumpInsn(Opcodes.IFEQ, next);
        return next;
    }

    private static void end(MethodNode method, int opcode, Label next) {
        method.visitInsn(opcode);
        method.visitLabel(next);
    }

    private List<Type> arrayTypes() {
        List<Type> types = new ArrayList<>();
        for (String element : arrays.mostSpecificFirst(world)) {
            types.add(Type.getType("[" + Type.getObjectType(element).getDescriptor()));
        }
        return types;
    }

    private List<Type> allTypes() {
        List<Type> types = new ArrayList<>();
        for (ProgramClass found : classes) {
            types.add(Type.getObjectType(found.name()));
        }
        for (String name : BuiltIns.kept()) {
            types.add(Type.getObjectType(name));
        }
        types.addAll(arrayTypes());
        types.add(Type.getType(OBJECT_ARRAY));
        for (char primitive : "ZCFDBSIJ".toCharArray()) {
            types.add(Type.getType("[" + primitive));
        }
        return types;
    }

    private void writeName(MethodNode method) {
        for (Type type : allTypes()) {
            Label next = ifClass(method, type);
            literals.load(method, names.dotted(type));
            end(method, Opcodes.ARETURN, next);
        }
        method.visitInsn(Opcodes.ACONST_NULL);
        method.visitInsn(Opcodes.ARETURN);
    }

    private void newArray(MethodNode method, Type array) {
        method.visitVarInsn(Opcodes.ILOAD, 1);
        method.visitTypeInsn(Opcodes.ANEWARRAY, ArrayTypes.elementType(array).getInternalName());
    }

    private void writeLike(MethodNode method) {
        for (Type type : arrayTypes()) {
            Label next = ifInstance(method, type);
            newArray(method, type);
            end(method, Opcodes.ARETURN, next);
        }
        newArray(method, Type.getType(OBJECT_ARRAY));
        method.visitInsn(Opcodes.ARETURN);
    }

    private void writeClassOf(MethodNode method) {
        for (Type type : arrayTypes()) {
            Label next = ifInstance(method, type);
            method.visitLdcInsn(type);
            end(method, Opcodes.ARETURN, next);
        }
        method.visitLdcInsn(Type.getType(OBJECT_ARRAY));
        method.visitInsn(Opcodes.ARETURN);
    }

    /** Writes the method that makes an array by its class, or by that of its elements. */
    private void writeMake(MethodNode method, boolean isByElement) {
        for (Type type : arrayTypes()) {
            Label next = ifClass(method, isByElement ? ArrayTypes.elementType(type) : type);
            newArray(method, type);
            end(method, Opcodes.ARETURN, next);
        }
        newArray(method, Type.getType(OBJECT_ARRAY));
        method.visitInsn(Opcodes.ARETURN);
    }

    private void writeUniverse(MethodNode method) {
        int parameter = method.name.equals("universe") ? 0 : 1;
        for (ProgramClass found : classes) {
            if (found.isEnum() && found.method(valuesKey(found)) != null) {
                Label next = new Label();
                method.visitVarInsn(Opcodes.ALOAD, parameter);
                method.visitLdcInsn(Type.getObjectType(found.name()));
                method.visitJumpInsn(Opcodes.IF_ACMPNE, next);
                method.visitMethodInsn(Opcodes.INVOKESTATIC, found.name(), "values", "()[L" + found.name() + ";", false);
                end(method, Opcodes.ARETURN, next);
            }
        }
        method.visitInsn(Opcodes.ACONST_NULL);
        method.visitInsn(Opcodes.ARETURN);
    }

    /** Returns the key of an enumeration's method that returns its constants. */
    static String valuesKey(ProgramClass enumeration) {
        return "values()[L" + enumeration.name() + ";";
    }

    private void writeValueOf(MethodNode method) {
        boolean takesClass = world.resolve("jx/Arr", Library.FIND_WITH_CLASS) != null;
        if (takesClass) {
            method.visitVarInsn(Opcodes.ALOAD, 0);
        }
        method.visitVarInsn(Opcodes.ALOAD, 1);
        method.visitVarInsn(Opcodes.ALOAD, 0);
        method.visitMethodInsn(Opcodes.INVOKESTATIC, Calls.TABLE, "universe", "(" + CLASS_TYPE + ")[Ljava/lang/Enum;", false);
        String key = takesClass ? Library.FIND_WITH_CLASS : Library.FIND;
        method.visitMethodInsn(Opcodes.INVOKESTATIC, "jx/Arr", "find", key.substring("find".length()), false);
        method.visitInsn(Opcodes.ARETURN);
    }

    private void writeIs(MethodNode method) {
        for (Type type : allTypes()) {
            Label next = ifClass(method, type);
            method.visitVarInsn(Opcodes.ALOAD, 1);
            method.visitTypeInsn(Opcodes.INSTANCEOF, type.getInternalName());
            end(method, Opcodes.IRETURN, next);
        }
        constant(method, 0);
    }

    private void writeFlags(MethodNode method) {
        for (ProgramClass found : classes) {
            Label next = ifClass(method, Type.getObjectType(found.name()));
            Code.push(method, found.node.access);
            end(method, Opcodes.IRETURN, next);
        }
        for (String name : new String[] { "java/lang/Runnable", BuiltIns.CLONEABLE, "java/io/Serializable" }) {
            Label next = ifClass(method, Type.getObjectType(name));
            Code.push(method, Opcodes.ACC_PUBLIC | Opcodes.ACC_INTERFACE | Opcodes.ACC_ABSTRACT);
            end(method, Opcodes.IRETURN, next);
        }
        constant(method, Opcodes.ACC_PUBLIC);
    }

    private void writeParent(MethodNode method) {
        for (ProgramClass found : classes) {
            if (!found.isInterface()) {
                Label next = ifClass(method, Type.getObjectType(found.name()));
                method.visitLdcInsn(Type.getObjectType(found.node.superName));
                end(method, Opcodes.ARETURN, next);
            }
        }
        for (Type type : arrayTypes()) {
            Label next = ifClass(method, type);
            method.visitLdcInsn(ArrayTypes.elementType(type));
            end(method, Opcodes.ARETURN, next);
        }
        method.visitInsn(Opcodes.ACONST_NULL);
        method.visitInsn(Opcodes.ARETURN);
    }

    private void writeCloneOfArray(MethodNode method) {
        Type array = Type.getArgumentTypes(method.desc)[0];
        Type element = ArrayTypes.elementType(array);
        method.visitVarInsn(Opcodes.ALOAD, 0);
        method.visitVarInsn(Opcodes.ALOAD, 0);
        if (!Names.isReference(element)) {
            method.visitInsn(Opcodes.ARRAYLENGTH);
            method.visitIntInsn(Opcodes.NEWARRAY, Cloning.codeOf(element));
        } else if (hasOneArrayType(element)) {
            method.visitInsn(Opcodes.ARRAYLENGTH);
            method.visitTypeInsn(Opcodes.ANEWARRAY, element.getInternalName());
        } else {
            method.visitInsn(Opcodes.DUP);
            method.visitInsn(Opcodes.ARRAYLENGTH);
            method.visitMethodInsn(Opcodes.INVOKESTATIC, Calls.TABLE, "like", "(" + OBJECT_ARRAY + "I)" + OBJECT_ARRAY, false);
        }
        method.visitMethodInsn(Opcodes.INVOKESTATIC, "jx/Arr", "fill", "(Ljava/lang/Object;Ljava/lang/Object;)Ljava/lang/Object;", false);
        method.visitInsn(Opcodes.ARETURN);
    }

    /** Returns whether no array of another type than the one of these elements can be assigned to it. */
    boolean hasOneArrayType(Type element) {
        String name = element.getInternalName();
        for (String other : arrays.mostSpecificFirst(world)) {
            ProgramClass found = world.find(other);
            boolean isBelow = found == null || found.ancestors.contains(name);
            if (!other.equals(name) && isBelow) {
                return false;
            }
        }
        return true;
    }

    /** Returns the descriptor that the methods which return all constants of an enumeration end with. */
    static boolean returnsConstants(String key) {
        return key.endsWith(CONSTANT_ARRAYS.substring(2)) || key.startsWith("valueOf(");
    }
}
