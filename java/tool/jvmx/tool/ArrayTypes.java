package jvmx.tool;

import java.util.ArrayList;
import java.util.LinkedHashSet;
import java.util.List;
import java.util.Set;
import org.objectweb.asm.Type;

/** Collects the types of arrays of references that the program makes, and of those that it clones. */
final class ArrayTypes {
    /** Element types, as `anewarray` names them. */
    private final Set<String> made = new LinkedHashSet<>();
    private final Set<String> cloned = new LinkedHashSet<>();

    /** Adds the element type of an `anewarray`. */
    void make(String element) {
        made.add(element);
    }

    /** Adds all types of arrays that a `multianewarray` of this descriptor makes. */
    void makeAll(String array) {
        for (Type type = Type.getType(array); type.getSort() == Type.ARRAY; type = elementType(type)) {
            Type element = elementType(type);
            if (Names.isReference(element)) {
                made.add(element.getInternalName());
            }
        }
    }

    /** Adds an array type whose clone the program calls. */
    void clone(String array) {
        cloned.add(array);
        Type element = elementType(Type.getType(array));
        if (Names.isReference(element)) {
            made.add(element.getInternalName());
        }
    }

    Set<String> cloned() {
        return cloned;
    }

    /** Returns the name of the method that clones arrays of a type. */
    static String cloner(String array) {
        return "clone$" + array.replace('[', '$').replace(';', '$').replace('/', '$');
    }

    /** Returns the element types, each before those that it is a subtype of, but Object. */
    List<String> mostSpecificFirst(World world) {
        List<String> order = new ArrayList<>(made);
        order.remove(BuiltIns.OBJECT);
        order.removeIf(name -> Names.elementOf(name) != null && world.isAbsent(Names.elementOf(name)));
        order.sort((one, other) -> depth(world, other) - depth(world, one));
        return order;
    }

    /** Returns the type of the elements of an array type. */
    static Type elementType(Type array) {
        return Type.getType(array.getDescriptor().substring(1));
    }

    private static int depth(World world, String name) {
        String element = Names.elementOf(name);
        int dimensions = name.lastIndexOf('[') + 1;
        ProgramClass found = element == null ? null : world.find(element);
        int above = found != null ? found.ancestors.size() : BuiltIns.OBJECT.equals(element) ? 0 : BuiltIns.depth(element);
        return dimensions * 10000 + above;
    }
}
