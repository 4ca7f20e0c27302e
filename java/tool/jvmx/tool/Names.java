package jvmx.tool;

import org.objectweb.asm.Type;

/** Takes names and descriptors apart. */
final class Names {
    private Names() { }

    /** Returns the class that an array of it, of any dimension, is made of; null for a primitive type. */
    static String elementOf(String name) {
        if (!name.startsWith("[")) {
            return name;
        }
        String element = name.substring(name.lastIndexOf('[') + 1);
        return element.startsWith("L") ? element.substring(1, element.length() - 1) : null;
    }

    /** Returns the descriptor of a static method that takes the receiver as its first parameter. */
    static String withReceiver(String owner, String descriptor) {
        return "(" + Type.getObjectType(owner).getDescriptor() + descriptor.substring(1);
    }

    /** Returns the key of a member in its class: its name and its descriptor. */
    static String key(String name, String descriptor) {
        return name + descriptor;
    }

    /** Returns whether values of the type are references. */
    static boolean isReference(Type type) {
        return type.getSort() == Type.OBJECT || type.getSort() == Type.ARRAY;
    }
}
