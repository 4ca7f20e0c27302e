package jvmx.tool;

import java.util.HashMap;
import java.util.Map;
import org.objectweb.asm.Type;
import org.objectweb.asm.commons.Remapper;

/** Maps the names of the adapted program back to those of the source. */
final class SourceNames extends Remapper {
    private static final Map<String, String> NAMES = new HashMap<>();

    static {
        for (Map.Entry<String, String> entry : BuiltIns.replaced().entrySet()) {
            NAMES.put(entry.getValue(), entry.getKey());
        }
        NAMES.put("jx/Obj", BuiltIns.OBJECT);
        NAMES.put("jx/Classes", BuiltIns.CLASS);
        NAMES.put("jx/Throwables", BuiltIns.THROWABLE);
        NAMES.put("jx/Arr", "java/util/Arrays");
    }

    @Override
    public String map(String name) {
        if (!name.startsWith("jx/")) {
            return name.endsWith(Interfaces.SUFFIX) ? name.substring(0, name.length() - Interfaces.SUFFIX.length()) : name;
        }
        if (name.startsWith("jx/ex/")) {
            return "java/lang/" + name.substring("jx/ex/".length());
        }
        int nested = name.indexOf('$');
        String outer = nested < 0 ? name : name.substring(0, nested);
        return NAMES.getOrDefault(outer, outer) + name.substring(outer.length());
    }

    /** Returns the name of a class in the source. */
    String className(String name) {
        return name.startsWith("[") ? mapDesc(name) : map(name);
    }

    /** Returns a method's class, name and descriptor as the source has them. */
    String method(String owner, String name, String descriptor) {
        return className(owner) + "." + name + "." + mapMethodDesc(sourceDescriptor(owner, name, descriptor));
    }

    /** Returns a field's class, name and descriptor as the source has them. */
    String field(String owner, String name, String descriptor) {
        return className(owner) + "." + name + "." + mapDesc(descriptor);
    }

    /** Returns the descriptor without the receiver, where a static method has the body of one of an object. */
    private String sourceDescriptor(String owner, String name, String descriptor) {
        String receiver = receiverOf(owner);
        String first = receiver == null ? null : "(L" + receiver + ";";
        return first != null && descriptor.startsWith(first) ? "(" + descriptor.substring(first.length()) : descriptor;
    }

    private static String receiverOf(String owner) {
        switch (owner) {
            case "jx/Obj": return BuiltIns.OBJECT;
            case "jx/Classes": return BuiltIns.CLASS;
            case "jx/Throwables": return BuiltIns.THROWABLE;
            default: return null;
        }
    }

    /** Returns the name of a type's class in the source, with dots. */
    String dotted(Type type) {
        return mapType(type.getInternalName()).replace('/', '.');
    }
}
