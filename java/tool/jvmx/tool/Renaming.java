package jvmx.tool;

import org.objectweb.asm.commons.Remapper;

/** Maps the names of the source to those of the adapted program. */
final class Renaming extends Remapper {
    static final Renaming INSTANCE = new Renaming();

    private static final String NESTED_IN_THREAD = "java/lang/Thread$";

    private Renaming() { }

    @Override
    public String map(String name) {
        if (name.startsWith(NESTED_IN_THREAD)) {
            return "jx/Thr$" + name.substring(NESTED_IN_THREAD.length());
        }
        return BuiltIns.replaced().getOrDefault(name, name);
    }
}
