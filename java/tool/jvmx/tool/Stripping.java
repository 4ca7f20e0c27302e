package jvmx.tool;

import org.objectweb.asm.tree.ClassNode;
import org.objectweb.asm.tree.FieldNode;
import org.objectweb.asm.tree.MethodNode;

/** Removes the attributes that have no meaning on the machine. Lines and local variables stay. */
final class Stripping {
    private Stripping() { }

    /** Removes them from a class and its fields. */
    static void strip(ClassNode node) {
        node.signature = null;
        node.outerClass = null;
        node.outerMethod = null;
        node.outerMethodDesc = null;
        node.visibleAnnotations = null;
        node.invisibleAnnotations = null;
        node.visibleTypeAnnotations = null;
        node.invisibleTypeAnnotations = null;
        node.attrs = null;
        node.innerClasses.clear();
        node.nestHostClass = null;
        node.nestMembers = null;
        node.permittedSubclasses = null;
        node.recordComponents = null;
        node.module = null;
        for (FieldNode field : node.fields) {
            field.signature = null;
            field.visibleAnnotations = null;
            field.invisibleAnnotations = null;
            field.visibleTypeAnnotations = null;
            field.invisibleTypeAnnotations = null;
        }
    }

    /** Removes them from a method. */
    static void strip(MethodNode method) {
        method.signature = null;
        method.parameters = null;
        method.visibleAnnotations = null;
        method.invisibleAnnotations = null;
        method.visibleTypeAnnotations = null;
        method.invisibleTypeAnnotations = null;
        method.visibleParameterAnnotations = null;
        method.invisibleParameterAnnotations = null;
        method.visibleLocalVariableAnnotations = null;
        method.invisibleLocalVariableAnnotations = null;
        method.annotationDefault = null;
        method.attrs = null;
    }
}
