package jvmx.tool;

/** Says where a class of the adapted program is from. */
enum Origin {
    /** The caller's PATHs. */
    USER,
    /** The tool's own library. */
    LIBRARY,
    /** The module java.base of the caller's JDK. */
    JDK,
    /** The tool: constants, tables, lambdas. */
    GENERATED
}
