package jvmx.tool;

import java.util.Arrays;

/** Prints how the tool is used. */
final class Help {
    private static final String[] LINES = {
        "jvmx-java: runs ordinary Java on jvmx",
        "",
        "Usage: ./jvmx-java COMMAND [--main C] [-ea] [--anyway] [WORD of jvmx]... PATH...",
        "       ./jvmx-java adapt -o DIR [--main C] [-ea] PATH...",
        "",
        "  COMMAND    run, trace, debug, campaign, explore, shrink, as jvmx has them, without",
        "             --entry; needs prints what the program can reach and isn't there;",
        "             adapt writes the class files that jvmx gets, to look at",
        "  --main C   the class whose main method begins (default: that of a jar's manifest,",
        "             or the only class that has one)",
        "  -ea        assertions are on, as in java",
        "  --anyway   runs a program that needs what isn't there, up to there",
        "  --verbose  says what the library that is reached lacks, and how many files there are",
        "  --spec F   a specification, with the names of the source",
        "  PATH       a .java file, a class file, a folder of either, or a jar; several may be",
        "             joined by :",
        "",
        "What jvmx prints has the names of the source. JVMX in the environment names another",
        "program than ./jvmx, ASM_JAR another ASM than /usr/share/java/asm.jar.",
        "",
        "Exit status: that of jvmx; 2 where words or PATHs are refused, or where the program",
        "needs what isn't there; 3 where a file, the JDK or jvmx fails.",
        "",
        "Example: ./jvmx-java run Shop.java",
    };

    private Help() { }

    /** Returns whether the words ask for help. */
    static boolean isAsked(String[] given) {
        return given.length > 0 && Arrays.asList("help", "--help", "-h").contains(given[0]) || Arrays.asList(given).contains("--help");
    }

    /** Prints the text and returns the exit status. */
    static int print() {
        for (String line : LINES) {
            System.out.println(line);
        }
        return 0;
    }
}
