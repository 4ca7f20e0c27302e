package jvmx.tool;

/** Writes words as a shell reads them. */
final class Quoting {
    private Quoting() { }

    /** Returns a word, in quotes if a shell would take it for something else. */
    static String quote(String word) {
        return word.matches("[A-Za-z0-9_./:=,@%+-]+") ? word : "'" + word.replace("'", "'\\''") + "'";
    }
}
