package jvmx.tool;

/** Says why the tool refuses the caller's words or program, and with which exit status it ends. */
final class Refusal extends RuntimeException {
    /** Exit status where words or inputs are refused. */
    static final int INPUT = 2;
    /** Exit status where a file, a device or a program that the tool needs failed. */
    static final int DEVICE = 3;

    final int status;

    Refusal(int status, String message) {
        super(message);
        this.status = status;
    }

    /** Returns a refusal of the caller's words or files. */
    static Refusal ofInput(String message) {
        return new Refusal(INPUT, message);
    }

    /** Returns a refusal because something outside failed. */
    static Refusal ofDevice(String message) {
        return new Refusal(DEVICE, message);
    }
}
