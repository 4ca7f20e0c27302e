package jvmx.tool;

import java.io.IOException;
import java.io.InputStream;
import java.io.OutputStream;
import java.nio.charset.StandardCharsets;

/**
 * Passes on what an adapted program writes. The machine has one stream, and strings of its constants alone: the library
 * writes an escape for what goes to standard error, and for units that it has no constant of.
 */
final class ProgramOutput {
    private static final int ESCAPE = 0x10;
    private static final int DIGITS = 4;

    private final OutputStream standard;
    private final OutputStream error;
    /** The letter of the escape that is being read, or 0 outside one, or ESCAPE before its letter. */
    private int state;
    private int count;
    private int unit;
    private char high;

    ProgramOutput(OutputStream standard, OutputStream error) {
        this.standard = standard;
        this.error = error;
    }

    /** Passes all bytes of a stream on, each as soon as it is there. */
    void pass(InputStream source) throws IOException {
        byte[] buffer = new byte[8192];
        for (int length = source.read(buffer); length >= 0; length = source.read(buffer)) {
            for (int i = 0; i < length; i++) {
                take(buffer[i] & 0xff);
            }
            standard.flush();
            error.flush();
        }
    }

    private void take(int next) throws IOException {
        switch (state) {
            case 0: outside(next); break;
            case ESCAPE: letter(next); break;
            case 'e': error.write(next); state = 0; break;
            default: digit(next);
        }
    }

    private void outside(int next) throws IOException {
        if (next == ESCAPE) {
            state = ESCAPE;
        } else {
            standard.write(next);
        }
    }

    private void letter(int next) throws IOException {
        state = 0;
        if (next == 'p') {
            standard.write(ESCAPE);
        } else if (next == 'e' || next == 'u' || next == 'v') {
            state = next;
            count = 0;
            unit = 0;
        } else {
            standard.write(ESCAPE);
            standard.write(next);
        }
    }

    private void digit(int next) throws IOException {
        unit = unit * 16 + Character.digit(next, 16);
        if (++count == DIGITS) {
            write((char) unit, state == 'u' ? standard : error);
            state = 0;
        }
    }

    /** Writes a unit in UTF-8. A pair of units is one character, and a lone half of one is `?`, as Java prints it. */
    private void write(char next, OutputStream stream) throws IOException {
        if (Character.isHighSurrogate(next)) {
            high = next;
            return;
        }
        String text = high != 0 ? "" + high + next : "" + next;
        high = 0;
        stream.write(text.getBytes(StandardCharsets.UTF_8));
    }
}
