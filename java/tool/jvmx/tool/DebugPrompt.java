package jvmx.tool;

import java.util.regex.Matcher;
import java.util.regex.Pattern;

/**
 * Shows a prompt at a terminal. jvmx shows none to a pipe, so the tool asks it something after each command: the line
 * that answers this is the end of the command's own answer.
 */
final class DebugPrompt {
    /** A command that changes nothing: there is no such breakpoint. */
    private static final String QUESTION = "delete 4294967295";
    private static final Pattern POSITION = Pattern.compile("at (\\d+) of .*");

    private final boolean isShown;
    /** The answer to the question, once it came for the first time. */
    private String answer;
    private String position = "0";
    /** Whether the next line is the whole answer to a command like the question. */
    private volatile boolean isSingle;

    /** Makes one that shows nothing where the command isn't debug, or no terminal is there. */
    DebugPrompt(boolean isDebugging) {
        isShown = isDebugging && System.console() != null;
    }

    /** Returns whether prompts are shown, so that each line has to be. */
    boolean isShown() {
        return isShown;
    }

    /** Returns what jvmx is asked at the begin of the session. */
    String begin() {
        return isShown ? QUESTION + "\n" : "";
    }

    /** Returns a command, with what is asked after it. */
    String command(String line) {
        if (!isShown) {
            return line + "\n";
        }
        isSingle = line.trim().startsWith("delete");
        return isSingle ? line + "\n" : line + "\n" + QUESTION + "\n";
    }

    /** Returns whether a line of jvmx is for the caller. Shows a prompt where an answer ends. */
    boolean isAnswer(String line) {
        if (!isShown) {
            return true;
        }
        boolean isEnd = answer == null || line.equals(answer);
        if (answer == null) {
            answer = line;
        }
        Matcher at = POSITION.matcher(line);
        position = at.matches() ? at.group(1) : position;
        return !isEnd || isSingle;
    }

    /** Shows the prompt if the line was the end of an answer. */
    void show(String line) {
        if (isShown && (isSingle || line.equals(answer))) {
            isSingle = false;
            System.err.print(position + "> ");
            System.err.flush();
        }
    }
}
