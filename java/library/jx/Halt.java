package jx;

/** Ends a thread that waits when the program ends. */
final class Halt extends Error {
    Halt() {
    }
}
