package java.security;

/** Where code is from, which isn't asked. */
public class CodeSource implements java.io.Serializable {
    private CodeSource() {
    }
}
