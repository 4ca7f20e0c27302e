; Locals above 255 and a step of more than a byte: the assembler puts `wide` before these instructions. A label still
; counts instructions, so that the branch leads where it says.
;
;   ./jvmx eval --entry 'WideLocals.up.(I)I' --args 7 examples/WideLocals.j       1007
.class public WideLocals
.super java/lang/Object

.method public static up(I)I
  .limit stack 1
  .limit locals 300
  iload 0
  istore 299
  goto Skip
  nop
Skip:
  iinc 299 1000
  iload 299
  ireturn
.end method
