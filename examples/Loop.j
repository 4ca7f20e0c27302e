; A loop: the sum of the numbers from 1 to n. A label names the instruction that follows it.
;
;   ./jvmx eval --entry 'Loop.sum.(I)I' --args 100 examples/Loop.j       5050
.class public Loop
.super java/lang/Object

.method public static sum(I)I
  .limit stack 2
  .limit locals 2
  iconst_0
  istore_1
Again:
  iload_0
  ifle Done
  iload_1
  iload_0
  iadd
  istore_1
  iinc 0 -1
  goto Again
Done:
  iload_1
  ireturn
.end method
