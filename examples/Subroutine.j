; A subroutine within a method: `jsr` leaves the place behind it on the stack, and `ret` goes back to the place that a
; local holds. Here it adds the square of local 0 to local 1, and is called twice.
;
;   ./jvmx eval --entry 'Subroutine.squares.(II)I' --args 3,4 examples/Subroutine.j       25
.class public Subroutine
.super java/lang/Object

.method public static squares(II)I
  .limit stack 3
  .limit locals 4
  iconst_0
  istore_2
  jsr Square
  iload_1
  istore_0
  jsr Square
  iload_2
  ireturn
Square:
  astore_3
  iload_2
  iload_0
  iload_0
  imul
  iadd
  istore_2
  ret 3
.end method
