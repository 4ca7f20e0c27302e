; Numbers of 32 bits: what overflows comes round, a quotient is rounded to zero, a shift's distance is taken modulo 32.
;
;   ./jvmx eval --entry 'Arithmetic.next.(I)I' --args 2147483647 examples/Arithmetic.j       -2147483648
;   ./jvmx eval --entry 'Arithmetic.halves.(I)I' --args=-7 examples/Arithmetic.j       -3
;   ./jvmx eval --entry 'Arithmetic.top_bits.(II)I' --args=-1,28 examples/Arithmetic.j       15
.class public Arithmetic
.super java/lang/Object

.method public static next(I)I
  .limit stack 2
  .limit locals 1
  iload_0
  iconst_1
  iadd
  ireturn
.end method

.method public static halves(I)I
  .limit stack 2
  .limit locals 1
  iload_0
  iconst_2
  idiv
  ireturn
.end method

.method public static top_bits(II)I
  .limit stack 2
  .limit locals 2
  iload_0
  iload_1
  iushr
  ireturn
.end method
