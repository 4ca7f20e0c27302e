; A method that calls itself: the numbers of Fibonacci. Each call has a frame of its own, with its own locals and operands.
;
;   ./jvmx eval --entry 'Recursion.fibonacci.(I)I' --args 20 examples/Recursion.j       6765
.class public Recursion
.super java/lang/Object
.method public static fibonacci(I)I
.limit stack 3
  iload_0
  iconst_2
  if_icmplt Small
  iload_0
  iconst_1
  isub
  invokestatic Recursion/fibonacci(I)I
  iload_0
  iconst_2
  isub
  invokestatic Recursion/fibonacci(I)I
  iadd
  ireturn
Small:
  iload_0
  ireturn
.end method
