.class public G
.super java/lang/Object
.method public static gcd(II)I
.limit stack 3
.limit locals 2
Top:
  iload_1
  ifeq End
  iload_1
  iload_0
  iload_1
  irem
  istore_1
  istore_0
  goto Top
End:
  iload_0
  ireturn
.end method
