; The object that DoubleCheckedMended gives, in a class of its own: the initialiser makes it.
.class DoubleCheckedMended$Holder
.super java/lang/Object
.field static final instance Ljava/lang/Object;

.method static <clinit>()V
  .limit stack 2
  new java/lang/Object
  dup
  invokespecial java/lang/Object/<init>()V
  putstatic DoubleCheckedMended$Holder/instance Ljava/lang/Object;
  return
.end method
