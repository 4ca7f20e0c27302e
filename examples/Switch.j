; Both switches: the days of a month by a table of its values, and a lookup of values that lie apart.
;
;   ./jvmx eval --entry 'Switch.days.(I)I' --args 2 examples/Switch.j       28
;   ./jvmx eval --entry 'Switch.zeros.(I)I' --args 1000 examples/Switch.j       3
.class public Switch
.super java/lang/Object

.method public static days(I)I
  .limit stack 1
  .limit locals 1
  iload_0
  tableswitch 1
    Long
    February
    Long
    Short
    Long
    Short
    Long
    Long
    Short
    Long
    Short
    Long
    default : None
Long:
  bipush 31
  ireturn
Short:
  bipush 30
  ireturn
February:
  bipush 28
  ireturn
None:
  iconst_0
  ireturn
.end method

.method public static zeros(I)I
  .limit stack 1
  .limit locals 1
  iload_0
  lookupswitch
    10 : One
    100 : Two
    1000 : Three
    default : None
One:
  iconst_1
  ireturn
Two:
  iconst_2
  ireturn
Three:
  iconst_3
  ireturn
None:
  iconst_m1
  ireturn
.end method
