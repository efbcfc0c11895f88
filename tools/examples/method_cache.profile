 line   bundles   stalls accesses    words  text
   13         0       18        3       10  .func main
   14         1        0        0        0  call f
   15         1        0        0        0  nop
   16         1        0        0        0  nop
   17         1        0        0        0  nop
   18         1        0        0        0  mts srb = r0
   19         1        0        0        0  ret
   20         1        0        0        0  nop
   21         1        0        0        0  nop
   22         1        0        0        0  nop
   23         0       14        2        6  .func f
   24         1        0        0        0  addi r1 = r0, 9
   25         1        0        0        0  ret
   26         1        0        0        0  nop
   27         1        0        0        0  nop
   28         1        0        0        0  nop
  all        14       32        5       16
core 0 done 9 cycles 46
