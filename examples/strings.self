"The core text with which these examples begin: the seven objects that every world must have, and everyday messages."
lobby = lobby.
nil = ( | parent* = lobby. isNil = ( true ) | ).
isNil = ( false ).
clone = ( _Clone ).
true = ( | parent* = lobby. ifTrue: a False: b = ( a value ). ifTrue: a = ( a value ). ifFalse: a = ( nil ).
  and: b = ( b value ). or: b = ( true ). not = ( false ) | ).
false = ( | parent* = lobby. ifTrue: a False: b = ( b value ). ifTrue: a = ( nil ). ifFalse: a = ( a value ).
  and: b = ( false ). or: b = ( b value ). not = ( true ) | ).
integerTraits = ( | parent* = lobby.
  + n = ( _IntAdd: n ). - n = ( _IntSub: n ). * n = ( _IntMul: n ). / n = ( _IntDiv: n ). % n = ( _IntMod: n ).
  = n = ( _IntEQ: n ). < n = ( _IntLT: n ). <= n = ( _IntLE: n ). > n = ( n _IntLT: self ).
  to: n Do: b = ( | i | i: self. [ i <= n ] whileTrue: [ b value: i. i: i + 1 ]. self ).
  print = ( _IntPrint ) | ).
stringTraits = ( | parent* = lobby. size = ( _Size ). at: i = ( _At: i ). print = ( _StringPrint ) | ).
vectorTraits = ( | parent* = lobby. size = ( _Size ). at: i = ( _At: i ). at: i Put: x = ( _At: i Put: x ).
  do: b = ( | i <- 0 | [ i < size ] whileTrue: [ b value: (at: i). i: i + 1 ]. self ) | ).
blockTraits = ( | parent* = lobby. whileTrue: b = ( value ifFalse: [ ^ nil ]. b value. _Restart ) | ).

"Strings: their bytes are integers. What a program prints stands in lines of its own, in which newlines, tabs, backslashes
 and bytes that aren't ASCII are written so that each line stays one."
count: byte In: s = ( | n <- 0. i <- 0 | [ i < s size ] whileTrue: [ ((s at: i) = byte) ifTrue: [ n: n + 1 ]. i: i + 1 ]. n ).
is: s SameAs: t = ( | i <- 0 | (s size = t size) ifFalse: [ ^ false ].
  [ i < s size ] whileTrue: [ ((s at: i) = (t at: i)) ifFalse: [ ^ false ]. i: i + 1 ]. true ).

main = ( 'plain' print. '' print. 'a tab\t, a newline\n, a backslash\\, a quote\'' print. 'Zürich' print. 'Zürich' size print.
  (count: 97 In: 'a lava lamp') print. is: 'one text' SameAs: 'one text' ).
