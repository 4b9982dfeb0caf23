"The core text with which these examples begin: the seven objects that every world must have, and everyday messages."
lobby = lobby.
nil = ( | parent* = lobby. isNil = ( true ) | ).
isNil = ( false ).
clone = ( _Clone ).
true = ( | parent* = lobby. ifTrue: a False: b = ( a value ). ifTrue: a = ( a value ). ifFalse: a = ( nil ).
  and: b = ( b value ). or: b = ( true ). not = ( false ) | ).
false = ( | parent* = lobby. ifTrue: a False: b = ( b value ). ifTrue: a = ( nil ). ifFalse: a = ( a value ).
  and: b = ( false ). or: b = ( b value ). not = ( true ) | ).
integerTraits = ( | parent* = lobby.
  + n = ( _IntAdd: n ). - n = ( _IntSub: n ). * n = ( _IntMul: n ). / n = ( _IntDiv: n ). % n = ( _IntMod: n ).
  = n = ( _IntEQ: n ). < n = ( _IntLT: n ). <= n = ( _IntLE: n ). > n = ( n _IntLT: self ).
  to: n Do: b = ( | i | i: self. [ i <= n ] whileTrue: [ b value: i. i: i + 1 ]. self ).
  print = ( _IntPrint ) | ).
stringTraits = ( | parent* = lobby. size = ( _Size ). at: i = ( _At: i ). print = ( _StringPrint ) | ).
vectorTraits = ( | parent* = lobby. size = ( _Size ). at: i = ( _At: i ). at: i Put: x = ( _At: i Put: x ).
  do: b = ( | i <- 0 | [ i < size ] whileTrue: [ b value: (at: i). i: i + 1 ]. self ) | ).
blockTraits = ( | parent* = lobby. whileTrue: b = ( value ifFalse: [ ^ nil ]. b value. _Restart ) | ).

"Collections: a list is a chain of cells, and the empty list is one object. Each of the two knows do:, and what rests on
 do: stands once, in the traits that they share."
listTraits = ( | parent* = lobby.
  prepend: x = ( | c | c: cell clone. c head: x. c tail: self. c ).
  inject: x Into: b = ( | r | r: x. do: [ | :e | r: (b value: r With: e) ]. r ).
  size = ( inject: 0 Into: [ | :n. :e | n + 1 ] ).
  sum = ( inject: 0 Into: [ | :n. :e | n + e ] ).
  reverse = ( inject: emptyList Into: [ | :l. :e | l prepend: e ] ).
  select: b = ( | l | l: emptyList. do: [ | :e | (b value: e) ifTrue: [ l: (l prepend: e) ] ]. l reverse ).
  find: b = ( do: [ | :e | (b value: e) ifTrue: [ ^ e ] ]. nil ).
  print = ( do: [ | :e | e print ]. self ) | ).
emptyList = ( | parent* = listTraits. do: b = ( self ) | ).
cell = ( | parent* = listTraits. head. tail. do: b = ( b value: head. tail do: b ) | ).

squares = ( | l | l: emptyList. 1 to: 6 Do: [ | :k | l: (l prepend: k * k) ]. l reverse ).
main = ( | l | l: squares. (l select: [ | :e | (e % 2) = 0 ]) print. l size print. (l find: [ | :e | e > 10 ]) print. l sum ).
nothing = ( squares find: [ | :e | e > 100 ] ).
