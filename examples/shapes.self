"The core text with which these examples begin: the seven objects that every world must have, and everyday messages."
lobby = lobby.
nil = ( | parent* = lobby. isNil = ( true ) | ).
isNil = ( false ).
clone = ( _Clone ).
true = ( | parent* = lobby. ifTrue: a False: b = ( a value ). ifTrue: a = ( a value ). ifFalse: a = ( nil ).
  and: b = ( b value ). or: b = ( true ). not = ( false ) | ).
false = ( | parent* = lobby. ifTrue: a False: b = ( b value ). ifTrue: a = ( nil ). ifFalse: a = ( a value ).
  and: b = ( false ). or: b = ( b value ). not = ( true ) | ).
integerTraits = ( | parent* = lobby.
  + n = ( _IntAdd: n ). - n = ( _IntSub: n ). * n = ( _IntMul: n ). / n = ( _IntDiv: n ). % n = ( _IntMod: n ).
  = n = ( _IntEQ: n ). < n = ( _IntLT: n ). <= n = ( _IntLE: n ). > n = ( n _IntLT: self ).
  to: n Do: b = ( | i | i: self. [ i <= n ] whileTrue: [ b value: i. i: i + 1 ]. self ).
  print = ( _IntPrint ) | ).
stringTraits = ( | parent* = lobby. size = ( _Size ). at: i = ( _At: i ). print = ( _StringPrint ) | ).
vectorTraits = ( | parent* = lobby. size = ( _Size ). at: i = ( _At: i ). at: i Put: x = ( _At: i Put: x ).
  do: b = ( | i <- 0 | [ i < size ] whileTrue: [ b value: (at: i). i: i + 1 ]. self ) | ).
blockTraits = ( | parent* = lobby. whileTrue: b = ( value ifFalse: [ ^ nil ]. b value. _Restart ) | ).

"A hierarchy: each shape knows its area, and what holds of every shape stands in one place."
traits = ( | shape = ( | parent* = lobby.
  name = ( 'a shape' ).
  isLargerThan: other = ( area > other area ).
  show = ( name print. area print ) | ) | ).
square = ( | parent* = traits shape. side <- 1. name = ( 'a square' ). area = ( side * side ) | ).
rectangle = ( | parent* = traits shape. width <- 1. height <- 1. name = ( 'a rectangle' ). area = ( width * height ) | ).
triangle = ( | parent* = traits shape. base <- 1. height <- 1. area = ( (base * height) / 2 ) | ).

shapes = ( | v | v: 3 _VectorNew.
  v at: 0 Put: (square clone side: 4).
  v at: 1 Put: ((rectangle clone width: 3) height: 7).
  v at: 2 Put: ((triangle clone base: 5) height: 6) ).
main = ( | largest | largest: square.
  shapes do: [ | :s | s show. (s isLargerThan: largest) ifTrue: [ largest: s ] ].
  largest name print. largest area ).
