"The core text with which these examples begin: the seven objects that every world must have, and everyday messages."
lobby = lobby.
nil = ( | parent* = lobby. isNil = ( true ) | ).
isNil = ( false ).
clone = ( _Clone ).
true = ( | parent* = lobby. ifTrue: a False: b = ( a value ). ifTrue: a = ( a value ). ifFalse: a = ( nil ).
  and: b = ( b value ). or: b = ( true ). not = ( false ) | ).
false = ( | parent* = lobby. ifTrue: a False: b = ( b value ). ifTrue: a = ( nil ). ifFalse: a = ( a value ).
  and: b = ( false ). or: b = ( b value ). not = ( true ) | ).
integerTraits = ( | parent* = lobby.
  + n = ( _IntAdd: n ). - n = ( _IntSub: n ). * n = ( _IntMul: n ). / n = ( _IntDiv: n ). % n = ( _IntMod: n ).
  = n = ( _IntEQ: n ). < n = ( _IntLT: n ). <= n = ( _IntLE: n ). > n = ( n _IntLT: self ).
  to: n Do: b = ( | i | i: self. [ i <= n ] whileTrue: [ b value: i. i: i + 1 ]. self ).
  print = ( _IntPrint ) | ).
stringTraits = ( | parent* = lobby. size = ( _Size ). at: i = ( _At: i ). print = ( _StringPrint ) | ).
vectorTraits = ( | parent* = lobby. size = ( _Size ). at: i = ( _At: i ). at: i Put: x = ( _At: i Put: x ).
  do: b = ( | i <- 0 | [ i < size ] whileTrue: [ b value: (at: i). i: i + 1 ]. self ) | ).
blockTraits = ( | parent* = lobby. whileTrue: b = ( value ifFalse: [ ^ nil ]. b value. _Restart ) | ).

"Vectors: one is filled, sorted by insertion, and looked through by halves."
fill: v = ( | x <- 7. i <- 0 | [ i < v size ] whileTrue: [ v at: i Put: x. x: (x * 5) % 23. i: i + 1 ]. v ).
insert: x Into: v At: j = ( | i | i: j.
  [ (i > 0) and: [ x < (v at: i - 1) ] ] whileTrue: [ v at: i Put: (v at: i - 1). i: i - 1 ].
  v at: i Put: x ).
sort: v = ( 1 to: v size - 1 Do: [ | :j | insert: (v at: j) Into: v At: j ]. v ).
place: x In: v = ( | low <- 0. high. middle | high: v size.
  [ low < high ] whileTrue: [ middle: (low + high) / 2.
    (x = (v at: middle)) ifTrue: [ ^ middle ].
    (x < (v at: middle)) ifTrue: [ high: middle ] False: [ low: middle + 1 ] ].
  nil ).

main = ( | v | v: (sort: (fill: 6 _VectorNew)). v do: [ | :x | x print ]. (place: 12 In: v) print. place: 13 In: v ).
beyond = ( 3 _VectorNew at: 3 ).
