lobby = lobby. nil = ().
true = ( | parent* = lobby. ifTrue: a False: b = ( a value ) | ).
false = ( | parent* = lobby. ifTrue: a False: b = ( b value ) | ).
integerTraits = ( | parent* = lobby. + n = ( _IntAdd: n ). - n = ( _IntSub: n ).
< n = ( _IntLT: n ). = n = ( _IntEQ: n ) | ).
stringTraits = ( | parent* = lobby. print = ( _StringPrint ) | ).
vectorTraits = ( | parent* = lobby | ).
blockTraits = ( | parent* = lobby.
whileTrue: b = ( value ifTrue: [ b value ] False: [ ^ nil ]. _Restart ) | ).
traits = ( | parent* = lobby.
point = ( | parent* = lobby. + p = ( | r | r: clone. r x: x + p x. r y: y + p y. r ).
clone = ( _Clone ). show = ( x _IntPrint. y _IntPrint ) | ) | ).
point = ( | parent* = traits point. x <- 0. y <- 0 | ).
main = ( | p. q | p: point clone. p x: 3. p y: 4. q: p + p. q show ).
