lobby = lobby. nil = ().
true = ( | parent* = lobby. ifTrue: a False: b = ( a value ) | ).
false = ( | parent* = lobby. ifTrue: a False: b = ( b value ) | ).
integerTraits = ( | parent* = lobby. + n = ( _IntAdd: n ). - n = ( _IntSub: n ).
< n = ( _IntLT: n ). = n = ( _IntEQ: n ) | ).
stringTraits = ( | parent* = lobby. print = ( _StringPrint ) | ).
vectorTraits = ( | parent* = lobby | ).
blockTraits = ( | parent* = lobby.
whileTrue: b = ( value ifTrue: [ b value ] False: [ ^ nil ]. _Restart ) | ).
main = ( 3 + 4 + 5 ).
