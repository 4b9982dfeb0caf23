"The core text with which these examples begin: the seven objects that every world must have, and everyday messages."
lobby = lobby.
nil = ( | parent* = lobby. isNil = ( true ) | ).
isNil = ( false ).
clone = ( _Clone ).
true = ( | parent* = lobby. ifTrue: a False: b = ( a value ). ifTrue: a = ( a value ). ifFalse: a = ( nil ).
  and: b = ( b value ). or: b = ( true ). not = ( false ) | ).
false = ( | parent* = lobby. ifTrue: a False: b = ( b value ). ifTrue: a = ( nil ). ifFalse: a = ( a value ).
  and: b = ( false ). or: b = ( b value ). not = ( true ) | ).
integerTraits = ( | parent* = lobby.
  + n = ( _IntAdd: n ). - n = ( _IntSub: n ). * n = ( _IntMul: n ). / n = ( _IntDiv: n ). % n = ( _IntMod: n ).
  = n = ( _IntEQ: n ). < n = ( _IntLT: n ). <= n = ( _IntLE: n ). > n = ( n _IntLT: self ).
  to: n Do: b = ( | i | i: self. [ i <= n ] whileTrue: [ b value: i. i: i + 1 ]. self ).
  print = ( _IntPrint ) | ).
stringTraits = ( | parent* = lobby. size = ( _Size ). at: i = ( _At: i ). print = ( _StringPrint ) | ).
vectorTraits = ( | parent* = lobby. size = ( _Size ). at: i = ( _At: i ). at: i Put: x = ( _At: i Put: x ).
  do: b = ( | i <- 0 | [ i < size ] whileTrue: [ b value: (at: i). i: i + 1 ]. self ) | ).
blockTraits = ( | parent* = lobby. whileTrue: b = ( value ifFalse: [ ^ nil ]. b value. _Restart ) | ).

"Exceptions: a block that is tried is handed a way out, a block whose ^ answers for the method that tried it. Whoever is
 handed it may leave by it, however deep."
try: b Catch: c = ( b value: [ | :why | ^ c value: why ] ).

account = ( | parent* = lobby. balance <- 100.
  withdraw: n Else: fail = ( (n <= balance) ifFalse: [ fail value: 'not enough is left' ]. balance: balance - n ).
  pay: n To: other Else: fail = ( withdraw: n Else: fail. other balance: other balance + n ) | ).
shop = ( | parent* = lobby. balance <- 0 | ).

buy: n = ( try: [ | :fail | account pay: n To: shop Else: fail. 'bought' ] Catch: [ | :why | why print. 'not bought' ] ).
main = ( (buy: 70) print. (buy: 70) print. (buy: 30) print. account balance print. shop balance ).
