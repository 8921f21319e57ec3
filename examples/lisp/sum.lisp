; Adds up the numbers of a list that another node makes (squares.lisp), and sends the sum back.
(define add (lambda (list sum) (if (null list) sum (add (cdr list) (+ sum (car list))))))
(send 1 (add (receive) 0))
