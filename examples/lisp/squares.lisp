; Sends the squares of 1 to 20 to node 0 (sum.lisp), and prints what comes back.
(define squares (lambda (n list) (if (eq n 0) list (squares (- n 1) (cons (* n n) list)))))
(send 0 (squares 20 ()))
(receive)
