(declare-datatype Option (par (X) (
  (none)
  (some (val X)))))
; "context.approved"
(declare-const t0 Bool)
; "context.manager"
(declare-const t1 Bool)
(define-fun t2 () Bool (or t0 t1))
; "context.frozen"
(declare-const t3 Bool)
(define-fun t4 () Bool (not t3))
(define-fun t5 () Bool (and t2 t4))
(assert t5)
(check-sat)
(push 1)
(assert t3)
(check-sat)
(pop 1)
(define-fun t6 () Bool (not t0))
(assert t6)
(check-sat)
