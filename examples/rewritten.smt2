(declare-datatype Option (par (X) (
  (none)
  (some (val X)))))
; "context.suspended"
(declare-const t0 Bool)
; "context.guest"
(declare-const t1 Bool)
; "context.invited"
(declare-const t2 Bool)
(define-fun t3 () Bool (not t2))
(define-fun t4 () Bool (and t1 t3))
(define-fun t5 () Bool (or t0 t4))
(define-fun t6 () Bool (not t5))
(define-fun t7 () Bool (not t0))
(define-fun t8 () Bool (not t1))
(define-fun t9 () Bool (or t8 t2))
(define-fun t10 () Bool (and t7 t9))
(define-fun t11 () Bool (= t6 t10))
(define-fun t12 () Bool (not t11))
(assert t12)
