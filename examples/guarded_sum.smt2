(declare-datatype Option (par (X) (
  (none)
  (some (val X)))))
; "context.x"
(declare-const t0 (_ BitVec 64))
(define-fun t1 () Bool (bvslt (_ bv0 64) t0))
(define-fun t2 () Bool (bvslt t0 (_ bv1000 64)))
; "context.y"
(declare-const t3 (_ BitVec 64))
(define-fun t4 () Bool (bvslt (_ bv0 64) t3))
(define-fun t5 () Bool (bvslt t3 (_ bv1000 64)))
(define-fun t6 () Bool (bvsaddo t0 t3))
(assert t1)
(assert t2)
(assert t4)
(assert t5)
(assert t6)
