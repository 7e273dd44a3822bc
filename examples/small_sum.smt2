(declare-datatype Option (par (X) (
  (none)
  (some (val X)))))
; "x"
(declare-const t0 (_ BitVec 4))
(define-fun t1 () Bool (bvule t0 (_ bv5 4)))
; "y"
(declare-const t2 (_ BitVec 4))
(define-fun t3 () Bool (bvule t2 (_ bv5 4)))
(define-fun t4 () (_ BitVec 4) (bvadd t0 t2))
(define-fun t5 () Bool (bvult t4 t0))
(assert t1)
(assert t3)
(assert t5)
