(declare-datatype Option (par (X) (
  (none)
  (some (val X)))))
; "x"
(declare-const t0 (_ BitVec 8))
(define-fun t1 () Bool (bvslt (_ bv0 8) t0))
; "y"
(declare-const t2 (_ BitVec 8))
(define-fun t3 () Bool (bvslt (_ bv0 8) t2))
(define-fun t4 () (_ BitVec 8) (bvadd t0 t2))
(define-fun t5 () Bool (bvslt t4 (_ bv0 8)))
(assert t1)
(assert t3)
(assert t5)
